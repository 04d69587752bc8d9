/* threads FILE..: whether all calls agree on each file under each set, in eight threads at once that find the same. */
#include "agree.h"

#include <pthread.h>

enum { THREADS = 8 };
static char **files;
static int file_count;

static size_t check_file(const char *name) {
    static const uint64_t sets[] = {HOXALGURRE_COMMONMARK, HOXALGURRE_GFM, HOXALGURRE_ALL, HOXALGURRE_ALERTS};
    FILE *file = fopen(name, "rb");
    uint8_t *text = malloc(1 << 20);
    CHECK(file != NULL && text != NULL);
    size_t len = fread(text, 1, 1 << 20, file), sum = 0;
    uint8_t *exact = malloc(len + 1);
    CHECK(exact != NULL && len < 1 << 20);
    memcpy(exact, text, len);
    for (int set = 0; set < 4; set++) {
        for (size_t least = 1; least < 5000; least *= 17) {
            sum = sum * 31 + check_text(exact, len, sets[set], HOXALGURRE_ALL_INLINES, least);
        }
    }
    free(exact);
    free(text);
    fclose(file);
    return sum;
}

/* Each thread begins with another file. */
static void *run(void *first) {
    size_t *sum = first, from = *sum;
    *sum = 0;
    for (int at = 0; at < file_count; at++) {
        *sum += check_file(files[(from + (size_t)at) % (size_t)file_count]);
    }
    return NULL;
}

int main(int argc, char **argv) {
    pthread_t threads[THREADS];
    size_t sums[THREADS];
    files = argv + 1;
    file_count = argc - 1;
    CHECK(file_count > 0);
    for (size_t at = 0; at < THREADS; at++) {
        sums[at] = at * (size_t)file_count / THREADS;
        CHECK(pthread_create(&threads[at], NULL, run, &sums[at]) == 0);
    }
    for (int at = 0; at < THREADS; at++) {
        CHECK(pthread_join(threads[at], NULL) == 0 && sums[at] == sums[0]);
    }
    printf("threads: %d texts in %d threads\n", file_count, THREADS);
    return 0;
}
