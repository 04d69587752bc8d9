/* fuzz SECONDS SEED: whether all calls agree on random texts under random constructs, in eight threads. A text that
 * shows something is written to the standard error. The same seed tries the same texts, as far as the time allows. */
#include "agree.h"

#include <pthread.h>
#include <time.h>

enum { THREADS = 8, MOST = 1 << 13 };
static const char *const pieces[] = {
    "> ", ">", "- ", "-", "+ ", "* ", "1. ", "12) ", "\n", "\n", "\n", "\n\n", "\r", "\r\n", "\t", " ", "  ",
    "    ", "a", "b c", "\u00e9", "# ", "## ", "#", "=", "===", "---", "***", "```", "~~~", "$$", "<div>",
    "<!--", "-->", "<a b=\"c\">", "</pre>", "[a]: b", "[a]", "[^a]: ", "[^b]", "[!NOTE]", "> [!tip]\n", "\\",
    "\"t\"", "'", "(", ")", "<", ">", "a|b", "-|-", ":-", "+++", "\xef\xbb\xbf", "\u3000", "\U0001f600", "*",
    "**", "_", "`", "``", "~", "~~", "$", "![", "](", "](u)", "&amp;", "&#0;", "&#x41;", "<http://a>",
    "<a@b.c>", "www.a.b", "http://c.d/e", "x@y.z", "[ ] ", "[x] ", "  \n", "\\\n",
    "A paragraph that goes on.\n\n", "The last line.\n\n",
};
static time_t until;
static uint64_t seed;

static uint64_t next(uint64_t *state) {
    *state ^= *state << 13;
    *state ^= *state >> 7;
    *state ^= *state << 17;
    return *state;
}

/* How many bytes at the front are UTF-8 (RFC 3629). */
static size_t valid_len(const uint8_t *text, size_t len) {
    size_t at = 0;
    while (at < len) {
        uint8_t first = text[at];
        size_t more = first < 0x80 ? 0 : first < 0xc2 ? 9 : first < 0xe0 ? 1 : first < 0xf0 ? 2 : first < 0xf5 ? 3 : 9;
        if (more > 3 || more >= len - at) {
            return at;
        }
        for (size_t of = 1; of <= more; of++) {
            uint8_t low = of > 1 ? 0x80 : first == 0xe0 ? 0xa0 : first == 0xf0 ? 0x90 : 0x80;
            uint8_t high = of > 1 ? 0xbf : first == 0xed ? 0x9f : first == 0xf4 ? 0x8f : 0xbf;
            if (text[at + of] < low || text[at + of] > high) {
                return at;
            }
        }
        at += more + 1;
    }
    return len;
}

static size_t random_text(uint64_t *state, uint8_t *text) {
    size_t len = 0;
    for (size_t count = next(state) % (next(state) % 8 ? 60 : 1200); count > 0; count--) {
        const char *piece = pieces[next(state) % (sizeof pieces / sizeof *pieces)];
        if (len + strlen(piece) <= MOST) {
            memcpy(text + len, piece, strlen(piece));
            len += strlen(piece);
        }
    }
    if (len > 0 && next(state) % 16 == 0) {
        text[next(state) % len] = (uint8_t)next(state);
    }
    return len;
}

static void try_one(uint64_t *state) {
    uint8_t room[MOST];
    size_t len = random_text(state, room), valid = valid_len(room, len), count;
    uint64_t blocks = next(state) % 4 ? HOXALGURRE_ALERTS : next(state) & HOXALGURRE_ALERTS;
    uint64_t inlines = next(state) % 4 ? HOXALGURRE_ALL_INLINES : next(state) & HOXALGURRE_ALL_INLINES;
    uint8_t *text = malloc(len + 1), form[64];
    CHECK(text != NULL);
    memcpy(text, room, len);
    failing = text, failing_len = len;
    if (valid < len) {
        struct hoxalgurre_document it;
        CHECK(hoxalgurre_parse(text, len, blocks | inlines, EVERYTHING, &it) == HOXALGURRE_NOT_UTF8);
        CHECK(it.valid_len == valid && is_empty(&it));
        CHECK(hoxalgurre_normal_form(text, len, form, 64, &count) == HOXALGURRE_NOT_UTF8 && count == valid);
    } else {
        check_text(text, len, blocks, inlines, 1 + next(state) % 200);
        CHECK(hoxalgurre_normal_form(text, len, form, 64, &count) == HOXALGURRE_OK && count <= 3 * len);
    }
    free(text);
}

static void *run(void *tried) {
    uint64_t at = *(uint64_t *)tried, state = (seed + at) * 0x9e3779b97f4a7c15u | 1;
    uint64_t done = 0;
    while (time(NULL) < until) {
        for (int count = 0; count < 50; count++, done++) {
            try_one(&state);
        }
    }
    *(uint64_t *)tried = done;
    return NULL;
}

int main(int argc, char **argv) {
    pthread_t threads[THREADS];
    uint64_t tried[THREADS], sum = 0;
    CHECK(argc == 3);
    until = time(NULL) + atol(argv[1]);
    seed = strtoull(argv[2], NULL, 10);
    for (uint64_t at = 0; at < THREADS; at++) {
        tried[at] = at + 1;
        CHECK(pthread_create(&threads[at], NULL, run, &tried[at]) == 0);
    }
    for (int at = 0; at < THREADS; at++) {
        CHECK(pthread_join(threads[at], NULL) == 0);
        sum += tried[at];
    }
    printf("fuzz: seed %llu: %llu texts in %d threads\n", (unsigned long long)seed, (unsigned long long)sum, THREADS);
    return 0;
}
