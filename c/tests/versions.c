/* versions ONE OTHER: two shared libraries of different versions in one process, beside the static one that this
 * program is linked with. Each call is that of its own version, and all parse alike. The program has functions named as
 * the heap of the toolchain, which no library may call. */
#include "check.h"

#include <dlfcn.h>

typedef uint32_t version_call(void);
typedef uint32_t parse_call(const uint8_t *, size_t, uint64_t, uint32_t, struct hoxalgurre_document *);
typedef void free_call(struct hoxalgurre_document *);
struct library {
    version_call *version;
    parse_call *parse;
    free_call *free;
};

void rattle_alloc(void) {
    abort();
}

void rattle_realloc(void) {
    abort();
}

void rattle_dealloc(void) {
    abort();
}

static struct library opened(const char *path) {
    void *handle = dlopen(path, RTLD_NOW | RTLD_GLOBAL);
    struct library found;
    CHECK(handle != NULL && dlsym(handle, "rattle_alloc") != dlsym(handle, "hoxalgurre_parse"));
    *(void **)&found.version = dlsym(handle, "hoxalgurre_version");
    *(void **)&found.parse = dlsym(handle, "hoxalgurre_parse");
    *(void **)&found.free = dlsym(handle, "hoxalgurre_free");
    CHECK(found.version && found.parse && found.free);
    return found;
}

int main(int argc, char **argv) {
    CHECK(argc == 3);
    const char *text = "# *a*\n\n[b]: c\n";
    struct library all[3] = {{hoxalgurre_version, hoxalgurre_parse, hoxalgurre_free}, opened(argv[1]), opened(argv[2])};
    struct hoxalgurre_document made[3];
    CHECK(all[0].parse != all[1].parse && all[1].parse != all[2].parse);
    CHECK(all[0].version() == HOXALGURRE_VERSION && all[1].version() == HOXALGURRE_VERSION);
    CHECK(all[2].version() == 10901);
    for (int at = 0; at < 3; at++) {
        CHECK(all[at].parse((const uint8_t *)text, strlen(text), GITHUB, EVERYTHING, &made[at]) == HOXALGURRE_OK);
    }
    for (int at = 0; at < 3; at++) {
        CHECK(made[at].event_count == made[2].event_count && strcmp(made[at].html, "<h1><em>a</em></h1>\n") == 0);
        CHECK(made[at].definition_count == 1 && strcmp(made[at].bytes + made[at].definitions[0].at, "b") == 0);
        all[at].free(&made[at]);
    }
    return 0;
}
