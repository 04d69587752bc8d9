/* Refuses each request for memory of each call in turn: alone, and with all that follow it. Then the status says so,
 * what was asked for before is freed, and nothing is handed over. It is linked with --wrap for malloc, realloc and
 * free. */
#include "check.h"

void *__real_malloc(size_t size);
void *__real_realloc(void *block, size_t size);
void __real_free(void *block);

static size_t requests, first_refused;
static bool all_after;
static long live;

static bool is_refused(void) {
    requests++;
    return requests == first_refused || (all_after && requests > first_refused);
}

void *__wrap_malloc(size_t size) {
    void *block = is_refused() ? NULL : __real_malloc(size);
    live += block != NULL;
    return block;
}

void *__wrap_realloc(void *block, size_t size) {
    void *moved = is_refused() ? NULL : __real_realloc(block, size);
    live += block == NULL && moved != NULL;
    return moved;
}

void __wrap_free(void *block) {
    live -= block != NULL;
    __real_free(block);
}

static const char text[] =
    "\xef\xbb\xbf---\nz: y\n---\n\n# a *b* `c` ~d~ $e$\n\n> [!NOTE]\n> [f][] ![g](<h> 'i')\n\n1. j\n2. - [x] k\n\n\tl\n"
    "\n```m n\no\n```\n\n$$\np\n$$\n\n<q>\n\n|r|s|\n|-|:-:|\n|t|\\u|\n\n[F]: /v \"w\"\n\n[^x]: y[^x]\n\nwww.z.org &amp;"
    " <b@c.d>\\\n**e f**\n===\n\n***\n\n[\u1e9e  g]: h\n";
enum { CALLS = 4 };
static const char *const names[CALLS] = {"parse", "parse_part", "events", "normal_form"};
static struct hoxalgurre_document document;
static struct hoxalgurre_event events[2048];
static uint8_t form[64];

static uint32_t call(int which) {
    const uint8_t *bytes = (const uint8_t *)text;
    struct hoxalgurre_place place = {0, 0};
    size_t count, len = sizeof text - 1;
    uint32_t status = HOXALGURRE_OK;
    switch (which) {
    case 0:
        return hoxalgurre_parse(bytes, len, HOXALGURRE_ALERTS | HOXALGURRE_ALL_INLINES, EVERYTHING, &document);
    case 1:
        while (status == HOXALGURRE_OK && place.index < len) {
            size_t before = place.index;
            hoxalgurre_free(&document);
            status = hoxalgurre_parse_part(bytes, len, HOXALGURRE_ALERTS, 7, 16, &place, &document);
            CHECK(status == HOXALGURRE_OK || place.index == before);
        }
        return status;
    case 2:
        return hoxalgurre_events(bytes, len, HOXALGURRE_ALERTS, events, 2048, &count);
    default:
        return hoxalgurre_normal_form(bytes, len, form, 64, &count);
    }
}

/* Returns how many runs were refused. */
static size_t refuse(int which) {
    for (first_refused = 1;; first_refused++) {
        requests = 0;
        uint32_t status = call(which);
        if (requests < first_refused) {
            CHECK(status == HOXALGURRE_OK);
            hoxalgurre_free(&document);
            CHECK(live == 0);
            return first_refused - 1;
        }
        CHECK(status == HOXALGURRE_NO_MEMORY);
        CHECK(is_empty(&document) && document.valid_len == 0);
        CHECK(live == 0);
    }
}

int main(void) {
    for (int which = 0; which < CALLS; which++) {
        all_after = false;
        size_t alone = refuse(which);
        all_after = true;
        CHECK(refuse(which) == alone && alone > 0);
        fprintf(stderr, "memory: %s, %zu requests refused twice\n", names[which], alone);
    }
    return 0;
}
