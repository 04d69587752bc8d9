/* What the tests of the library for C share. */
#include "hoxalgurre.h"

#include <stdio.h>
#include <stdlib.h>
#include <string.h>

#define GITHUB (HOXALGURRE_GFM | HOXALGURRE_GFM_INLINES)
#define EVERYTHING \
    (HOXALGURRE_WANT_EVENTS | HOXALGURRE_WANT_LABELS | HOXALGURRE_WANT_OUTLINE | HOXALGURRE_WANT_HTML)

/* The text that a thread tries, if that is of interest. */
static _Thread_local const uint8_t *failing = (const uint8_t *)"";
static _Thread_local size_t failing_len;

/* Ends the program where a condition does not hold. */
#define CHECK(condition) \
    do { \
        if (!(condition)) { \
            fprintf(stderr, "%s:%d: not so: %s\n", __FILE__, __LINE__, #condition); \
            fwrite(failing, 1, failing_len, stderr); \
            exit(1); \
        } \
    } while (0)

static inline uint32_t parse(const char *text, uint64_t constructs, uint32_t wanted, struct hoxalgurre_document *out) {
    return hoxalgurre_parse((const uint8_t *)text, strlen(text), constructs, wanted, out);
}

/* Whether nothing is in a document. */
static inline bool is_empty(const struct hoxalgurre_document *it) {
    return !it->events && !it->event_count && !it->definitions && !it->definition_count && !it->footnotes &&
           !it->footnote_count && !it->lines && !it->line_count && !it->bytes && !it->byte_count && !it->html &&
           !it->html_len;
}
