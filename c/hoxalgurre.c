/* What the library for C has beside the exports of the crate hoxalgurre_c: the functions that return a pointer, which
 * an export cannot, and the one that frees. */
#include "hoxalgurre.h"

#include <stdlib.h>

#define TEXT_OF(value) #value
#define VERSION_TEXT(major, minor, patch) TEXT_OF(major) "." TEXT_OF(minor) "." TEXT_OF(patch)

uint32_t hoxalgurre_version(void) {
    return HOXALGURRE_VERSION;
}

const char *hoxalgurre_version_text(void) {
    return VERSION_TEXT(HOXALGURRE_VERSION_MAJOR, HOXALGURRE_VERSION_MINOR, HOXALGURRE_VERSION_PATCH);
}

const char *hoxalgurre_status_text(uint32_t status) {
    static const char *const texts[] = {"done", "not UTF-8", "too long", "out of memory", "unknown flag"};
    return status < sizeof texts / sizeof *texts ? texts[status] : NULL;
}

const char *hoxalgurre_name_text(uint32_t name) {
    static const char *const texts[] = {
#include "names.h"
    };
    return name < sizeof texts / sizeof *texts ? texts[name] : NULL;
}

/* The arrays are blocks of the library's heap: `rattle_alloc` of the kit returns what malloc does. */
void hoxalgurre_free(struct hoxalgurre_document *document) {
    if (document == NULL) {
        return;
    }
    free(document->events);
    free(document->definitions);
    free(document->footnotes);
    free(document->lines);
    free(document->bytes);
    free(document->html);
    *document = (struct hoxalgurre_document){0};
}
