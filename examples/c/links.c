/* links FILE: what is wrong with the links of a Markdown file: a destination that is no heading of the text and no file
 * beside it, a definition that is there twice or that nothing refers to. The status is 1 where anything is. */
#include "text.h"
#include <ctype.h>
#include <unistd.h>
#define IS(event, word) ((event)->name == HOXALGURRE_NAME_##word)

/* Finds the anchors of headings (their text in lower case, with `-` for spaces, without other punctuation), and the
 * labels of references. Each list has room. */
static void find_targets(const char *text, struct hoxalgurre_document document, char **anchors, char **labels) {
    char *anchor = NULL, *to = NULL, *label = NULL;
    for (struct hoxalgurre_event *it = document.events; it < document.events + document.event_count; it++) {
        if (IS(it, HEADING_ATX) || IS(it, HEADING_SETEXT)) {
            if (it->is_exit) *to = 0, *anchors++ = anchor;
            anchor = to = it->is_exit ? NULL : part(text, it);
        } else if (anchor != NULL && !it->is_exit && (IS(it, DATA) || IS(it, CODE_TEXT_DATA))) {
            for (const unsigned char *from = (unsigned char *)part(text, it); *from; from++)
                if (isalnum(*from) || *from > 127 || strchr(" -_", *from)) *to++ = *from == ' ' ? '-' : tolower(*from);
        } else if (it->is_exit && (IS(it, LABEL_TEXT) || IS(it, REFERENCE_STRING))) {
            label = part(text, it);
        } else if (it->is_exit && label != NULL && (IS(it, RESOURCE) || IS(it, LINK) || IS(it, IMAGE))) {
            if (!IS(it, RESOURCE)) *labels++ = form(label);
            label = NULL;
        }
    }
}

/* What is wrong with a destination, or NULL: that of a path is looked for beside the file. */
static const char *fault(const char *file, const char *to, char **anchors) {
    const char *name = strrchr(file, '/');
    char path[4096];
    snprintf(path, sizeof path, "%.*s%.*s", name ? (int)(name + 1 - file) : 0, file, (int)strcspn(to, "#"), to);
    if (*to == '#') return to[1] && !has(anchors, to + 1) ? "no such heading " : NULL;
    return *to && !strchr(to, ':') && access(path, F_OK) ? "no such file " : NULL;
}

int main(int argc, char **argv) {
    FILE *file = argc == 2 ? fopen(argv[1], "rb") : NULL;
    size_t len, next = 0, status = 0;
    char *text = file ? read_all(file, &len) : NULL, **lists[3];
    struct hoxalgurre_document document = {0};
    if (text == NULL || hoxalgurre_parse((uint8_t *)text, len, HOXALGURRE_GFM | HOXALGURRE_GFM_INLINES,
                                         HOXALGURRE_WANT_EVENTS | HOXALGURRE_WANT_LABELS, &document)) return 2;
    for (int at = 0; at < 3; at++) lists[at] = had(calloc(document.event_count + 1, sizeof(char *)));
    find_targets(text, document, lists[0], lists[1]);
    for (struct hoxalgurre_event *it = document.events; it < document.events + document.event_count; it++) {
        const char *what = NULL, *word = it->is_exit ? NULL : part(text, it);
        if (word != NULL && IS(it, DEFINITION_LABEL_STRING)) {
            word = document.bytes + document.definitions[next].at;
            what = has(lists[2], word) ? "duplicate definition [" : has(lists[1], word) ? NULL : "unused definition [";
            lists[2][next++] = (char *)word;
        } else if (word != NULL && (IS(it, RESOURCE_DESTINATION_STRING) || IS(it, DEFINITION_DESTINATION_STRING))) {
            what = fault(argv[1], word, lists[0]);
        }
        if (what == NULL) continue;
        printf("%s:%zu:%zu: %s%s%s\n", argv[1], it->line, it->column, what, word, strchr(what, '[') ? "]" : "");
        status = 1;
    }
    return (int)status;
}
