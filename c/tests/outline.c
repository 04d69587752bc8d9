/* outline SET < TEXT: prints the outline and the labels of a text, as the program `blocks` does. With `inlines` after
 * SET the text is read with all inline constructs, which changes no outline. */
#include "check.h"

static const char *const words[HOXALGURRE_WORD_COUNT] = {
    "frontmatter ", "heading ", "break", "code", "fence ", "math", "html", "definition", "paragraph", "table ", "row",
    "quote", "alert ", "list ", "item", "footnote", "| ", "info | ", "meta | ", "label | ", "destination | ",
    "title | ", "delimiter | ", "cell | ",
};
static const char *const kinds[HOXALGURRE_ALERT_COUNT] = {"note", "tip", "important", "warning", "caution"};

static void print_line(const struct hoxalgurre_document *it, const struct hoxalgurre_line *line) {
    printf("%*s%s", (int)(2 * line->depth), "", words[line->word]);
    if (line->word == HOXALGURRE_WORD_ALERT) {
        printf("%s", kinds[line->value]);
    } else if (line->value > 0) {
        printf("%zu", line->value);
    }
    if (line->marker != 0) {
        putchar(line->marker);
    }
    if ((line->word == HOXALGURRE_WORD_FENCE || line->word == HOXALGURRE_WORD_MATH) && !line->is_closed) {
        printf(" open");
    }
    printf("%*s", (int)line->spaces, "");
    fwrite(it->bytes + line->text.at, 1, line->text.len, stdout);
    putchar('\n');
}

static void print_labels(const struct hoxalgurre_document *it, const char *of, struct hoxalgurre_span *at,
                         size_t count) {
    printf("%s %zu\n", of, count);
    for (; count > 0; count--, at++) {
        printf("= ");
        fwrite(it->bytes + at->at, 1, at->len, stdout);
        putchar('\n');
    }
}

int main(int argc, char **argv) {
    static const char *const sets[] = {"commonmark", "gfm", "all", "alerts"};
    static const uint64_t bits[] = {HOXALGURRE_COMMONMARK, HOXALGURRE_GFM, HOXALGURRE_ALL, HOXALGURRE_ALERTS};
    size_t set = 0, len;
    while (set < 3 && strcmp(argv[1], sets[set]) != 0) {
        set++;
    }
    char *text = malloc(1 << 24);
    struct hoxalgurre_document it;
    CHECK(text != NULL);
    len = fread(text, 1, 1 << 24, stdin);
    CHECK(hoxalgurre_parse((uint8_t *)text, len, bits[set] | (argc > 2 ? HOXALGURRE_ALL_INLINES : 0),
                           HOXALGURRE_WANT_OUTLINE | HOXALGURRE_WANT_LABELS, &it) == HOXALGURRE_OK);
    for (size_t at = 0; at < it.line_count; at++) {
        print_line(&it, &it.lines[at]);
    }
    putchar('\n');
    print_labels(&it, "definitions", it.definitions, it.definition_count);
    print_labels(&it, "footnotes", it.footnotes, it.footnote_count);
    hoxalgurre_free(&it);
    free(text);
    return 0;
}
