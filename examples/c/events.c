/* events SET < TEXT: prints the events of a text, as the program `events` does, by the library for C. */
#include "text.h"

static void print(const struct hoxalgurre_event *events, size_t count) {
    int depth = 0;
    for (size_t at = 0; at < count; at++) {
        const struct hoxalgurre_event *event = &events[at];
        depth -= event->is_exit;
        printf("%*s%c %s %zu %zu %zu %zu\n", 2 * depth, "", event->is_exit ? '-' : '+',
               hoxalgurre_name_text(event->name), event->line, event->column, event->index, event->vs);
        depth += !event->is_exit;
    }
}

int main(int argc, char **argv) {
    static const char *const words[] = {"commonmark", "gfm", "all", "alerts"};
    static const uint64_t sets[] = {HOXALGURRE_COMMONMARK, HOXALGURRE_GFM, HOXALGURRE_ALL, HOXALGURRE_ALERTS};
    size_t set = 0, len;
    while (argc == 2 && set < 4 && strcmp(words[set], argv[1]) != 0) {
        set++;
    }
    if (argc != 2 || set == 4) {
        fprintf(stderr, "usage: events commonmark|gfm|all|alerts < TEXT\n");
        return 2;
    }
    char *text = read_all(stdin, &len);
    if (text == NULL) {
        fprintf(stderr, "events: no text\n");
        return 2;
    }
    struct hoxalgurre_document document;
    uint32_t status = hoxalgurre_parse((uint8_t *)text, len, sets[set], HOXALGURRE_WANT_EVENTS, &document);
    if (status == HOXALGURRE_OK) {
        print(document.events, document.event_count);
    } else if (status == HOXALGURRE_NOT_UTF8) {
        fprintf(stderr, "events: not UTF-8 at byte %zu\n", document.valid_len);
    } else {
        fprintf(stderr, "events: %s\n", hoxalgurre_status_text(status));
    }
    hoxalgurre_free(&document);
    free(text);
    return (int)status;
}
