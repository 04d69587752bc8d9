/* What holds of every text: the calls agree, and what they hand over is well formed. */
#include "check.h"

/* Whether events nest, do not go back, and their innermost pairs lie side by side over `len` bytes. */
static inline void check_events(const struct hoxalgurre_event *events, size_t count, size_t len) {
    uint16_t *open = malloc((count + 1) * sizeof *open);
    size_t depth = 0, covered = 0, vs = 0;
    CHECK(open != NULL);
    for (size_t at = 0; at < count; at++) {
        const struct hoxalgurre_event *it = &events[at], *before = at ? it - 1 : it;
        CHECK(it->index > before->index || (it->index == before->index && it->vs >= before->vs));
        CHECK(it->name < HOXALGURRE_NAME_COUNT && it->is_exit <= 1 && it->line >= 1 && it->column >= 1);
        if (!it->is_exit) {
            open[depth++] = it->name;
        } else {
            CHECK(depth > 0 && open[--depth] == it->name);
            if (!before->is_exit) {
                CHECK(before->index == covered && before->vs == vs);
                covered = it->index, vs = it->vs;
            }
        }
    }
    CHECK(depth == 0 && covered == len && vs == 0);
    free(open);
}

static inline void check_span(const struct hoxalgurre_document *it, struct hoxalgurre_span span) {
    CHECK(span.at < it->byte_count && span.len < it->byte_count - span.at && it->bytes[span.at + span.len] == 0);
}

/* Whether what a document has is within its arrays. Each span is read. */
static inline void check_document(const struct hoxalgurre_document *it, uint32_t wanted) {
    for (size_t at = 0; at < it->definition_count; at++) {
        check_span(it, it->definitions[at]);
    }
    for (size_t at = 0; at < it->footnote_count; at++) {
        check_span(it, it->footnotes[at]);
    }
    for (size_t at = 0; at < it->line_count; at++) {
        CHECK(it->lines[at].word < HOXALGURRE_WORD_COUNT && it->lines[at].is_closed <= 1);
        check_span(it, it->lines[at].text);
    }
    CHECK((it->html != NULL) == ((wanted & HOXALGURRE_WANT_HTML) != 0));
    CHECK(it->html == NULL || it->html[it->html_len] == 0);
    CHECK(it->valid_len == 0);
}

static inline bool is_same_event(const struct hoxalgurre_event *one, const struct hoxalgurre_event *other) {
    return one->name == other->name && one->is_exit == other->is_exit && one->line == other->line &&
           one->column == other->column && one->index == other->index && one->vs == other->vs;
}

static inline bool is_same_text(const struct hoxalgurre_document *one, struct hoxalgurre_span a,
                                const struct hoxalgurre_document *other, struct hoxalgurre_span b) {
    return a.len == b.len && memcmp(one->bytes + a.at, other->bytes + b.at, a.len) == 0;
}

static inline bool is_same_line(const struct hoxalgurre_document *one, const struct hoxalgurre_line *a,
                                const struct hoxalgurre_document *other, const struct hoxalgurre_line *b) {
    return a->word == b->word && a->marker == b->marker && a->is_closed == b->is_closed && a->value == b->value &&
           a->depth == b->depth && a->spaces == b->spaces && is_same_text(one, a->text, other, b->text);
}

/* Whether the parts of a text, one after the other, are what the whole of it is. Returns how many parts there are. */
static inline size_t check_parts(const uint8_t *text, size_t len, uint64_t constructs, uint32_t wanted, size_t least,
                                 const struct hoxalgurre_document *whole) {
    struct hoxalgurre_place place = {0, 0};
    size_t events = 0, lines = 0, definitions = 0, footnotes = 0, parts = 0;
    while (place.index < len) {
        struct hoxalgurre_document part;
        size_t before = place.index;
        CHECK(hoxalgurre_parse_part(text, len, constructs, wanted, least, &place, &part) == HOXALGURRE_OK);
        CHECK(place.index > before && place.index <= len);
        check_document(&part, wanted);
        for (size_t at = 0; at < part.event_count; at++) {
            CHECK(events < whole->event_count && is_same_event(&part.events[at], &whole->events[events++]));
        }
        for (size_t at = 0; at < part.line_count; at++) {
            CHECK(lines < whole->line_count && is_same_line(&part, &part.lines[at], whole, &whole->lines[lines++]));
        }
        for (size_t at = 0; at < part.definition_count; at++) {
            CHECK(definitions < whole->definition_count);
            CHECK(is_same_text(&part, part.definitions[at], whole, whole->definitions[definitions++]));
        }
        for (size_t at = 0; at < part.footnote_count; at++) {
            CHECK(footnotes < whole->footnote_count);
            CHECK(is_same_text(&part, part.footnotes[at], whole, whole->footnotes[footnotes++]));
        }
        hoxalgurre_free(&part);
        parts++;
    }
    CHECK(events == whole->event_count && lines == whole->line_count && definitions == whole->definition_count &&
          footnotes == whole->footnote_count);
    return parts;
}

/* Whether `hoxalgurre_events` counts as many, and writes those that have room. */
static inline void check_room(const uint8_t *text, size_t len, uint64_t constructs, size_t room,
                              const struct hoxalgurre_document *whole) {
    struct hoxalgurre_event *out = malloc((room + 1) * sizeof *out);
    size_t count;
    CHECK(out != NULL && hoxalgurre_events(text, len, constructs, out, room, &count) == HOXALGURRE_OK);
    CHECK(count == whole->event_count);
    for (size_t at = 0; at < room && at < count; at++) {
        CHECK(is_same_event(&out[at], &whole->events[at]));
    }
    free(out);
}

/* Whether all calls agree on a text. Returns a sum of what it has. */
static inline size_t check_text(const uint8_t *text, size_t len, uint64_t constructs, uint64_t inlines, size_t least) {
    struct hoxalgurre_document whole, full;
    uint32_t wanted = HOXALGURRE_WANT_EVENTS | HOXALGURRE_WANT_LABELS | HOXALGURRE_WANT_OUTLINE;
    CHECK(hoxalgurre_parse(text, len, constructs, wanted, &whole) == HOXALGURRE_OK);
    check_document(&whole, wanted);
    check_events(whole.events, whole.event_count, len);
    check_room(text, len, constructs, whole.event_count, &whole);
    check_room(text, len, constructs, whole.event_count / 2, &whole);
    size_t sum = check_parts(text, len, constructs, wanted, least, &whole);
    CHECK(hoxalgurre_parse(text, len, constructs | inlines, EVERYTHING, &full) == HOXALGURRE_OK);
    check_document(&full, EVERYTHING);
    check_events(full.events, full.event_count, len);
    CHECK(full.line_count == whole.line_count && full.definition_count == whole.definition_count);
    for (size_t at = 0; at < full.line_count; at++) {
        CHECK(is_same_line(&full, &full.lines[at], &whole, &whole.lines[at]));
    }
    for (size_t at = 0; at < full.html_len; at++) {
        sum = sum * 31 + (unsigned char)full.html[at];
    }
    sum += full.event_count;
    hoxalgurre_free(&whole);
    hoxalgurre_free(&full);
    return sum;
}
