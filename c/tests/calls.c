/* Calls of the library for C, with what CommonMark and the header say of them. */
#include "check.h"

static void versions(void) {
    CHECK(hoxalgurre_version() == HOXALGURRE_VERSION);
    CHECK(hoxalgurre_version() == 10000);
    CHECK(strcmp(hoxalgurre_version_text(), "1.0.0") == 0);
    CHECK(strcmp(hoxalgurre_status_text(HOXALGURRE_NO_MEMORY), "out of memory") == 0);
    CHECK(hoxalgurre_status_text(HOXALGURRE_UNKNOWN_FLAG + 1) == NULL);
}

static void names(void) {
    static const uint32_t leaves[] = {
        HOXALGURRE_NAME_PARAGRAPH, HOXALGURRE_NAME_HEADING_ATX, HOXALGURRE_NAME_HEADING_SETEXT,
        HOXALGURRE_NAME_THEMATIC_BREAK, HOXALGURRE_NAME_CODE_INDENTED, HOXALGURRE_NAME_CODE_FENCED,
        HOXALGURRE_NAME_HTML_FLOW, HOXALGURRE_NAME_MATH_FLOW, HOXALGURRE_NAME_DEFINITION, HOXALGURRE_NAME_GFM_TABLE,
        HOXALGURRE_NAME_FRONTMATTER,
    };
    static const uint32_t containers[] = {
        HOXALGURRE_NAME_BLOCK_QUOTE, HOXALGURRE_NAME_LIST_ORDERED, HOXALGURRE_NAME_LIST_UNORDERED,
        HOXALGURRE_NAME_LIST_ITEM, HOXALGURRE_NAME_GFM_FOOTNOTE_DEFINITION,
    };
    size_t leaf_count = 0, container_count = 0, block_count = 0, prefix_count = 0, part_count = 0;
    for (uint32_t name = 0; name < HOXALGURRE_NAME_COUNT + 9; name++) {
        CHECK((hoxalgurre_name_text(name) != NULL) == (name < HOXALGURRE_NAME_COUNT));
        leaf_count += hoxalgurre_is_leaf(name);
        container_count += hoxalgurre_is_container(name);
        block_count += hoxalgurre_is_block(name);
        prefix_count += hoxalgurre_is_prefix(name);
        part_count += hoxalgurre_is_text_part(name);
    }
    for (size_t at = 0; at < sizeof leaves / sizeof *leaves; at++) {
        CHECK(hoxalgurre_is_leaf(leaves[at]) && hoxalgurre_is_block(leaves[at]));
        CHECK(!hoxalgurre_is_container(leaves[at]));
    }
    for (size_t at = 0; at < sizeof containers / sizeof *containers; at++) {
        CHECK(hoxalgurre_is_container(containers[at]) && hoxalgurre_is_block(containers[at]));
    }
    CHECK(leaf_count == sizeof leaves / sizeof *leaves);
    CHECK(container_count == sizeof containers / sizeof *containers);
    CHECK(block_count == leaf_count + container_count);
    CHECK(hoxalgurre_is_prefix(HOXALGURRE_NAME_BLOCK_QUOTE_PREFIX) && prefix_count == 3);
    CHECK(hoxalgurre_is_text_part(HOXALGURRE_NAME_HEADING_ATX_TEXT) && part_count == 11);
    CHECK(!hoxalgurre_is_block(UINT32_MAX) && !hoxalgurre_is_prefix(UINT32_MAX));
    CHECK(strcmp(hoxalgurre_name_text(HOXALGURRE_NAME_HEADING_ATX), "HeadingAtx") == 0);
    CHECK(strcmp(hoxalgurre_name_text(HOXALGURRE_NAME_GFM_TASK_LIST_ITEM_VALUE_UNCHECKED),
                 "GfmTaskListItemValueUnchecked") == 0);
}

/* Whether a text has this HTML. */
static void shows(const char *text, uint64_t constructs, uint32_t wanted, const char *html) {
    struct hoxalgurre_document it;
    CHECK(parse(text, constructs, wanted, &it) == HOXALGURRE_OK);
    CHECK(it.html != NULL && it.html_len == strlen(html));
    if (strcmp(it.html, html) != 0) {
        fprintf(stderr, "%s\nshows\n%s\nand not\n%s", text, it.html, html);
        exit(1);
    }
    hoxalgurre_free(&it);
    CHECK(is_empty(&it));
}

/* Examples of CommonMark 0.31.2 by their numbers, and of GFM. */
static void pages(void) {
    uint64_t commonmark = HOXALGURRE_COMMONMARK | HOXALGURRE_COMMONMARK_INLINES;
    uint32_t safe = HOXALGURRE_WANT_HTML, unsafe = HOXALGURRE_WANT_UNSAFE_HTML;
    shows("# foo\n", commonmark, safe, "<h1>foo</h1>\n");
    shows("*foo bar*\n", commonmark, safe, "<p><em>foo bar</em></p>\n");
    shows("[foo]: /url \"title\"\n\n[foo]\n", commonmark, safe, "<p><a href=\"/url\" title=\"title\">foo</a></p>\n");
    shows("- `one\n- two`\n", commonmark, safe, "<ul>\n<li>`one</li>\n<li>two`</li>\n</ul>\n");
    shows("<a><bab><c2c>\n", commonmark, unsafe, "<p><a><bab><c2c></p>\n");
    shows("<a><bab><c2c>\n", commonmark, safe, "<p>&lt;a&gt;&lt;bab&gt;&lt;c2c&gt;</p>\n");
    shows("[a](javascript:b)\n", commonmark, safe, "<p><a href=\"\">a</a></p>\n");
    shows("[a](javascript:b)\n", commonmark, unsafe, "<p><a href=\"javascript:b\">a</a></p>\n");
    shows("~~Hi~~ Hello\n", GITHUB, safe, "<p><del>Hi</del> Hello</p>\n");
    shows("~~Hi~~ Hello\n", commonmark, safe, "<p>~~Hi~~ Hello</p>\n");
    shows("", commonmark, safe, "");
}

/* One construct beside a set, or without one of it. */
static void flags(void) {
    struct hoxalgurre_document it;
    uint32_t events = HOXALGURRE_WANT_EVENTS;
    CHECK(parse("---\na: b\n---\n", HOXALGURRE_GFM | HOXALGURRE_CONSTRUCT_FRONTMATTER, events, &it) == HOXALGURRE_OK);
    CHECK(it.events[0].name == HOXALGURRE_NAME_FRONTMATTER);
    hoxalgurre_free(&it);
    CHECK(parse("# a", HOXALGURRE_GFM & ~HOXALGURRE_CONSTRUCT_HEADING_ATX, events, &it) == HOXALGURRE_OK);
    CHECK(it.events[0].name == HOXALGURRE_NAME_PARAGRAPH);
    hoxalgurre_free(&it);
    CHECK(parse("*a*", HOXALGURRE_CONSTRUCT_ATTENTION, events, &it) == HOXALGURRE_OK);
    CHECK(it.events[1].name == HOXALGURRE_NAME_EMPHASIS);
    hoxalgurre_free(&it);
    CHECK(parse("~a~", HOXALGURRE_CONSTRUCT_GFM_STRIKETHROUGH, events, &it) == HOXALGURRE_OK);
    CHECK(it.events[1].name == HOXALGURRE_NAME_DATA);
    hoxalgurre_free(&it);
    CHECK(parse("a", UINT64_C(1) << 63, events, &it) == HOXALGURRE_UNKNOWN_FLAG && is_empty(&it));
    CHECK(parse("a", UINT64_C(1) << 14, events, &it) == HOXALGURRE_UNKNOWN_FLAG);
    CHECK(parse("a", GITHUB, 32, &it) == HOXALGURRE_UNKNOWN_FLAG);
    CHECK(parse("a", GITHUB, 0, &it) == HOXALGURRE_OK && is_empty(&it));
}

static bool is_span(const struct hoxalgurre_document *it, struct hoxalgurre_span span, const char *text) {
    return span.len == strlen(text) && span.at + span.len < it->byte_count && strcmp(it->bytes + span.at, text) == 0;
}

/* Labels in normal form (CommonMark 6.3): spaces are one, and letters are case-folded. */
static void labels(void) {
    struct hoxalgurre_document it;
    const char *text = "[ Stra\u00dfe\n  1 ]: /a\n[\u1e9e]: /b\n\n[^N]: c\n";
    CHECK(parse(text, HOXALGURRE_GFM, HOXALGURRE_WANT_LABELS, &it) == HOXALGURRE_OK);
    CHECK(it.definition_count == 2 && it.footnote_count == 1 && it.event_count == 0);
    CHECK(is_span(&it, it.definitions[0], "strasse 1") && is_span(&it, it.definitions[1], "ss"));
    CHECK(is_span(&it, it.footnotes[0], "n"));
    hoxalgurre_free(&it);
    uint8_t out[16];
    size_t count = 0;
    const char *label = "\tStra\u00dfe\r\n1 ";
    memset(out, '-', sizeof out);
    CHECK(hoxalgurre_normal_form((const uint8_t *)label, strlen(label), out, 3, &count) == HOXALGURRE_OK);
    CHECK(count == 9 && memcmp(out, "str-", 4) == 0);
    CHECK(hoxalgurre_normal_form((const uint8_t *)label, strlen(label), out, 16, &count) == HOXALGURRE_OK);
    CHECK(count == 9 && memcmp(out, "strasse 1-", 10) == 0);
    CHECK(hoxalgurre_normal_form((const uint8_t *)"a\xff", 2, out, 16, &count) == HOXALGURRE_NOT_UTF8 && count == 1);
}

static void outlines(void) {
    struct hoxalgurre_document it;
    const char *text = "## a\n\n> [!TIP]\n> b\n\n```c d\ne\n```\n\n3) f\n\n|g|\n|-|\n|h|\n";
    static const struct {
        uint16_t word;
        size_t depth, value;
        uint8_t marker, is_closed;
        const char *text;
    } wanted[] = {
        {HOXALGURRE_WORD_HEADING, 0, 2, 0, 0, ""}, {HOXALGURRE_WORD_LINE, 1, 0, 0, 0, "a"},
        {HOXALGURRE_WORD_ALERT, 0, HOXALGURRE_ALERT_TIP, 0, 0, ""}, {HOXALGURRE_WORD_PARAGRAPH, 1, 0, 0, 0, ""},
        {HOXALGURRE_WORD_LINE, 2, 0, 0, 0, "b"}, {HOXALGURRE_WORD_FENCE, 0, 0, '`', 1, ""},
        {HOXALGURRE_WORD_INFO, 1, 0, 0, 0, "c"}, {HOXALGURRE_WORD_META, 1, 0, 0, 0, "d"},
        {HOXALGURRE_WORD_LINE, 1, 0, 0, 0, "e"}, {HOXALGURRE_WORD_LIST, 0, 0, ')', 0, ""},
        {HOXALGURRE_WORD_ITEM, 1, 0, 0, 0, ""}, {HOXALGURRE_WORD_PARAGRAPH, 2, 0, 0, 0, ""},
        {HOXALGURRE_WORD_LINE, 3, 0, 0, 0, "f"}, {HOXALGURRE_WORD_TABLE, 0, 1, 0, 0, ""},
        {HOXALGURRE_WORD_ROW, 1, 0, 0, 0, ""}, {HOXALGURRE_WORD_CELL, 2, 0, 0, 0, "g"},
        {HOXALGURRE_WORD_DELIMITER, 1, 0, 0, 0, "|-|"}, {HOXALGURRE_WORD_ROW, 1, 0, 0, 0, ""},
        {HOXALGURRE_WORD_CELL, 2, 0, 0, 0, "h"},
    };
    CHECK(parse(text, HOXALGURRE_ALERTS | HOXALGURRE_ALL_INLINES, HOXALGURRE_WANT_OUTLINE, &it) == HOXALGURRE_OK);
    for (size_t at = 0; at < it.line_count && at < sizeof wanted / sizeof *wanted; at++) {
        const struct hoxalgurre_line *line = &it.lines[at];
        CHECK(line->word == wanted[at].word && line->depth == wanted[at].depth && line->value == wanted[at].value);
        CHECK(line->marker == wanted[at].marker && line->is_closed == wanted[at].is_closed && line->spaces == 0);
        CHECK(is_span(&it, line->text, wanted[at].text));
    }
    CHECK(it.line_count == sizeof wanted / sizeof *wanted);
    hoxalgurre_free(&it);
}

/* An array with room for a part of the events has that part, and the number of all of them. */
static void rooms(void) {
    const uint8_t *text = (const uint8_t *)"# a\n\n> b\n";
    struct hoxalgurre_event few[3], all[64];
    size_t part, whole, none;
    few[2].name = 999;
    CHECK(hoxalgurre_events(text, 9, HOXALGURRE_GFM, few, 2, &part) == HOXALGURRE_OK);
    CHECK(hoxalgurre_events(text, 9, HOXALGURRE_GFM, all, 64, &whole) == HOXALGURRE_OK);
    CHECK(part == whole && whole > 3 && whole <= 64 && few[2].name == 999);
    for (int at = 0; at < 2; at++) {
        CHECK(few[at].name == all[at].name && few[at].index == all[at].index && few[at].is_exit == all[at].is_exit);
    }
    CHECK(hoxalgurre_events(text, 0, HOXALGURRE_ALL, few, 0, &none) == HOXALGURRE_OK && none == 0);
    CHECK(hoxalgurre_events(text, 9, GITHUB, few, 2, &none) == HOXALGURRE_UNKNOWN_FLAG && none == 0);
    CHECK(hoxalgurre_events((const uint8_t *)"ab\xff", 3, 0, few, 2, &none) == HOXALGURRE_NOT_UTF8 && none == 2);
}

static void refusals(void) {
    struct hoxalgurre_document it;
    CHECK(parse("ab\xc3(", GITHUB, EVERYTHING, &it) == HOXALGURRE_NOT_UTF8 && it.valid_len == 2 && is_empty(&it));
    CHECK(parse("ab\xf0\x9f\x98", GITHUB, EVERYTHING, &it) == HOXALGURRE_NOT_UTF8 && it.valid_len == 2);
    const uint8_t *text = (const uint8_t *)"a";
    CHECK(hoxalgurre_parse(text, SIZE_MAX / 8 + 1, GITHUB, EVERYTHING, &it) == HOXALGURRE_TOO_LONG && is_empty(&it));
    struct hoxalgurre_place place = {0, 0};
    CHECK(hoxalgurre_parse_part(text, 1, GITHUB, 1, 0, &place, &it) == HOXALGURRE_UNKNOWN_FLAG);
    CHECK(hoxalgurre_parse_part(text, 1, HOXALGURRE_GFM, 8, 0, &place, &it) == HOXALGURRE_UNKNOWN_FLAG);
    CHECK(place.index == 0 && is_empty(&it));
    place.index = 7;
    CHECK(hoxalgurre_parse_part(text, 1, HOXALGURRE_GFM, 1, 0, &place, &it) == HOXALGURRE_OK && is_empty(&it));
    hoxalgurre_free(&it);
    hoxalgurre_free(NULL);
}

int main(void) {
    versions();
    names();
    pages();
    flags();
    labels();
    outlines();
    rooms();
    refusals();
    return 0;
}
