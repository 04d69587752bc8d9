/* Hoxalgurre for C: Markdown to events, labels, an outline and HTML.
 *
 * Link with libhoxalgurre.a or -lhoxalgurre. Each has the same functions, and no other symbol.
 *
 * Texts are UTF-8, in bytes, without a NUL after them. No pointer may be NULL, not even where its length is 0, but
 * where that is said. A text is only read, and nothing of it is kept after a call. Any number of threads may call at
 * once, each with its own results. The heap is that of malloc, realloc and free. No call ends the process or waits; a
 * call must not be made from a signal handler.
 *
 * A later 1.x adds functions, constructs, names and words, each after the others, and changes no struct. */
#ifndef HOXALGURRE_H
#define HOXALGURRE_H

#include <stdbool.h>
#include <stddef.h>
#include <stdint.h>

#ifdef __cplusplus
extern "C" {
#endif

/* The version of this header. */
#define HOXALGURRE_VERSION_MAJOR 1
#define HOXALGURRE_VERSION_MINOR 0
#define HOXALGURRE_VERSION_PATCH 0
#define HOXALGURRE_VERSION \
    (HOXALGURRE_VERSION_MAJOR * 10000 + HOXALGURRE_VERSION_MINOR * 100 + HOXALGURRE_VERSION_PATCH)

/* The version of the library, as HOXALGURRE_VERSION. */
uint32_t hoxalgurre_version(void);

/* The same, as "1.0.0". */
const char *hoxalgurre_version_text(void);

/* What a call returns. */
enum hoxalgurre_status {
    HOXALGURRE_OK = 0,
    HOXALGURRE_NOT_UTF8 = 1,    /* bytes that are not UTF-8 */
    HOXALGURRE_TOO_LONG = 2,    /* more than SIZE_MAX / 8 bytes */
    HOXALGURRE_NO_MEMORY = 3,   /* malloc returned NULL */
    HOXALGURRE_UNKNOWN_FLAG = 4 /* a bit of `constructs` or `wanted` that the call does not know */
};

/* A status in words, as "out of memory"; NULL for a number that is none. */
const char *hoxalgurre_status_text(uint32_t status);

/* Constructs of blocks, for `constructs`. One that is off accepts no line. */
/* Block quotes (CommonMark 5.1). */
#define HOXALGURRE_CONSTRUCT_BLOCK_QUOTE (UINT64_C(1) << 0)
/* Fenced code (CommonMark 4.5). */
#define HOXALGURRE_CONSTRUCT_CODE_FENCED (UINT64_C(1) << 1)
/* Indented code (CommonMark 4.4). Where it is off, an indent of any size is a small one. */
#define HOXALGURRE_CONSTRUCT_CODE_INDENTED (UINT64_C(1) << 2)
/* Link reference definitions (CommonMark 4.7). */
#define HOXALGURRE_CONSTRUCT_DEFINITION (UINT64_C(1) << 3)
/* ATX headings (CommonMark 4.2). */
#define HOXALGURRE_CONSTRUCT_HEADING_ATX (UINT64_C(1) << 4)
/* Setext headings (CommonMark 4.3). */
#define HOXALGURRE_CONSTRUCT_HEADING_SETEXT (UINT64_C(1) << 5)
/* HTML blocks (CommonMark 4.6). */
#define HOXALGURRE_CONSTRUCT_HTML_FLOW (UINT64_C(1) << 6)
/* List items (CommonMark 5.2). */
#define HOXALGURRE_CONSTRUCT_LIST_ITEM (UINT64_C(1) << 7)
/* Thematic breaks (CommonMark 4.1). */
#define HOXALGURRE_CONSTRUCT_THEMATIC_BREAK (UINT64_C(1) << 8)
/* Footnote definitions, as on GitHub. */
#define HOXALGURRE_CONSTRUCT_GFM_FOOTNOTE_DEFINITION (UINT64_C(1) << 9)
/* Tables (GFM 4.10). */
#define HOXALGURRE_CONSTRUCT_GFM_TABLE (UINT64_C(1) << 10)
/* Frontmatter at the start of the text. */
#define HOXALGURRE_CONSTRUCT_FRONTMATTER (UINT64_C(1) << 11)
/* Math blocks between `$$`. */
#define HOXALGURRE_CONSTRUCT_MATH_FLOW (UINT64_C(1) << 12)
/* Alerts, as on GitHub: block quotes that have the marker of a kind, as `[!NOTE]`, alone on their first line. */
#define HOXALGURRE_CONSTRUCT_ALERTS (UINT64_C(1) << 13)

/* Constructs of texts: emphasis, links and all that is in a line. Without them each line of a text is one `Data`. */
/* Emphasis and strong emphasis (CommonMark 6.2). */
#define HOXALGURRE_CONSTRUCT_ATTENTION (UINT64_C(1) << 32)
/* Autolinks between angle brackets (CommonMark 6.5). */
#define HOXALGURRE_CONSTRUCT_AUTOLINK (UINT64_C(1) << 33)
/* Escapes (CommonMark 2.4). */
#define HOXALGURRE_CONSTRUCT_CHARACTER_ESCAPE (UINT64_C(1) << 34)
/* Character references (CommonMark 2.5). */
#define HOXALGURRE_CONSTRUCT_CHARACTER_REFERENCE (UINT64_C(1) << 35)
/* Code spans (CommonMark 6.1). */
#define HOXALGURRE_CONSTRUCT_CODE_TEXT (UINT64_C(1) << 36)
/* Hard line breaks by a backslash (CommonMark 6.7). */
#define HOXALGURRE_CONSTRUCT_HARD_BREAK_ESCAPE (UINT64_C(1) << 37)
/* Hard line breaks by spaces (CommonMark 6.7). */
#define HOXALGURRE_CONSTRUCT_HARD_BREAK_TRAILING (UINT64_C(1) << 38)
/* Raw HTML (CommonMark 6.6). */
#define HOXALGURRE_CONSTRUCT_HTML_TEXT (UINT64_C(1) << 39)
/* Images (CommonMark 6.4). */
#define HOXALGURRE_CONSTRUCT_LABEL_START_IMAGE (UINT64_C(1) << 40)
/* Links (CommonMark 6.3). */
#define HOXALGURRE_CONSTRUCT_LABEL_START_LINK (UINT64_C(1) << 41)
/* Addresses without angle brackets (GFM 6.9). */
#define HOXALGURRE_CONSTRUCT_GFM_AUTOLINK_LITERAL (UINT64_C(1) << 42)
/* Footnote calls, as on GitHub. */
#define HOXALGURRE_CONSTRUCT_GFM_FOOTNOTE_CALL (UINT64_C(1) << 43)
/* Strikethrough (GFM 6.5). */
#define HOXALGURRE_CONSTRUCT_GFM_STRIKETHROUGH (UINT64_C(1) << 44)
/* Checks of task items (GFM 5.3). */
#define HOXALGURRE_CONSTRUCT_GFM_TASK_LIST_ITEM (UINT64_C(1) << 45)
/* Math between dollars. */
#define HOXALGURRE_CONSTRUCT_MATH_TEXT (UINT64_C(1) << 46)
/* One tilde is a mark of strikethrough, as two are. */
#define HOXALGURRE_CONSTRUCT_GFM_STRIKETHROUGH_SINGLE_TILDE (UINT64_C(1) << 47)
/* One dollar is a mark of math, as two and more are. */
#define HOXALGURRE_CONSTRUCT_MATH_TEXT_SINGLE_DOLLAR (UINT64_C(1) << 48)

/* Sets of constructs. GitHub is HOXALGURRE_GFM | HOXALGURRE_GFM_INLINES. */
/* The constructs of CommonMark. */
#define HOXALGURRE_COMMONMARK UINT64_C(0x1ff)
/* Those, and tables and footnotes. */
#define HOXALGURRE_GFM UINT64_C(0x7ff)
/* Those, frontmatter and math. */
#define HOXALGURRE_ALL UINT64_C(0x1fff)
/* Those, and alerts. */
#define HOXALGURRE_ALERTS UINT64_C(0x3fff)
/* What CommonMark has in texts. */
#define HOXALGURRE_COMMONMARK_INLINES UINT64_C(0x183ff00000000)
/* Those, and what GitHub adds. */
#define HOXALGURRE_GFM_INLINES UINT64_C(0x1bfff00000000)
/* Those, and math. */
#define HOXALGURRE_ALL_INLINES UINT64_C(0x1ffff00000000)

/* What is wanted of a text, for `wanted`. */
enum hoxalgurre_want {
    HOXALGURRE_WANT_EVENTS = 1,
    HOXALGURRE_WANT_LABELS = 2,
    HOXALGURRE_WANT_OUTLINE = 4,
    HOXALGURRE_WANT_HTML = 8,
    /* HTML with raw HTML as it is and any protocol in links, for texts that are trusted. Without this bit raw HTML is
     * escaped, and an address of another protocol than http, https, irc, ircs, mailto and xmpp is left out. */
    HOXALGURRE_WANT_UNSAFE_HTML = 24
};

/* Names of events. docs/events.md says which ones blocks have; those from LINK on are of inline constructs. */
enum hoxalgurre_name {
    HOXALGURRE_NAME_FRONTMATTER = 0,
    HOXALGURRE_NAME_FRONTMATTER_FENCE = 1,
    HOXALGURRE_NAME_FRONTMATTER_SEQUENCE = 2,
    HOXALGURRE_NAME_FRONTMATTER_CHUNK = 3,
    HOXALGURRE_NAME_BLOCK_QUOTE = 4,
    HOXALGURRE_NAME_BLOCK_QUOTE_PREFIX = 5,
    HOXALGURRE_NAME_BLOCK_QUOTE_MARKER = 6,
    HOXALGURRE_NAME_LIST_ORDERED = 7,
    HOXALGURRE_NAME_LIST_UNORDERED = 8,
    HOXALGURRE_NAME_LIST_ITEM = 9,
    HOXALGURRE_NAME_LIST_ITEM_PREFIX = 10,
    HOXALGURRE_NAME_LIST_ITEM_VALUE = 11,
    HOXALGURRE_NAME_LIST_ITEM_MARKER = 12,
    HOXALGURRE_NAME_GFM_FOOTNOTE_DEFINITION = 13,
    HOXALGURRE_NAME_GFM_FOOTNOTE_DEFINITION_PREFIX = 14,
    HOXALGURRE_NAME_GFM_FOOTNOTE_DEFINITION_LABEL = 15,
    HOXALGURRE_NAME_GFM_FOOTNOTE_DEFINITION_LABEL_MARKER = 16,
    HOXALGURRE_NAME_GFM_FOOTNOTE_DEFINITION_MARKER = 17,
    HOXALGURRE_NAME_GFM_FOOTNOTE_DEFINITION_LABEL_STRING = 18,
    HOXALGURRE_NAME_HEADING_ATX = 19,
    HOXALGURRE_NAME_HEADING_ATX_SEQUENCE = 20,
    HOXALGURRE_NAME_HEADING_ATX_TEXT = 21,
    HOXALGURRE_NAME_HEADING_SETEXT = 22,
    HOXALGURRE_NAME_HEADING_SETEXT_TEXT = 23,
    HOXALGURRE_NAME_HEADING_SETEXT_UNDERLINE = 24,
    HOXALGURRE_NAME_HEADING_SETEXT_UNDERLINE_SEQUENCE = 25,
    HOXALGURRE_NAME_THEMATIC_BREAK = 26,
    HOXALGURRE_NAME_THEMATIC_BREAK_SEQUENCE = 27,
    HOXALGURRE_NAME_CODE_INDENTED = 28,
    HOXALGURRE_NAME_CODE_FENCED = 29,
    HOXALGURRE_NAME_CODE_FENCED_FENCE = 30,
    HOXALGURRE_NAME_CODE_FENCED_FENCE_SEQUENCE = 31,
    HOXALGURRE_NAME_CODE_FENCED_FENCE_INFO = 32,
    HOXALGURRE_NAME_CODE_FENCED_FENCE_META = 33,
    HOXALGURRE_NAME_CODE_FLOW_CHUNK = 34,
    HOXALGURRE_NAME_MATH_FLOW = 35,
    HOXALGURRE_NAME_MATH_FLOW_FENCE = 36,
    HOXALGURRE_NAME_MATH_FLOW_FENCE_SEQUENCE = 37,
    HOXALGURRE_NAME_MATH_FLOW_FENCE_META = 38,
    HOXALGURRE_NAME_MATH_FLOW_CHUNK = 39,
    HOXALGURRE_NAME_HTML_FLOW = 40,
    HOXALGURRE_NAME_HTML_FLOW_DATA = 41,
    HOXALGURRE_NAME_DEFINITION = 42,
    HOXALGURRE_NAME_DEFINITION_LABEL = 43,
    HOXALGURRE_NAME_DEFINITION_LABEL_MARKER = 44,
    HOXALGURRE_NAME_DEFINITION_LABEL_STRING = 45,
    HOXALGURRE_NAME_DEFINITION_MARKER = 46,
    HOXALGURRE_NAME_DEFINITION_DESTINATION = 47,
    HOXALGURRE_NAME_DEFINITION_DESTINATION_LITERAL = 48,
    HOXALGURRE_NAME_DEFINITION_DESTINATION_LITERAL_MARKER = 49,
    HOXALGURRE_NAME_DEFINITION_DESTINATION_RAW = 50,
    HOXALGURRE_NAME_DEFINITION_DESTINATION_STRING = 51,
    HOXALGURRE_NAME_DEFINITION_TITLE = 52,
    HOXALGURRE_NAME_DEFINITION_TITLE_MARKER = 53,
    HOXALGURRE_NAME_DEFINITION_TITLE_STRING = 54,
    HOXALGURRE_NAME_PARAGRAPH = 55,
    HOXALGURRE_NAME_GFM_TABLE = 56,
    HOXALGURRE_NAME_GFM_TABLE_HEAD = 57,
    HOXALGURRE_NAME_GFM_TABLE_BODY = 58,
    HOXALGURRE_NAME_GFM_TABLE_ROW = 59,
    HOXALGURRE_NAME_GFM_TABLE_CELL = 60,
    HOXALGURRE_NAME_GFM_TABLE_CELL_DIVIDER = 61,
    HOXALGURRE_NAME_GFM_TABLE_CELL_TEXT = 62,
    HOXALGURRE_NAME_GFM_TABLE_DELIMITER_ROW = 63,
    HOXALGURRE_NAME_GFM_TABLE_DELIMITER_CELL = 64,
    HOXALGURRE_NAME_GFM_TABLE_DELIMITER_CELL_VALUE = 65,
    HOXALGURRE_NAME_GFM_TABLE_DELIMITER_MARKER = 66,
    HOXALGURRE_NAME_GFM_TABLE_DELIMITER_FILLER = 67,
    HOXALGURRE_NAME_BYTE_ORDER_MARK = 68,
    HOXALGURRE_NAME_SPACE_OR_TAB = 69,
    HOXALGURRE_NAME_LINE_ENDING = 70,
    HOXALGURRE_NAME_BLANK_LINE_ENDING = 71,
    HOXALGURRE_NAME_CONTENT = 72,
    HOXALGURRE_NAME_DATA = 73,
    HOXALGURRE_NAME_LINK = 74,
    HOXALGURRE_NAME_LABEL_MARKER = 75,
    HOXALGURRE_NAME_LABEL_TEXT = 76,
    HOXALGURRE_NAME_IMAGE = 77,
    HOXALGURRE_NAME_LABEL = 78,
    HOXALGURRE_NAME_LABEL_LINK = 79,
    HOXALGURRE_NAME_LABEL_IMAGE = 80,
    HOXALGURRE_NAME_LABEL_IMAGE_MARKER = 81,
    HOXALGURRE_NAME_LABEL_END = 82,
    HOXALGURRE_NAME_GFM_FOOTNOTE_CALL = 83,
    HOXALGURRE_NAME_GFM_FOOTNOTE_CALL_LABEL = 84,
    HOXALGURRE_NAME_GFM_FOOTNOTE_CALL_MARKER = 85,
    HOXALGURRE_NAME_RESOURCE = 86,
    HOXALGURRE_NAME_RESOURCE_MARKER = 87,
    HOXALGURRE_NAME_RESOURCE_DESTINATION = 88,
    HOXALGURRE_NAME_RESOURCE_DESTINATION_LITERAL = 89,
    HOXALGURRE_NAME_RESOURCE_DESTINATION_LITERAL_MARKER = 90,
    HOXALGURRE_NAME_RESOURCE_DESTINATION_RAW = 91,
    HOXALGURRE_NAME_RESOURCE_DESTINATION_STRING = 92,
    HOXALGURRE_NAME_RESOURCE_TITLE = 93,
    HOXALGURRE_NAME_RESOURCE_TITLE_MARKER = 94,
    HOXALGURRE_NAME_RESOURCE_TITLE_STRING = 95,
    HOXALGURRE_NAME_REFERENCE = 96,
    HOXALGURRE_NAME_REFERENCE_MARKER = 97,
    HOXALGURRE_NAME_REFERENCE_STRING = 98,
    HOXALGURRE_NAME_EMPHASIS = 99,
    HOXALGURRE_NAME_EMPHASIS_SEQUENCE = 100,
    HOXALGURRE_NAME_EMPHASIS_TEXT = 101,
    HOXALGURRE_NAME_STRONG = 102,
    HOXALGURRE_NAME_STRONG_SEQUENCE = 103,
    HOXALGURRE_NAME_STRONG_TEXT = 104,
    HOXALGURRE_NAME_GFM_STRIKETHROUGH = 105,
    HOXALGURRE_NAME_GFM_STRIKETHROUGH_SEQUENCE = 106,
    HOXALGURRE_NAME_GFM_STRIKETHROUGH_TEXT = 107,
    HOXALGURRE_NAME_CODE_TEXT = 108,
    HOXALGURRE_NAME_CODE_TEXT_SEQUENCE = 109,
    HOXALGURRE_NAME_CODE_TEXT_DATA = 110,
    HOXALGURRE_NAME_MATH_TEXT = 111,
    HOXALGURRE_NAME_MATH_TEXT_SEQUENCE = 112,
    HOXALGURRE_NAME_MATH_TEXT_DATA = 113,
    HOXALGURRE_NAME_HTML_TEXT = 114,
    HOXALGURRE_NAME_HTML_TEXT_DATA = 115,
    HOXALGURRE_NAME_AUTOLINK = 116,
    HOXALGURRE_NAME_AUTOLINK_MARKER = 117,
    HOXALGURRE_NAME_AUTOLINK_PROTOCOL = 118,
    HOXALGURRE_NAME_AUTOLINK_EMAIL = 119,
    HOXALGURRE_NAME_GFM_AUTOLINK_LITERAL_EMAIL = 120,
    HOXALGURRE_NAME_GFM_AUTOLINK_LITERAL_MAILTO = 121,
    HOXALGURRE_NAME_GFM_AUTOLINK_LITERAL_PROTOCOL = 122,
    HOXALGURRE_NAME_GFM_AUTOLINK_LITERAL_WWW = 123,
    HOXALGURRE_NAME_GFM_AUTOLINK_LITERAL_XMPP = 124,
    HOXALGURRE_NAME_CHARACTER_ESCAPE = 125,
    HOXALGURRE_NAME_CHARACTER_ESCAPE_MARKER = 126,
    HOXALGURRE_NAME_CHARACTER_ESCAPE_VALUE = 127,
    HOXALGURRE_NAME_CHARACTER_REFERENCE = 128,
    HOXALGURRE_NAME_CHARACTER_REFERENCE_MARKER = 129,
    HOXALGURRE_NAME_CHARACTER_REFERENCE_MARKER_NUMERIC = 130,
    HOXALGURRE_NAME_CHARACTER_REFERENCE_MARKER_HEXADECIMAL = 131,
    HOXALGURRE_NAME_CHARACTER_REFERENCE_VALUE = 132,
    HOXALGURRE_NAME_CHARACTER_REFERENCE_MARKER_SEMI = 133,
    HOXALGURRE_NAME_HARD_BREAK_ESCAPE = 134,
    HOXALGURRE_NAME_HARD_BREAK_TRAILING = 135,
    HOXALGURRE_NAME_GFM_TASK_LIST_ITEM_CHECK = 136,
    HOXALGURRE_NAME_GFM_TASK_LIST_ITEM_MARKER = 137,
    HOXALGURRE_NAME_GFM_TASK_LIST_ITEM_VALUE_CHECKED = 138,
    HOXALGURRE_NAME_GFM_TASK_LIST_ITEM_VALUE_UNCHECKED = 139,
    HOXALGURRE_NAME_COUNT = 140
};

/* A name as text, as "HeadingAtx"; NULL for a number that is none. */
const char *hoxalgurre_name_text(uint32_t name);

/* What a name is of. Each is false for a number that is none. */
bool hoxalgurre_is_block(uint32_t name);     /* a container or a leaf */
bool hoxalgurre_is_container(uint32_t name); /* a block quote, a list, an item or a footnote definition */
bool hoxalgurre_is_leaf(uint32_t name);      /* a block that has no blocks, as a paragraph, a heading or a table */
bool hoxalgurre_is_text_part(uint32_t name); /* a text in which inline constructs are */
bool hoxalgurre_is_prefix(uint32_t name);    /* what a block quote takes at the front of a line */

/* The begin or the end of a part of the text. Parts nest: each event that begins one has an event of the same name
 * that ends it, and what is between them is in the part. The parts that have no others in them lie side by side, from
 * the first byte of the text to the last. */
struct hoxalgurre_event {
    uint16_t name;   /* of enum hoxalgurre_name */
    uint8_t is_exit; /* 0: the part begins; 1: it ends */
    size_t line;     /* from 1 */
    size_t column;   /* from 1; a tab reaches to the next multiple of 4 */
    size_t index;    /* the byte, from 0 */
    size_t vs;       /* columns of the tab at `index` before the point; 0 where no tab is cut */
};

/* Bytes of `bytes` of a document. A NUL follows them. */
struct hoxalgurre_span {
    size_t at;
    size_t len;
};

/* What a line of the outline is. */
enum hoxalgurre_word {
    HOXALGURRE_WORD_FRONTMATTER = 0,
    HOXALGURRE_WORD_HEADING = 1,
    HOXALGURRE_WORD_BREAK = 2,
    HOXALGURRE_WORD_CODE = 3,
    HOXALGURRE_WORD_FENCE = 4,
    HOXALGURRE_WORD_MATH = 5,
    HOXALGURRE_WORD_HTML = 6,
    HOXALGURRE_WORD_DEFINITION = 7,
    HOXALGURRE_WORD_PARAGRAPH = 8,
    HOXALGURRE_WORD_TABLE = 9,
    HOXALGURRE_WORD_ROW = 10,
    HOXALGURRE_WORD_QUOTE = 11,
    HOXALGURRE_WORD_ALERT = 12,
    HOXALGURRE_WORD_LIST = 13,
    HOXALGURRE_WORD_ITEM = 14,
    HOXALGURRE_WORD_FOOTNOTE = 15,
    HOXALGURRE_WORD_LINE = 16,
    HOXALGURRE_WORD_INFO = 17,
    HOXALGURRE_WORD_META = 18,
    HOXALGURRE_WORD_LABEL = 19,
    HOXALGURRE_WORD_DESTINATION = 20,
    HOXALGURRE_WORD_TITLE = 21,
    HOXALGURRE_WORD_DELIMITER = 22,
    HOXALGURRE_WORD_CELL = 23,
    HOXALGURRE_WORD_COUNT = 24
};

/* The kinds of alerts. */
enum hoxalgurre_alert {
    HOXALGURRE_ALERT_NOTE = 0,
    HOXALGURRE_ALERT_TIP = 1,
    HOXALGURRE_ALERT_IMPORTANT = 2,
    HOXALGURRE_ALERT_WARNING = 3,
    HOXALGURRE_ALERT_CAUTION = 4,
    HOXALGURRE_ALERT_COUNT = 5
};

/* A block, a row, or a line of text below it. */
struct hoxalgurre_line {
    uint16_t word;     /* of enum hoxalgurre_word */
    uint8_t marker;    /* frontmatter, fence, list: the byte of its fences or markers; else 0 */
    uint8_t is_closed; /* fence, math: 1 where it has a closing fence; else 0 */
    size_t value;      /* heading: its depth; table: its columns; alert: of enum hoxalgurre_alert; else 0 */
    size_t depth;      /* how many blocks are around it */
    size_t spaces;     /* the columns of a cut tab before the text */
    struct hoxalgurre_span text; /* without prefixes of containers and indent; empty where the word has no text */
};

/* What was wanted of a text. An array that was not wanted, or is empty, is NULL and its count 0. */
struct hoxalgurre_document {
    struct hoxalgurre_event *events;
    size_t event_count;
    /* The labels of link reference definitions, in normal form, in the order of the text, with repeats: the n-th is
     * that of the n-th DEFINITION_LABEL among the events. The first of equal ones counts. */
    struct hoxalgurre_span *definitions;
    size_t definition_count;
    /* Those of footnote definitions. */
    struct hoxalgurre_span *footnotes;
    size_t footnote_count;
    /* The outline, from the first block to the last. The n-th line of a block or a row is of the n-th event that
     * begins one: whose name hoxalgurre_is_block or is GFM_TABLE_ROW. */
    struct hoxalgurre_line *lines;
    size_t line_count;
    /* The labels and the texts of the outline. */
    char *bytes;
    size_t byte_count;
    /* The HTML, with a NUL after it; NULL where it is not wanted. */
    char *html;
    size_t html_len;
    /* Where the status is NOT_UTF8: how many bytes of the text are UTF-8. Else 0. */
    size_t valid_len;
};

/* Parses the `len` bytes at `text` once, and sets all of `document`: what `wanted` asks for, or nothing where the
 * status is not OK. `document` needs no value before. What it has is freed by hoxalgurre_free. */
uint32_t hoxalgurre_parse(const uint8_t *text, size_t len, uint64_t constructs, uint32_t wanted,
                          struct hoxalgurre_document *document);

/* Frees the arrays of a document, and sets all of it to 0. A document that is all 0 may be freed, and so may NULL. */
void hoxalgurre_free(struct hoxalgurre_document *document);

/* How much of a text was read in parts. All 0 at first. */
struct hoxalgurre_place {
    size_t index; /* the bytes */
    size_t lines; /* the line endings */
};

/* Parses the next part of a large text, so that memory follows the largest part: as hoxalgurre_parse, from `place` on,
 * which is moved to where the next part begins, or to `len`. The events, labels and outlines of the parts, one after
 * the other, are those of the text, at the same points.
 *
 *     struct hoxalgurre_place place = {0, 0};
 *     while (status == HOXALGURRE_OK && place.index < len) {
 *         status = hoxalgurre_parse_part(text, len, HOXALGURRE_GFM, HOXALGURRE_WANT_EVENTS, 0, &place, &part);
 *         ...
 *         hoxalgurre_free(&part);
 *     }
 *
 * A part is whole blocks, of at least `least` bytes if the text has as many (0: 64 KiB): it ends before an empty line
 * after a paragraph that is in no container. A text without one is one part. Inline constructs and HTML need the
 * labels of the whole text: their bits are UNKNOWN_FLAG here. A text that is not UTF-8 has no part. Where the status is
 * not OK, `place` is not moved. `place` is 0, or what a call with the same text and constructs has set: from another
 * place the events mean nothing. */
uint32_t hoxalgurre_parse_part(const uint8_t *text, size_t len, uint64_t constructs, uint32_t wanted, size_t least,
                               struct hoxalgurre_place *place, struct hoxalgurre_document *part);

/* Writes the events of a text to an array of one's own, as many as `room` allows, and sets `count` to how many there
 * are. Where that is more than `room`, call again with more room. Texts are read as with no inline construct: their
 * bits are UNKNOWN_FLAG here. Where the status is NOT_UTF8, `count` is how many bytes are UTF-8; where it is another
 * but OK, 0. */
uint32_t hoxalgurre_events(const uint8_t *text, size_t len, uint64_t constructs, struct hoxalgurre_event *out,
                           size_t room, size_t *count);

/* Writes the normal form of a label, by which labels are compared (CommonMark 6.3), to `out`, as many bytes as `room`
 * allows, and sets `count` to how many it has. No NUL follows. Line endings are as spaces. `count` is as in
 * hoxalgurre_events where the status is not OK. */
uint32_t hoxalgurre_normal_form(const uint8_t *label, size_t len, uint8_t *out, size_t room, size_t *count);

#ifdef __cplusplus
}
#endif

#endif
