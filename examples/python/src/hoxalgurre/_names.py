"""Constructs, the names of events, and the words of an outline.

Made by scripts/bindings.py from include/hoxalgurre.h."""
import enum


class Constructs(enum.IntFlag):
    """Which constructs are on, as bits."""

    BLOCK_QUOTE = 0x1
    """Block quotes (CommonMark 5.1)."""
    CODE_FENCED = 0x2
    """Fenced code (CommonMark 4.5)."""
    CODE_INDENTED = 0x4
    """Indented code (CommonMark 4.4). Where it is off, an indent of any size is a small one."""
    DEFINITION = 0x8
    """Link reference definitions (CommonMark 4.7)."""
    HEADING_ATX = 0x10
    """ATX headings (CommonMark 4.2)."""
    HEADING_SETEXT = 0x20
    """Setext headings (CommonMark 4.3)."""
    HTML_FLOW = 0x40
    """HTML blocks (CommonMark 4.6)."""
    LIST_ITEM = 0x80
    """List items (CommonMark 5.2)."""
    THEMATIC_BREAK = 0x100
    """Thematic breaks (CommonMark 4.1)."""
    GFM_FOOTNOTE_DEFINITION = 0x200
    """Footnote definitions, as on GitHub."""
    GFM_TABLE = 0x400
    """Tables (GFM 4.10)."""
    FRONTMATTER = 0x800
    """Frontmatter at the start of the text."""
    MATH_FLOW = 0x1000
    """Math blocks between `$$`."""
    ALERTS = 0x2000
    """Alerts, as on GitHub: block quotes that have the marker of a kind, as `[!NOTE]`, alone on their first line."""
    ATTENTION = 0x100000000
    """Emphasis and strong emphasis (CommonMark 6.2)."""
    AUTOLINK = 0x200000000
    """Autolinks between angle brackets (CommonMark 6.5)."""
    CHARACTER_ESCAPE = 0x400000000
    """Escapes (CommonMark 2.4)."""
    CHARACTER_REFERENCE = 0x800000000
    """Character references (CommonMark 2.5)."""
    CODE_TEXT = 0x1000000000
    """Code spans (CommonMark 6.1)."""
    HARD_BREAK_ESCAPE = 0x2000000000
    """Hard line breaks by a backslash (CommonMark 6.7)."""
    HARD_BREAK_TRAILING = 0x4000000000
    """Hard line breaks by spaces (CommonMark 6.7)."""
    HTML_TEXT = 0x8000000000
    """Raw HTML (CommonMark 6.6)."""
    LABEL_START_IMAGE = 0x10000000000
    """Images (CommonMark 6.4)."""
    LABEL_START_LINK = 0x20000000000
    """Links (CommonMark 6.3)."""
    GFM_AUTOLINK_LITERAL = 0x40000000000
    """Addresses without angle brackets (GFM 6.9)."""
    GFM_FOOTNOTE_CALL = 0x80000000000
    """Footnote calls, as on GitHub."""
    GFM_STRIKETHROUGH = 0x100000000000
    """Strikethrough (GFM 6.5)."""
    GFM_TASK_LIST_ITEM = 0x200000000000
    """Checks of task items (GFM 5.3)."""
    MATH_TEXT = 0x400000000000
    """Math between dollars."""
    GFM_STRIKETHROUGH_SINGLE_TILDE = 0x800000000000
    """One tilde is a mark of strikethrough, as two are."""
    MATH_TEXT_SINGLE_DOLLAR = 0x1000000000000
    """One dollar is a mark of math, as two and more are."""


# The sets of constructs, each with what it has in texts.
SETS: dict[str, Constructs] = {
    "commonmark": Constructs(0x183ff000001ff),
    "gfm": Constructs(0x1bfff000007ff),
    "all": Constructs(0x1ffff00001fff),
    "alerts": Constructs(0x1ffff00003fff),
}

# All constructs of texts: what is in a line.
INLINES = Constructs(0x1ffff00000000)

# The names of events, by their numbers.
NAMES: tuple[str, ...] = (
    "Frontmatter",
    "FrontmatterFence",
    "FrontmatterSequence",
    "FrontmatterChunk",
    "BlockQuote",
    "BlockQuotePrefix",
    "BlockQuoteMarker",
    "ListOrdered",
    "ListUnordered",
    "ListItem",
    "ListItemPrefix",
    "ListItemValue",
    "ListItemMarker",
    "GfmFootnoteDefinition",
    "GfmFootnoteDefinitionPrefix",
    "GfmFootnoteDefinitionLabel",
    "GfmFootnoteDefinitionLabelMarker",
    "GfmFootnoteDefinitionMarker",
    "GfmFootnoteDefinitionLabelString",
    "HeadingAtx",
    "HeadingAtxSequence",
    "HeadingAtxText",
    "HeadingSetext",
    "HeadingSetextText",
    "HeadingSetextUnderline",
    "HeadingSetextUnderlineSequence",
    "ThematicBreak",
    "ThematicBreakSequence",
    "CodeIndented",
    "CodeFenced",
    "CodeFencedFence",
    "CodeFencedFenceSequence",
    "CodeFencedFenceInfo",
    "CodeFencedFenceMeta",
    "CodeFlowChunk",
    "MathFlow",
    "MathFlowFence",
    "MathFlowFenceSequence",
    "MathFlowFenceMeta",
    "MathFlowChunk",
    "HtmlFlow",
    "HtmlFlowData",
    "Definition",
    "DefinitionLabel",
    "DefinitionLabelMarker",
    "DefinitionLabelString",
    "DefinitionMarker",
    "DefinitionDestination",
    "DefinitionDestinationLiteral",
    "DefinitionDestinationLiteralMarker",
    "DefinitionDestinationRaw",
    "DefinitionDestinationString",
    "DefinitionTitle",
    "DefinitionTitleMarker",
    "DefinitionTitleString",
    "Paragraph",
    "GfmTable",
    "GfmTableHead",
    "GfmTableBody",
    "GfmTableRow",
    "GfmTableCell",
    "GfmTableCellDivider",
    "GfmTableCellText",
    "GfmTableDelimiterRow",
    "GfmTableDelimiterCell",
    "GfmTableDelimiterCellValue",
    "GfmTableDelimiterMarker",
    "GfmTableDelimiterFiller",
    "ByteOrderMark",
    "SpaceOrTab",
    "LineEnding",
    "BlankLineEnding",
    "Content",
    "Data",
    "Link",
    "LabelMarker",
    "LabelText",
    "Image",
    "Label",
    "LabelLink",
    "LabelImage",
    "LabelImageMarker",
    "LabelEnd",
    "GfmFootnoteCall",
    "GfmFootnoteCallLabel",
    "GfmFootnoteCallMarker",
    "Resource",
    "ResourceMarker",
    "ResourceDestination",
    "ResourceDestinationLiteral",
    "ResourceDestinationLiteralMarker",
    "ResourceDestinationRaw",
    "ResourceDestinationString",
    "ResourceTitle",
    "ResourceTitleMarker",
    "ResourceTitleString",
    "Reference",
    "ReferenceMarker",
    "ReferenceString",
    "Emphasis",
    "EmphasisSequence",
    "EmphasisText",
    "Strong",
    "StrongSequence",
    "StrongText",
    "GfmStrikethrough",
    "GfmStrikethroughSequence",
    "GfmStrikethroughText",
    "CodeText",
    "CodeTextSequence",
    "CodeTextData",
    "MathText",
    "MathTextSequence",
    "MathTextData",
    "HtmlText",
    "HtmlTextData",
    "Autolink",
    "AutolinkMarker",
    "AutolinkProtocol",
    "AutolinkEmail",
    "GfmAutolinkLiteralEmail",
    "GfmAutolinkLiteralMailto",
    "GfmAutolinkLiteralProtocol",
    "GfmAutolinkLiteralWww",
    "GfmAutolinkLiteralXmpp",
    "CharacterEscape",
    "CharacterEscapeMarker",
    "CharacterEscapeValue",
    "CharacterReference",
    "CharacterReferenceMarker",
    "CharacterReferenceMarkerNumeric",
    "CharacterReferenceMarkerHexadecimal",
    "CharacterReferenceValue",
    "CharacterReferenceMarkerSemi",
    "HardBreakEscape",
    "HardBreakTrailing",
    "GfmTaskListItemCheck",
    "GfmTaskListItemMarker",
    "GfmTaskListItemValueChecked",
    "GfmTaskListItemValueUnchecked",
)

# The words of the lines of an outline, by their numbers.
WORDS: tuple[str, ...] = (
    "frontmatter",
    "heading",
    "break",
    "code",
    "fence",
    "math",
    "html",
    "definition",
    "paragraph",
    "table",
    "row",
    "quote",
    "alert",
    "list",
    "item",
    "footnote",
    "line",
    "info",
    "meta",
    "label",
    "destination",
    "title",
    "delimiter",
    "cell",
)

# The kinds of alerts, by their numbers.
ALERTS: tuple[str, ...] = (
    "note",
    "tip",
    "important",
    "warning",
    "caution",
)
