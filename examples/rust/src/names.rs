// Made by scripts/bindings.py from include/hoxalgurre.h.
#![allow(missing_docs)]
//! Constructs, the names of events, and the words of an outline.

use crate::{Constructs, Options};

impl Constructs {
    /// Block quotes (CommonMark 5.1).
    pub const BLOCK_QUOTE: Constructs = Constructs(0x1);
    /// Fenced code (CommonMark 4.5).
    pub const CODE_FENCED: Constructs = Constructs(0x2);
    /// Indented code (CommonMark 4.4). Where it is off, an indent of any size is a small one.
    pub const CODE_INDENTED: Constructs = Constructs(0x4);
    /// Link reference definitions (CommonMark 4.7).
    pub const DEFINITION: Constructs = Constructs(0x8);
    /// ATX headings (CommonMark 4.2).
    pub const HEADING_ATX: Constructs = Constructs(0x10);
    /// Setext headings (CommonMark 4.3).
    pub const HEADING_SETEXT: Constructs = Constructs(0x20);
    /// HTML blocks (CommonMark 4.6).
    pub const HTML_FLOW: Constructs = Constructs(0x40);
    /// List items (CommonMark 5.2).
    pub const LIST_ITEM: Constructs = Constructs(0x80);
    /// Thematic breaks (CommonMark 4.1).
    pub const THEMATIC_BREAK: Constructs = Constructs(0x100);
    /// Footnote definitions, as on GitHub.
    pub const GFM_FOOTNOTE_DEFINITION: Constructs = Constructs(0x200);
    /// Tables (GFM 4.10).
    pub const GFM_TABLE: Constructs = Constructs(0x400);
    /// Frontmatter at the start of the text.
    pub const FRONTMATTER: Constructs = Constructs(0x800);
    /// Math blocks between `$$`.
    pub const MATH_FLOW: Constructs = Constructs(0x1000);
    /// Alerts, as on GitHub: block quotes that have the marker of a kind, as `[!NOTE]`, alone on their first line.
    pub const ALERTS: Constructs = Constructs(0x2000);
    /// Emphasis and strong emphasis (CommonMark 6.2).
    pub const ATTENTION: Constructs = Constructs(0x100000000);
    /// Autolinks between angle brackets (CommonMark 6.5).
    pub const AUTOLINK: Constructs = Constructs(0x200000000);
    /// Escapes (CommonMark 2.4).
    pub const CHARACTER_ESCAPE: Constructs = Constructs(0x400000000);
    /// Character references (CommonMark 2.5).
    pub const CHARACTER_REFERENCE: Constructs = Constructs(0x800000000);
    /// Code spans (CommonMark 6.1).
    pub const CODE_TEXT: Constructs = Constructs(0x1000000000);
    /// Hard line breaks by a backslash (CommonMark 6.7).
    pub const HARD_BREAK_ESCAPE: Constructs = Constructs(0x2000000000);
    /// Hard line breaks by spaces (CommonMark 6.7).
    pub const HARD_BREAK_TRAILING: Constructs = Constructs(0x4000000000);
    /// Raw HTML (CommonMark 6.6).
    pub const HTML_TEXT: Constructs = Constructs(0x8000000000);
    /// Images (CommonMark 6.4).
    pub const LABEL_START_IMAGE: Constructs = Constructs(0x10000000000);
    /// Links (CommonMark 6.3).
    pub const LABEL_START_LINK: Constructs = Constructs(0x20000000000);
    /// Addresses without angle brackets (GFM 6.9).
    pub const GFM_AUTOLINK_LITERAL: Constructs = Constructs(0x40000000000);
    /// Footnote calls, as on GitHub.
    pub const GFM_FOOTNOTE_CALL: Constructs = Constructs(0x80000000000);
    /// Strikethrough (GFM 6.5).
    pub const GFM_STRIKETHROUGH: Constructs = Constructs(0x100000000000);
    /// Checks of task items (GFM 5.3).
    pub const GFM_TASK_LIST_ITEM: Constructs = Constructs(0x200000000000);
    /// Math between dollars.
    pub const MATH_TEXT: Constructs = Constructs(0x400000000000);
    /// One tilde is a mark of strikethrough, as two are.
    pub const GFM_STRIKETHROUGH_SINGLE_TILDE: Constructs = Constructs(0x800000000000);
    /// One dollar is a mark of math, as two and more are.
    pub const MATH_TEXT_SINGLE_DOLLAR: Constructs = Constructs(0x1000000000000);
    /// All constructs of texts: what is in a line.
    pub const INLINES: Constructs = Constructs(0x1ffff00000000);
}

impl Options {
    /// The set `commonmark`, with what it has in texts.
    pub const COMMONMARK: Options = Options::of(Constructs(0x183ff000001ff));
    /// The set `gfm`, with what it has in texts.
    pub const GFM: Options = Options::of(Constructs(0x1bfff000007ff));
    /// The set `all`, with what it has in texts.
    pub const ALL: Options = Options::of(Constructs(0x1ffff00001fff));
    /// The set `alerts`, with what it has in texts.
    pub const ALERTS: Options = Options::of(Constructs(0x1ffff00003fff));
}

/// The names of events: `docs/events.md` says which ones blocks have.
#[derive(Clone, Copy, Debug, PartialEq, Eq, Hash, PartialOrd, Ord)]
#[non_exhaustive]
#[repr(u16)]
#[rustfmt::skip]
pub enum Name {
    Frontmatter = 0,
    FrontmatterFence = 1,
    FrontmatterSequence = 2,
    FrontmatterChunk = 3,
    BlockQuote = 4,
    BlockQuotePrefix = 5,
    BlockQuoteMarker = 6,
    ListOrdered = 7,
    ListUnordered = 8,
    ListItem = 9,
    ListItemPrefix = 10,
    ListItemValue = 11,
    ListItemMarker = 12,
    GfmFootnoteDefinition = 13,
    GfmFootnoteDefinitionPrefix = 14,
    GfmFootnoteDefinitionLabel = 15,
    GfmFootnoteDefinitionLabelMarker = 16,
    GfmFootnoteDefinitionMarker = 17,
    GfmFootnoteDefinitionLabelString = 18,
    HeadingAtx = 19,
    HeadingAtxSequence = 20,
    HeadingAtxText = 21,
    HeadingSetext = 22,
    HeadingSetextText = 23,
    HeadingSetextUnderline = 24,
    HeadingSetextUnderlineSequence = 25,
    ThematicBreak = 26,
    ThematicBreakSequence = 27,
    CodeIndented = 28,
    CodeFenced = 29,
    CodeFencedFence = 30,
    CodeFencedFenceSequence = 31,
    CodeFencedFenceInfo = 32,
    CodeFencedFenceMeta = 33,
    CodeFlowChunk = 34,
    MathFlow = 35,
    MathFlowFence = 36,
    MathFlowFenceSequence = 37,
    MathFlowFenceMeta = 38,
    MathFlowChunk = 39,
    HtmlFlow = 40,
    HtmlFlowData = 41,
    Definition = 42,
    DefinitionLabel = 43,
    DefinitionLabelMarker = 44,
    DefinitionLabelString = 45,
    DefinitionMarker = 46,
    DefinitionDestination = 47,
    DefinitionDestinationLiteral = 48,
    DefinitionDestinationLiteralMarker = 49,
    DefinitionDestinationRaw = 50,
    DefinitionDestinationString = 51,
    DefinitionTitle = 52,
    DefinitionTitleMarker = 53,
    DefinitionTitleString = 54,
    Paragraph = 55,
    GfmTable = 56,
    GfmTableHead = 57,
    GfmTableBody = 58,
    GfmTableRow = 59,
    GfmTableCell = 60,
    GfmTableCellDivider = 61,
    GfmTableCellText = 62,
    GfmTableDelimiterRow = 63,
    GfmTableDelimiterCell = 64,
    GfmTableDelimiterCellValue = 65,
    GfmTableDelimiterMarker = 66,
    GfmTableDelimiterFiller = 67,
    ByteOrderMark = 68,
    SpaceOrTab = 69,
    LineEnding = 70,
    BlankLineEnding = 71,
    Content = 72,
    Data = 73,
    Link = 74,
    LabelMarker = 75,
    LabelText = 76,
    Image = 77,
    Label = 78,
    LabelLink = 79,
    LabelImage = 80,
    LabelImageMarker = 81,
    LabelEnd = 82,
    GfmFootnoteCall = 83,
    GfmFootnoteCallLabel = 84,
    GfmFootnoteCallMarker = 85,
    Resource = 86,
    ResourceMarker = 87,
    ResourceDestination = 88,
    ResourceDestinationLiteral = 89,
    ResourceDestinationLiteralMarker = 90,
    ResourceDestinationRaw = 91,
    ResourceDestinationString = 92,
    ResourceTitle = 93,
    ResourceTitleMarker = 94,
    ResourceTitleString = 95,
    Reference = 96,
    ReferenceMarker = 97,
    ReferenceString = 98,
    Emphasis = 99,
    EmphasisSequence = 100,
    EmphasisText = 101,
    Strong = 102,
    StrongSequence = 103,
    StrongText = 104,
    GfmStrikethrough = 105,
    GfmStrikethroughSequence = 106,
    GfmStrikethroughText = 107,
    CodeText = 108,
    CodeTextSequence = 109,
    CodeTextData = 110,
    MathText = 111,
    MathTextSequence = 112,
    MathTextData = 113,
    HtmlText = 114,
    HtmlTextData = 115,
    Autolink = 116,
    AutolinkMarker = 117,
    AutolinkProtocol = 118,
    AutolinkEmail = 119,
    GfmAutolinkLiteralEmail = 120,
    GfmAutolinkLiteralMailto = 121,
    GfmAutolinkLiteralProtocol = 122,
    GfmAutolinkLiteralWww = 123,
    GfmAutolinkLiteralXmpp = 124,
    CharacterEscape = 125,
    CharacterEscapeMarker = 126,
    CharacterEscapeValue = 127,
    CharacterReference = 128,
    CharacterReferenceMarker = 129,
    CharacterReferenceMarkerNumeric = 130,
    CharacterReferenceMarkerHexadecimal = 131,
    CharacterReferenceValue = 132,
    CharacterReferenceMarkerSemi = 133,
    HardBreakEscape = 134,
    HardBreakTrailing = 135,
    GfmTaskListItemCheck = 136,
    GfmTaskListItemMarker = 137,
    GfmTaskListItemValueChecked = 138,
    GfmTaskListItemValueUnchecked = 139,
}

impl Name {
    /// All of them, by their numbers.
    #[rustfmt::skip]
    pub const ALL: [Name; 140] = [
        Name::Frontmatter,
        Name::FrontmatterFence,
        Name::FrontmatterSequence,
        Name::FrontmatterChunk,
        Name::BlockQuote,
        Name::BlockQuotePrefix,
        Name::BlockQuoteMarker,
        Name::ListOrdered,
        Name::ListUnordered,
        Name::ListItem,
        Name::ListItemPrefix,
        Name::ListItemValue,
        Name::ListItemMarker,
        Name::GfmFootnoteDefinition,
        Name::GfmFootnoteDefinitionPrefix,
        Name::GfmFootnoteDefinitionLabel,
        Name::GfmFootnoteDefinitionLabelMarker,
        Name::GfmFootnoteDefinitionMarker,
        Name::GfmFootnoteDefinitionLabelString,
        Name::HeadingAtx,
        Name::HeadingAtxSequence,
        Name::HeadingAtxText,
        Name::HeadingSetext,
        Name::HeadingSetextText,
        Name::HeadingSetextUnderline,
        Name::HeadingSetextUnderlineSequence,
        Name::ThematicBreak,
        Name::ThematicBreakSequence,
        Name::CodeIndented,
        Name::CodeFenced,
        Name::CodeFencedFence,
        Name::CodeFencedFenceSequence,
        Name::CodeFencedFenceInfo,
        Name::CodeFencedFenceMeta,
        Name::CodeFlowChunk,
        Name::MathFlow,
        Name::MathFlowFence,
        Name::MathFlowFenceSequence,
        Name::MathFlowFenceMeta,
        Name::MathFlowChunk,
        Name::HtmlFlow,
        Name::HtmlFlowData,
        Name::Definition,
        Name::DefinitionLabel,
        Name::DefinitionLabelMarker,
        Name::DefinitionLabelString,
        Name::DefinitionMarker,
        Name::DefinitionDestination,
        Name::DefinitionDestinationLiteral,
        Name::DefinitionDestinationLiteralMarker,
        Name::DefinitionDestinationRaw,
        Name::DefinitionDestinationString,
        Name::DefinitionTitle,
        Name::DefinitionTitleMarker,
        Name::DefinitionTitleString,
        Name::Paragraph,
        Name::GfmTable,
        Name::GfmTableHead,
        Name::GfmTableBody,
        Name::GfmTableRow,
        Name::GfmTableCell,
        Name::GfmTableCellDivider,
        Name::GfmTableCellText,
        Name::GfmTableDelimiterRow,
        Name::GfmTableDelimiterCell,
        Name::GfmTableDelimiterCellValue,
        Name::GfmTableDelimiterMarker,
        Name::GfmTableDelimiterFiller,
        Name::ByteOrderMark,
        Name::SpaceOrTab,
        Name::LineEnding,
        Name::BlankLineEnding,
        Name::Content,
        Name::Data,
        Name::Link,
        Name::LabelMarker,
        Name::LabelText,
        Name::Image,
        Name::Label,
        Name::LabelLink,
        Name::LabelImage,
        Name::LabelImageMarker,
        Name::LabelEnd,
        Name::GfmFootnoteCall,
        Name::GfmFootnoteCallLabel,
        Name::GfmFootnoteCallMarker,
        Name::Resource,
        Name::ResourceMarker,
        Name::ResourceDestination,
        Name::ResourceDestinationLiteral,
        Name::ResourceDestinationLiteralMarker,
        Name::ResourceDestinationRaw,
        Name::ResourceDestinationString,
        Name::ResourceTitle,
        Name::ResourceTitleMarker,
        Name::ResourceTitleString,
        Name::Reference,
        Name::ReferenceMarker,
        Name::ReferenceString,
        Name::Emphasis,
        Name::EmphasisSequence,
        Name::EmphasisText,
        Name::Strong,
        Name::StrongSequence,
        Name::StrongText,
        Name::GfmStrikethrough,
        Name::GfmStrikethroughSequence,
        Name::GfmStrikethroughText,
        Name::CodeText,
        Name::CodeTextSequence,
        Name::CodeTextData,
        Name::MathText,
        Name::MathTextSequence,
        Name::MathTextData,
        Name::HtmlText,
        Name::HtmlTextData,
        Name::Autolink,
        Name::AutolinkMarker,
        Name::AutolinkProtocol,
        Name::AutolinkEmail,
        Name::GfmAutolinkLiteralEmail,
        Name::GfmAutolinkLiteralMailto,
        Name::GfmAutolinkLiteralProtocol,
        Name::GfmAutolinkLiteralWww,
        Name::GfmAutolinkLiteralXmpp,
        Name::CharacterEscape,
        Name::CharacterEscapeMarker,
        Name::CharacterEscapeValue,
        Name::CharacterReference,
        Name::CharacterReferenceMarker,
        Name::CharacterReferenceMarkerNumeric,
        Name::CharacterReferenceMarkerHexadecimal,
        Name::CharacterReferenceValue,
        Name::CharacterReferenceMarkerSemi,
        Name::HardBreakEscape,
        Name::HardBreakTrailing,
        Name::GfmTaskListItemCheck,
        Name::GfmTaskListItemMarker,
        Name::GfmTaskListItemValueChecked,
        Name::GfmTaskListItemValueUnchecked,
    ];
}

/// What a line of an outline is.
#[derive(Clone, Copy, Debug, PartialEq, Eq, Hash, PartialOrd, Ord)]
#[non_exhaustive]
#[repr(u16)]
#[rustfmt::skip]
pub enum Word {
    Frontmatter = 0,
    Heading = 1,
    Break = 2,
    Code = 3,
    Fence = 4,
    Math = 5,
    Html = 6,
    Definition = 7,
    Paragraph = 8,
    Table = 9,
    Row = 10,
    Quote = 11,
    Alert = 12,
    List = 13,
    Item = 14,
    Footnote = 15,
    Line = 16,
    Info = 17,
    Meta = 18,
    Label = 19,
    Destination = 20,
    Title = 21,
    Delimiter = 22,
    Cell = 23,
}

impl Word {
    /// All of them, by their numbers.
    #[rustfmt::skip]
    pub const ALL: [Word; 24] = [
        Word::Frontmatter,
        Word::Heading,
        Word::Break,
        Word::Code,
        Word::Fence,
        Word::Math,
        Word::Html,
        Word::Definition,
        Word::Paragraph,
        Word::Table,
        Word::Row,
        Word::Quote,
        Word::Alert,
        Word::List,
        Word::Item,
        Word::Footnote,
        Word::Line,
        Word::Info,
        Word::Meta,
        Word::Label,
        Word::Destination,
        Word::Title,
        Word::Delimiter,
        Word::Cell,
    ];
}

/// The kinds of alerts.
#[derive(Clone, Copy, Debug, PartialEq, Eq, Hash, PartialOrd, Ord)]
#[non_exhaustive]
#[repr(usize)]
#[rustfmt::skip]
pub enum Alert {
    Note = 0,
    Tip = 1,
    Important = 2,
    Warning = 3,
    Caution = 4,
}

impl Alert {
    /// All of them, by their numbers.
    #[rustfmt::skip]
    pub const ALL: [Alert; 5] = [
        Alert::Note,
        Alert::Tip,
        Alert::Important,
        Alert::Warning,
        Alert::Caution,
    ];
}
