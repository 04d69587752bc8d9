//! Markdown to events, labels, an outline and HTML, by the library for C of Hoxalgurre, a parser with proofs.
//!
//! ```
//! use hoxalgurre::{parse, Kind, Name, Options};
//!
//! let document = parse("# a\n\nb [c](/d)\n", Options::GFM)?;
//! let links = document.events().filter(|event| (event.kind, event.name) == (Kind::Enter, Name::Link));
//! assert_eq!(links.map(|link| link.text).collect::<Vec<_>>(), ["[c](/d)"]);
//! # Ok::<(), hoxalgurre::Error>(())
//! ```
#![warn(missing_docs)]

mod names;
mod raw;

pub use names::{Alert, Name, Word};
use std::fmt;
use std::ops::{BitOr, Range};

/// Which constructs are on, as bits: those of blocks, and those of texts, which are in a line.
#[derive(Clone, Copy, Debug, PartialEq, Eq, Hash)]
pub struct Constructs(u64);

impl Constructs {
    /// Whether all of `other` are on.
    pub const fn contains(self, other: Constructs) -> bool {
        self.0 & other.0 == other.0
    }
}

impl BitOr for Constructs {
    type Output = Constructs;

    fn bitor(self, other: Constructs) -> Constructs {
        Constructs(self.0 | other.0)
    }
}

/// How a text is read. The default is [`Options::GFM`].
#[derive(Clone, Copy, Debug, PartialEq, Eq)]
pub struct Options {
    /// The constructs that are on.
    pub constructs: Constructs,
    /// HTML has raw HTML as it is and any protocol in links: for texts that are trusted.
    pub unsafe_html: bool,
}

impl Options {
    /// These constructs, and safe HTML.
    pub const fn of(constructs: Constructs) -> Options {
        Options { constructs, unsafe_html: false }
    }

    /// Also with these constructs.
    pub const fn with(self, more: Constructs) -> Options {
        Options { constructs: Constructs(self.constructs.0 | more.0), ..self }
    }

    /// Without these constructs. Without [`Constructs::INLINES`] each line of a text is one `Data`.
    pub const fn without(self, less: Constructs) -> Options {
        Options { constructs: Constructs(self.constructs.0 & !less.0), ..self }
    }
}

impl Default for Options {
    fn default() -> Options {
        Options::GFM
    }
}

/// Why a text has no answer.
#[derive(Clone, Copy, Debug, PartialEq, Eq)]
#[non_exhaustive]
pub enum Error {
    /// Of [`parse_bytes`]: so many bytes are UTF-8.
    NotUtf8(usize),
    /// The text has more than `usize::MAX / 8` bytes.
    TooLong,
    /// Memory ran out.
    NoMemory,
    /// What the library answers otherwise, as one that is older than this crate: its status.
    Unknown(u32),
}

impl fmt::Display for Error {
    fn fmt(&self, f: &mut fmt::Formatter<'_>) -> fmt::Result {
        match self {
            Error::NotUtf8(valid) => write!(f, "not UTF-8 at byte {valid}"),
            Error::TooLong => f.write_str("too long"),
            Error::NoMemory => f.write_str("out of memory"),
            Error::Unknown(status) => write!(f, "status {status}"),
        }
    }
}

impl std::error::Error for Error {}

/// A place in a text.
#[derive(Clone, Copy, Debug, PartialEq, Eq, PartialOrd, Ord)]
pub struct Point {
    /// From 1.
    pub line: usize,
    /// From 1; a tab reaches to the next multiple of 4, and each other byte is one column.
    pub column: usize,
    /// The byte, from 0.
    pub index: usize,
    /// The columns of the tab at `index` before the point; 0 where no tab is cut.
    pub vs: usize,
}

/// Whether an event begins a part or ends it.
#[derive(Clone, Copy, Debug, PartialEq, Eq)]
pub enum Kind {
    /// It begins.
    Enter,
    /// It ends.
    Exit,
}

/// The begin or the end of a part of the text. Parts nest like brackets, and those that have no others in them lie side
/// by side from the first byte to the last.
#[derive(Clone, Debug, PartialEq, Eq)]
pub struct Event<'a> {
    /// Which of both.
    pub kind: Kind,
    /// What the part is.
    pub name: Name,
    /// Where it begins or ends.
    pub point: Point,
    /// The bytes of the part, from its begin to its end.
    pub range: Range<usize>,
    /// These bytes, prefixes of containers between its lines included.
    pub text: &'a str,
}

/// A line of an outline: a block, a row, or a line of text below it.
#[derive(Clone, Copy, Debug, PartialEq, Eq)]
pub struct Line<'a> {
    /// What it is.
    pub word: Word,
    /// Of frontmatter, a fence and a list the byte of its fences or markers, else 0.
    pub marker: u8,
    /// Of a fence and math whether it has a closing fence.
    pub is_closed: bool,
    /// Of a heading its depth, of a table its columns, of an alert the number of its [`Alert`], else 0.
    pub value: usize,
    /// How many blocks are around it.
    pub depth: usize,
    /// The columns of a cut tab before the text.
    pub spaces: usize,
    /// Its text, without prefixes of containers and indent; empty where the word has none.
    pub text: &'a str,
}

/// What was read of a text.
pub struct Document<'a> {
    text: &'a str,
    raw: raw::Document,
    /// Of each event where its part begins and ends.
    ranges: Vec<Range<usize>>,
}

/// Reads a text: its events, labels and outline.
pub fn parse(text: &str, options: Options) -> Result<Document<'_>, Error> {
    let raw = raw::Document::of(text.as_bytes(), options.constructs.0, raw::EVENTS | raw::LABELS | raw::OUTLINE)?;
    let ranges = ranges(raw.events()).ok_or(Error::NoMemory)?;
    Ok(Document { text, raw, ranges })
}

/// Reads bytes, which have to be UTF-8.
pub fn parse_bytes(text: &[u8], options: Options) -> Result<Document<'_>, Error> {
    parse(std::str::from_utf8(text).map_err(|error| Error::NotUtf8(error.valid_up_to()))?, options)
}

/// The HTML of a text.
pub fn html(text: &str, options: Options) -> Result<String, Error> {
    let wanted = if options.unsafe_html { raw::UNSAFE_HTML } else { raw::HTML };
    Ok(raw::Document::of(text.as_bytes(), options.constructs.0, wanted)?.html().to_owned())
}

/// The normal form of a label, by which labels are compared (CommonMark 6.3).
pub fn normal_form(label: &str) -> Result<String, Error> {
    String::from_utf8(raw::normal_form(label.as_bytes())?)
        .map_err(|error| Error::NotUtf8(error.utf8_error().valid_up_to()))
}

/// The version of the library, as `1.0.0`.
pub fn version() -> &'static str {
    raw::version()
}

impl Name {
    /// Its text, as `HeadingAtx`.
    pub fn text(self) -> &'static str {
        raw::name_text(self as u16)
    }

    /// Whether it is a container or a leaf.
    pub fn is_block(self) -> bool {
        raw::is_block(self as u16)
    }

    /// Whether it is a block quote, a list, an item or a footnote definition.
    pub fn is_container(self) -> bool {
        raw::is_container(self as u16)
    }

    /// Whether it is a text in which inline constructs are.
    pub fn is_text_part(self) -> bool {
        raw::is_text_part(self as u16)
    }
}

impl<'a> Document<'a> {
    /// The events, from the first to the last.
    pub fn events(&self) -> impl ExactSizeIterator<Item = Event<'a>> + '_ {
        let text = self.text;
        self.raw.events().iter().zip(&self.ranges).map(move |(raw, range)| Event {
            kind: if raw.is_exit == 0 { Kind::Enter } else { Kind::Exit },
            name: Name::ALL[usize::from(raw.name)],
            point: Point { line: raw.line, column: raw.column, index: raw.index, vs: raw.vs },
            range: range.clone(),
            text: text.get(range.clone()).unwrap_or_default(),
        })
    }

    /// The labels of link reference definitions, in normal form, in the order of the text: the n-th is that of the n-th
    /// `DefinitionLabel`. The first of equal ones counts.
    pub fn definitions(&self) -> impl Iterator<Item = &str> {
        self.raw.definitions()
    }

    /// The labels of footnote definitions.
    pub fn footnotes(&self) -> impl Iterator<Item = &str> {
        self.raw.footnotes()
    }

    /// The lines of the outline. The n-th line of a block or a row is of the n-th event that begins one.
    pub fn outline(&self) -> impl Iterator<Item = Line<'_>> {
        self.raw.lines().iter().map(|line| Line {
            word: Word::ALL[usize::from(line.word)],
            marker: line.marker,
            is_closed: line.is_closed != 0,
            value: line.value,
            depth: line.depth,
            spaces: line.spaces,
            text: self.raw.span(line.text),
        })
    }
}

/// Of each event where its part begins and ends, or None where memory ran out.
fn ranges(events: &[raw::Event]) -> Option<Vec<Range<usize>>> {
    let (mut ranges, mut open) = (Vec::new(), Vec::new());
    ranges.try_reserve_exact(events.len()).ok()?;
    for (at, event) in events.iter().enumerate() {
        ranges.push(event.index..event.index);
        if event.is_exit == 0 {
            open.try_reserve(1).ok()?;
            open.push(at);
        } else if let Some(enter) = open.pop() {
            ranges[at].start = events[enter].index;
            ranges[enter].end = event.index;
        }
    }
    Some(ranges)
}
