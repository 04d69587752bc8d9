//! The library for C, made safe: `include/hoxalgurre.h` says what each call asks for and gives.
use crate::names::{Name, Word};
use crate::Error;
use std::ffi::{c_char, CStr};
use std::{ptr, slice, str};

pub(crate) const EVENTS: u32 = 1;
pub(crate) const LABELS: u32 = 2;
pub(crate) const OUTLINE: u32 = 4;
pub(crate) const HTML: u32 = 8;
pub(crate) const UNSAFE_HTML: u32 = 24;

#[repr(C)]
pub(crate) struct Event {
    pub name: u16,
    pub is_exit: u8,
    pub line: usize,
    pub column: usize,
    pub index: usize,
    pub vs: usize,
}

#[repr(C)]
#[derive(Clone, Copy)]
pub(crate) struct Span {
    at: usize,
    len: usize,
}

#[repr(C)]
pub(crate) struct Line {
    pub word: u16,
    pub marker: u8,
    pub is_closed: u8,
    pub value: usize,
    pub depth: usize,
    pub spaces: usize,
    pub text: Span,
}

/// A document of the library, which is freed when it is dropped.
#[repr(C)]
pub(crate) struct Document {
    events: *mut Event,
    event_count: usize,
    definitions: *mut Span,
    definition_count: usize,
    footnotes: *mut Span,
    footnote_count: usize,
    lines: *mut Line,
    line_count: usize,
    bytes: *mut c_char,
    byte_count: usize,
    html: *mut c_char,
    html_len: usize,
    valid_len: usize,
}

extern "C" {
    fn hoxalgurre_version_text() -> *const c_char;
    fn hoxalgurre_name_text(name: u32) -> *const c_char;
    fn hoxalgurre_is_block(name: u32) -> bool;
    fn hoxalgurre_is_container(name: u32) -> bool;
    fn hoxalgurre_is_text_part(name: u32) -> bool;
    fn hoxalgurre_parse(text: *const u8, len: usize, constructs: u64, wanted: u32, document: *mut Document) -> u32;
    fn hoxalgurre_free(document: *mut Document);
    fn hoxalgurre_normal_form(label: *const u8, len: usize, out: *mut u8, room: usize, count: *mut usize) -> u32;
}

// SAFETY: a document owns its arrays, and nothing changes them until it is dropped.
unsafe impl Send for Document {}
unsafe impl Sync for Document {}

impl Drop for Document {
    fn drop(&mut self) {
        // SAFETY: the library has set it, or it is all 0.
        unsafe { hoxalgurre_free(self) }
    }
}

impl Document {
    /// Parses a text.
    pub fn of(text: &[u8], constructs: u64, wanted: u32) -> Result<Document, Error> {
        let mut document = Document {
            events: ptr::null_mut(),
            event_count: 0,
            definitions: ptr::null_mut(),
            definition_count: 0,
            footnotes: ptr::null_mut(),
            footnote_count: 0,
            lines: ptr::null_mut(),
            line_count: 0,
            bytes: ptr::null_mut(),
            byte_count: 0,
            html: ptr::null_mut(),
            html_len: 0,
            valid_len: 0,
        };
        // SAFETY: the text has so many bytes, and its pointer is not NULL even where it is empty.
        let status = unsafe { hoxalgurre_parse(text.as_ptr(), text.len(), constructs, wanted, &mut document) };
        document.checked(status)
    }

    /// The document where its status is good and all numbers in it are ones that this crate knows.
    fn checked(self, status: u32) -> Result<Document, Error> {
        refused(status, self.valid_len)?;
        let names = self.events().iter().all(|event| usize::from(event.name) < Name::ALL.len());
        let words = self.lines().iter().all(|line| usize::from(line.word) < Word::ALL.len());
        if names && words {
            Ok(self)
        } else {
            Err(Error::Unknown(0))
        }
    }

    pub fn events(&self) -> &[Event] {
        array(self, self.events, self.event_count)
    }

    pub fn lines(&self) -> &[Line] {
        array(self, self.lines, self.line_count)
    }

    pub fn definitions(&self) -> impl Iterator<Item = &str> {
        array(self, self.definitions, self.definition_count).iter().map(|span| self.span(*span))
    }

    pub fn footnotes(&self) -> impl Iterator<Item = &str> {
        array(self, self.footnotes, self.footnote_count).iter().map(|span| self.span(*span))
    }

    /// A part of the bytes.
    pub fn span(&self, span: Span) -> &str {
        let bytes = array(self, self.bytes.cast::<u8>(), self.byte_count);
        bytes.get(span.at..span.at + span.len).and_then(|bytes| str::from_utf8(bytes).ok()).unwrap_or_default()
    }

    pub fn html(&self) -> &str {
        str::from_utf8(array(self, self.html.cast::<u8>(), self.html_len)).unwrap_or_default()
    }
}

/// An array of a document, which may be NULL.
fn array<T>(_owner: &Document, first: *const T, count: usize) -> &[T] {
    if first.is_null() {
        return &[];
    }
    // SAFETY: the library says that so many are there until the document is freed.
    unsafe { slice::from_raw_parts(first, count) }
}

fn refused(status: u32, valid: usize) -> Result<(), Error> {
    match status {
        0 => Ok(()),
        1 => Err(Error::NotUtf8(valid)),
        2 => Err(Error::TooLong),
        3 => Err(Error::NoMemory),
        status => Err(Error::Unknown(status)),
    }
}

pub(crate) fn normal_form(label: &[u8]) -> Result<Vec<u8>, Error> {
    let mut out: Vec<u8> = Vec::new();
    loop {
        let (room, mut count) = (out.capacity(), 0);
        // SAFETY: `out` has so much room, and no pointer is NULL.
        let status = unsafe { hoxalgurre_normal_form(label.as_ptr(), label.len(), out.as_mut_ptr(), room, &mut count) };
        refused(status, count)?;
        if count <= room {
            // SAFETY: so many bytes were written.
            unsafe { out.set_len(count) };
            return Ok(out);
        }
        out.try_reserve_exact(count).map_err(|_| Error::NoMemory)?;
    }
}

/// A text of the library, which is never NULL here.
fn static_text(text: *const c_char) -> &'static str {
    if text.is_null() {
        return "";
    }
    // SAFETY: a NUL ends it, and nobody changes it.
    unsafe { CStr::from_ptr(text) }.to_str().unwrap_or_default()
}

pub(crate) fn version() -> &'static str {
    // SAFETY: it asks for nothing.
    static_text(unsafe { hoxalgurre_version_text() })
}

pub(crate) fn name_text(name: u16) -> &'static str {
    // SAFETY: it takes any number.
    static_text(unsafe { hoxalgurre_name_text(name.into()) })
}

pub(crate) fn is_block(name: u16) -> bool {
    // SAFETY: it takes any number.
    unsafe { hoxalgurre_is_block(name.into()) }
}

pub(crate) fn is_container(name: u16) -> bool {
    // SAFETY: it takes any number.
    unsafe { hoxalgurre_is_container(name.into()) }
}

pub(crate) fn is_text_part(name: u16) -> bool {
    // SAFETY: it takes any number.
    unsafe { hoxalgurre_is_text_part(name.into()) }
}
