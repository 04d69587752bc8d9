"""The library for C by `ctypes`: `include/hoxalgurre.h` says what each call asks for and gives."""
import ctypes
import os
from ctypes import POINTER, c_char_p, c_size_t, c_uint8, c_uint16, c_uint32, c_uint64

EVENTS, LABELS, OUTLINE, HTML, UNSAFE_HTML = 1, 2, 4, 8, 24
NOT_UTF8 = 1


class Event(ctypes.Structure):
    _fields_ = [("name", c_uint16), ("is_exit", c_uint8), ("line", c_size_t), ("column", c_size_t),
                ("index", c_size_t), ("vs", c_size_t)]


class Span(ctypes.Structure):
    _fields_ = [("at", c_size_t), ("len", c_size_t)]


class Line(ctypes.Structure):
    _fields_ = [("word", c_uint16), ("marker", c_uint8), ("is_closed", c_uint8), ("value", c_size_t),
                ("depth", c_size_t), ("spaces", c_size_t), ("text", Span)]


class Document(ctypes.Structure):
    _fields_ = [("events", POINTER(Event)), ("event_count", c_size_t), ("definitions", POINTER(Span)),
                ("definition_count", c_size_t), ("footnotes", POINTER(Span)), ("footnote_count", c_size_t),
                ("lines", POINTER(Line)), ("line_count", c_size_t), ("bytes", ctypes.c_void_p), ("byte_count", c_size_t),
                ("html", ctypes.c_void_p), ("html_len", c_size_t), ("valid_len", c_size_t)]


def _loaded() -> ctypes.CDLL:
    """The library in the package, or else that of the folder HOXALGURRE_LIB, or of the system."""
    own = os.path.join(os.path.dirname(os.path.abspath(__file__)), "libhoxalgurre.so")
    given = os.path.join(os.environ.get("HOXALGURRE_LIB", ""), "libhoxalgurre.so")
    return ctypes.CDLL(next((path for path in (own, given) if os.path.exists(path)), "libhoxalgurre.so.1"))


_library = _loaded()
_library.hoxalgurre_parse.restype = c_uint32
_library.hoxalgurre_parse.argtypes = [c_char_p, c_size_t, c_uint64, c_uint32, POINTER(Document)]
_library.hoxalgurre_free.restype = None
_library.hoxalgurre_free.argtypes = [POINTER(Document)]
_library.hoxalgurre_normal_form.restype = c_uint32
_library.hoxalgurre_normal_form.argtypes = [c_char_p, c_size_t, c_char_p, c_size_t, POINTER(c_size_t)]
for _name in ("version_text", "name_text", "status_text"):
    getattr(_library, f"hoxalgurre_{_name}").restype = c_char_p
for _name in ("name_text", "status_text", "is_block", "is_container", "is_leaf", "is_text_part"):
    getattr(_library, f"hoxalgurre_{_name}").argtypes = [c_uint32]
for _name in ("is_block", "is_container", "is_leaf", "is_text_part"):
    getattr(_library, f"hoxalgurre_{_name}").restype = ctypes.c_bool


class Refused(ValueError):
    """A text that has no answer: `status` says why, and where it is not UTF-8 `valid` how many bytes are."""

    def __init__(self, status: int, valid: int) -> None:
        why = _library.hoxalgurre_status_text(status)
        at = f" at byte {valid}" if status == NOT_UTF8 else ""
        super().__init__((why.decode() if why else f"status {status}") + at)
        self.status, self.valid = status, valid


class Parsed:
    """What was wanted of a text, freed where a `with` ends."""

    def __init__(self, text: bytes, constructs: int, wanted: int) -> None:
        self._document = Document()
        status = _library.hoxalgurre_parse(text, len(text), constructs, wanted, self._document)
        if status:
            raise Refused(status, self._document.valid_len)

    def __enter__(self) -> "Parsed":
        return self

    def __exit__(self, *_: object) -> None:
        _library.hoxalgurre_free(self._document)

    def _text(self, span: Span) -> str:
        return ctypes.string_at(self._document.bytes + span.at, span.len).decode() if span.len else ""

    def events(self) -> "list[Event]":
        return self._document.events[:self._document.event_count]

    def definitions(self) -> "list[str]":
        return [self._text(span) for span in self._document.definitions[:self._document.definition_count]]

    def footnotes(self) -> "list[str]":
        return [self._text(span) for span in self._document.footnotes[:self._document.footnote_count]]

    def lines(self) -> "list[tuple[Line, str]]":
        return [(line, self._text(line.text)) for line in self._document.lines[:self._document.line_count]]

    def html(self) -> str:
        return ctypes.string_at(self._document.html, self._document.html_len).decode() if self._document.html else ""


def normal_form(label: bytes) -> bytes:
    room, count = 2 * len(label), c_size_t()
    while True:
        out = ctypes.create_string_buffer(room + 1)
        status = _library.hoxalgurre_normal_form(label, len(label), out, room, count)
        if status:
            raise Refused(status, count.value)
        if count.value <= room:
            return out.raw[:count.value]
        room = count.value


def version() -> str:
    return str(_library.hoxalgurre_version_text().decode())


def name_text(number: int) -> str:
    return str(_library.hoxalgurre_name_text(number).decode())


def is_block(number: int) -> bool:
    return bool(_library.hoxalgurre_is_block(number))
