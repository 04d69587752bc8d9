r"""Markdown to events, labels, a tree and HTML, by the library for C of Hoxalgurre, a parser with proofs.

    >>> import hoxalgurre
    >>> hoxalgurre.html("*a* [b](/c)")
    '<p><em>a</em> <a href="/c">b</a></p>\n'
    >>> [node.text for node in hoxalgurre.tree("*a* [b](/c)").walk() if node.name == "Link"]
    ['[b](/c)']

A text is `str` or `bytes`. `constructs` is the name of a set, `commonmark`, `gfm`, `all` or `alerts`, with what it has in
texts, or flags of `Constructs`: `SETS["gfm"] & ~INLINES` is GFM without inline content."""
from __future__ import annotations

from collections.abc import Iterator, Sequence
from dataclasses import dataclass, field
from typing import NamedTuple, Union, overload

from . import _library
from ._library import Refused
from ._names import ALERTS, INLINES, NAMES, SETS, WORDS, Constructs

__all__ = ["ALERTS", "Constructs", "Event", "Events", "INLINES", "Labels", "Line", "NAMES", "Node", "Refused", "SETS",
           "WORDS", "html", "is_block", "labels", "normal_form", "outline", "tree", "version"]

Text = Union[str, bytes]
Chosen = Union[str, Constructs]


class Event(NamedTuple):
    """The begin or the end of a part. Lines and columns count from 1, and a tab reaches to the next multiple of 4; `index`
    is the byte from 0, `vs` the columns of a tab there before the point; `text` is that of the whole part."""

    is_exit: bool
    name: str
    line: int
    column: int
    index: int
    vs: int
    text: str


class Labels(NamedTuple):
    """Labels in normal form, in the order of the text, with repeats: the first of equal ones counts."""

    definitions: list[str]
    footnotes: list[str]


class Line(NamedTuple):
    """A line of an outline. `value` is the depth of a heading, the columns of a table, or which of `ALERTS` an alert is."""

    depth: int
    word: str
    text: str
    value: int
    marker: str
    is_closed: bool
    spaces: int


@dataclass
class Node:
    """A part of a text, with the place where it begins, and the parts in it."""

    name: str
    text: str
    line: int
    column: int
    index: int
    children: list[Node] = field(default_factory=list)

    def walk(self) -> Iterator[Node]:
        """The part, and all in it, each before those in it."""
        left = [self]
        while left:
            node = left.pop()
            yield node
            left += reversed(node.children)


class Events(Sequence[Event]):
    """The events of a text. Parts nest, and those without others in them lie side by side over all bytes."""

    def __init__(self, text: Text, constructs: Chosen = "gfm") -> None:
        raw = _bytes(text)
        with _library.Parsed(raw, _bits(constructs), _library.EVENTS) as parsed:
            self._events = _events(raw, parsed.events())

    @overload
    def __getitem__(self, at: int) -> Event: ...

    @overload
    def __getitem__(self, at: slice) -> Sequence[Event]: ...

    def __getitem__(self, at: int | slice) -> Event | Sequence[Event]:
        return self._events[at]

    def __len__(self) -> int:
        return len(self._events)


def tree(text: Text, constructs: Chosen = "gfm") -> Node:
    """The parts of a text, in a part `Document`."""
    root = Node("Document", _bytes(text).decode(), 1, 1, 0)
    open_nodes = [root]
    for event in Events(text, constructs):
        if event.is_exit:
            open_nodes.pop()
        else:
            node = Node(event.name, event.text, event.line, event.column, event.index)
            open_nodes[-1].children.append(node)
            open_nodes.append(node)
    return root


def html(text: Text, constructs: Chosen = "gfm", unsafe: bool = False) -> str:
    """The HTML of a text; `unsafe` keeps raw HTML and any protocol in links, for texts that are trusted."""
    wanted = _library.UNSAFE_HTML if unsafe else _library.HTML
    with _library.Parsed(_bytes(text), _bits(constructs), wanted) as parsed:
        return parsed.html()


def labels(text: Text, constructs: Chosen = "gfm") -> Labels:
    """The labels of link reference definitions and of footnote definitions."""
    with _library.Parsed(_bytes(text), _bits(constructs), _library.LABELS) as parsed:
        return Labels(parsed.definitions(), parsed.footnotes())


def outline(text: Text, constructs: Chosen = "gfm") -> list[Line]:
    """The blocks and rows of a text, and the lines of text below them."""
    with _library.Parsed(_bytes(text), _bits(constructs), _library.OUTLINE) as parsed:
        return [Line(line.depth, WORDS[line.word], text, line.value, chr(line.marker) if line.marker else "",
                     bool(line.is_closed), line.spaces) for line, text in parsed.lines()]


def normal_form(label: Text) -> str:
    """The normal form of a label, by which labels are compared (CommonMark 6.3)."""
    return _library.normal_form(_bytes(label)).decode()


def is_block(name: str) -> bool:
    """Whether a name of events is that of a block."""
    return _library.is_block(NAMES.index(name))


def version() -> str:
    """The version of the library."""
    return _library.version()


def _bytes(text: Text) -> bytes:
    return text.encode() if isinstance(text, str) else text


def _bits(constructs: Chosen) -> int:
    return int(SETS[constructs] if isinstance(constructs, str) else constructs)


def _events(raw: bytes, events: list[_library.Event]) -> list[Event]:
    """Events with the texts of their parts."""
    spans, open_events = [(0, 0)] * len(events), []
    for at, event in enumerate(events):
        if not event.is_exit:
            open_events.append(at)
        elif open_events:
            enter = open_events.pop()
            spans[at] = spans[enter] = events[enter].index, event.index
    return [Event(bool(event.is_exit), NAMES[event.name], event.line, event.column, event.index, event.vs,
                  raw[start:end].decode()) for event, (start, end) in zip(events, spans)]
