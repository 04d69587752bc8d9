"""What `hoxalgurre` has to print of a text, from what the proved programs `blocks` and `events` print of it.

`blocks` prints a line for each block and for each of its texts, `events` where each part begins and ends. From both come
the places of blocks, the virtual spaces before their texts, the records of events and the headings. Pages are in
report_pages.py."""
import json
import re
from collections import namedtuple

from report_pages import BLOCKS, CHUNKS, Page, read_events

KINDS = ("line", "info", "meta", "label", "destination", "title", "delimiter", "cell")
TEXT = re.compile(rf"((?:  )*)(?:({'|'.join(KINDS[1:])}) )?\| (.*)", re.S)
VERSION = 1

Text = namedtuple("Text", "kind spaces text")


class Block:
    """A block of the tree: its words, its place, its texts and the blocks in it."""

    def __init__(self, words, depth):
        self.words, self.depth = words, depth
        self.texts, self.inner = [], []
        self.start = self.end = None

    def is_one(self, *names):
        return self.words.split(" ")[0] in names

    def lines(self, kind="line"):
        return [text.text for text in self.texts if text.kind == kind]


def places(events):
    """Start, end and pieces of each block and row, in the order in which they begin."""
    found, opened, start = [], [], None
    for event in events:
        if event.name in BLOCKS:
            if event.enters:
                opened.append((event, [], len(found)))
                found.append(None)
            else:
                start, pieces, at = opened.pop()
                found[at] = (start, event, pieces)
        elif event.name in CHUNKS:
            if event.enters:
                start = event
            else:
                opened[-1][1].append((start, event))
    return found


class Model:
    """What there is to report of a text."""

    def __init__(self, source, outline, events):
        self.source, self.printed, self.events_text = source, outline, events
        self.events = read_events(events)
        lines, labels = outline.decode().split("\n\n", 1) if outline[:1] != b"\n" else ("", outline.decode()[1:])
        self.labels(labels)
        self.blocks, self.roots = [], []
        self.lines = lines.split("\n") if lines else []
        self.tree(self.lines)
        self.place()

    def labels(self, printed):
        """The labels that are printed after the outline."""
        lines = printed.split("\n")
        count = int(lines[0].removeprefix("definitions "))
        self.definitions = [line.removeprefix("= ") for line in lines[1:count + 1]]
        self.footnotes = [line.removeprefix("= ") for line in lines[count + 2:-1]]

    def tree(self, lines):
        opened = []
        for line in lines:
            found = TEXT.fullmatch(line)
            if found:
                kind = found[2] or "line"
                # The delimiter row of a table is printed after its first row.
                owner = next(block for block in reversed(opened) if block.depth < len(found[1]) // 2)
                owner.texts.append(Text(kind, 0, found[3]))
                continue
            words = line.lstrip(" ")
            block = Block(words, (len(line) - len(words)) // 2)
            del opened[block.depth:]
            (opened[-1].inner if opened else self.roots).append(block)
            opened.append(block)
            self.blocks.append(block)

    def place(self):
        """Gives the blocks their places, and their lines the virtual spaces before them."""
        found = places(self.events)
        if len(found) != len(self.blocks):
            raise ValueError("blocks and events disagree")
        for block, (start, end, pieces) in zip(self.blocks, found):
            block.start, block.end = start, end
            pieces = iter(pieces)
            if block.is_one("code", "fence", "math", "html", "frontmatter"):
                block.texts = [self.text(text, pieces) for text in block.texts]

    def text(self, text, pieces):
        if text.kind != "line" or not text.text:
            return text
        start, end = next(pieces)
        spaces = 4 - (start.column - 1) % 4 if start.virtual else 0
        source = self.source[start.offset + (1 if spaces else 0):end.offset].decode()
        if text.text != " " * spaces + source:
            raise ValueError(f"the text of a piece: {text.text!r} and {source!r}")
        return Text(text.kind, spaces, source)


def place_of(event):
    return {"line": event.line, "column": event.column, "offset": event.offset}


def position(block):
    return {"start": place_of(block.start), "end": place_of(block.end)}


def outline_text(model):
    """The lines of `blocks`, those of blocks with their places."""
    blocks = iter(model.blocks)
    return "".join(line + ("" if TEXT.fullmatch(line) else shown(next(blocks))) + "\n" for line in model.lines)


def shown(block):
    return f" ({block.start.line}:{block.start.column} {block.start.offset}..{block.end.offset})"


def outline_json(model):
    blocks = []
    for block in model.blocks:
        texts = [{"kind": text.kind, "virtual_spaces": text.spaces, "text": text.text} for text in block.texts]
        blocks.append({"block": block.words, "depth": block.depth, "position": position(block), "texts": texts})
    return {"blocks": blocks, "definitions": model.definitions, "footnotes": model.footnotes}


def events_text(model):
    return model.events_text.decode()


def events_json(model):
    return {"events": [{"kind": "enter" if event.enters else "exit", "name": event.name, "place": place_of(event),
                        "virtual_spaces": event.virtual} for event in model.events]}


def headings(model):
    """Headings outside of containers. A section ends where the next one begins that is not deeper."""
    found = [block for block in model.roots if block.is_one("heading")]
    depths = [int(block.words.split()[1]) for block in found]
    made = []
    for at, block in enumerate(found):
        later = (other.start.offset for other, depth in zip(found[at + 1:], depths[at + 1:]) if depth <= depths[at])
        made.append({"depth": depths[at], "text": " ".join(block.lines()), "position": position(block),
                     "section_end": next(later, len(model.source))})
    return made


def headings_text(model):
    lines = []
    for heading in headings(model):
        start = heading["position"]["start"]
        lines.append(f"{start['line']}:{start['column']} {start['offset']}..{heading['section_end']} "
                     f"{'  ' * (heading['depth'] - 1)}{heading['text']}\n")
    return "".join(lines)


def headings_json(model):
    return {"headings": headings(model)}


def html_text(model, is_unsafe=False):
    """The page of a text, which is made once."""
    made = vars(model).setdefault("pages", {})
    if is_unsafe not in made:
        made[is_unsafe] = Page(model, is_unsafe).made
    return made[is_unsafe]


def html_json(model):
    return {"html": html_text(model)}


def unsafe_text(model):
    return html_text(model, True)


def unsafe_json(model):
    return {"html": unsafe_text(model)}


TASKS = {"outline": (outline_text, outline_json), "events": (events_text, events_json),
         "headings": (headings_text, headings_json), "html": (html_text, html_json),
         "html --unsafe": (unsafe_text, unsafe_json)}


def as_json(file, value, source):
    """A value as the program writes it: on one line, without spaces, and only what has to be escaped escaped."""
    made = located({"version": VERSION, "file": file, **value}, line_starts(source), source)
    return json.dumps(made, ensure_ascii=False, separators=(",", ":"))


def line_starts(source):
    return [0] + [found.end() for found in re.finditer(rb"\r\n|\n|\r", source)]


def located(value, starts, source):
    """The same, where each place has its columns in bytes and in UTF-16."""
    if isinstance(value, dict):
        made = {key: located(inner, starts, source) for key, inner in value.items()}
        if {"line", "column", "offset"} <= set(value):
            before = source[starts[value["line"] - 1]:value["offset"]]
            units = len(before.decode().encode("utf-16-le")) // 2
            made.update(byte_column=len(before) + 1, utf16_column=units + 1)
        return made
    return [located(inner, starts, source) for inner in value] if isinstance(value, list) else value


def part(task, form, file, model, has_head):
    """What is printed of one file."""
    as_text, as_value = TASKS[task]
    if form == "json":
        return as_json(file, as_value(model), model.source)
    return (f"==> {file} <==\n" if has_head and not task.startswith("html") else "") + as_text(model)


def report(task, form, files, count=None):
    """What is printed of files, each with its model; `count` files are named, where some have no report."""
    has_heads = (len(files) if count is None else count) > 1
    parts = [part(task, form, file, model, has_heads) for file, model in files]
    return "[" + ",\n".join(parts) + "]\n" if form == "json" else "".join(parts)


def place_of_byte(source, offset):
    """The line and the column of a byte."""
    lines = re.split(rb"\r\n|\n|\r", source[:offset])
    if source[offset - 1:offset + 1] == b"\r\n":
        return place_of_byte(source, offset - 1)[0], place_of_byte(source, offset - 1)[1] + 1
    column = 0
    for byte in lines[-1]:
        column = (column // 4 + 1) * 4 if byte == 9 else column + 1
    return len(lines), column + 1
