#!/usr/bin/env python3
"""Measures the built program `blocks`: the figures of docs/performance.md are from its tables.

`rt run` in crates/blocks builds it as crates/blocks/out/blocks. Tables are named as arguments; where none is, all are
printed:

    cost      instructions and memory by byte of text
    growth    how many times the instructions twice the text takes
    times     seconds from the start of the process to its end, each the best of some runs
    beside    processor time and memory of `blocks` and of the block layer of cmark on 10 MB of text, run in turn
    inlines   instructions by byte of text with inline content: its events (`test_cost`), and HTML (`hoxalgurre html`)

Instructions are counted by valgrind (callgrind), so they are the same on each run of the same program; where it is
missing, the times are printed alone. Memory is the most that is resident.

`beside` builds a program over libcmark that reads blocks and no inlines and prints an outline, where a C compiler and
the archive of libcmark are installed (`libcmark-dev`). The text is mixed text again and again, or that of `--text`.

`cost` counts cmark, cmark-gfm and md2html (md4c) beside it where they are installed: whole programs, which read inlines
too and print them; `inlines` counts the HTML of these. `--other COMMAND` counts another program, such as a block layer of
one of these that prints an outline.
"""

import argparse
import os
import re
import shlex
import shutil
import subprocess
import sys
import tempfile
import time
from collections.abc import Callable
from pathlib import Path
from typing import NamedTuple

ROOT = Path(__file__).resolve().parent.parent
MEGABYTE = 1_000_000
# Twice a text takes at most so many times the instructions.
WANTED = 2.05

LINE = "Lorem ipsum dolor sit amet, consectetur adipiscing elit, sed do eiusmod tempor"
DEEP = ">" * 1_000 + " a\n"
MIXED = f"""# A tool, and how it is used

{LINE}, which `has` *some*
[links](https://example.org/a/page) and ends
on a third line.

## What is new

* {LINE} incididunt ut labore ([a link](https://example.org/1))
* {LINE} et dolore magna aliqua, in `some::code` and *more*
* {LINE}, quis nostrud exercitation ullamco laboris nisi ut aliquip ([another](https://example.org/2))
* A short one
  - with one in it, which is of ordinary length
  - and another

1. First, install it:

   ```sh
   $ tool install --from ./some/folder --with "a value"
   $ tool run
   ```

2. Then call it, as given [below][use].

> {LINE}

```rust
fn main() -> Result<(), Error> {{
    let options = Options::from_args()?;
    for name in options.names.iter().filter(|name| !name.is_empty()) {{
        println!("{{name}}: {{}}", options.values[name]);
    }}

    run(&options)
}}
```

{LINE}
{LINE}
{LINE}
ut enim ad minim veniam.

{LINE}, {LINE.lower()}.

    indented code, on a line
    and on another

* * *

| Option | What it does |
|---|---|
| `--from` | where it reads |
| `--with` | what it is given |

<p align="center">
<img src="https://example.org/image.png">
</p>

### Use

{LINE}:
see `tool help`, where {LINE.lower()}.

{LINE}, excepteur sint occaecat cupidatat non proident.
{LINE}, sunt in culpa.

[use]: https://example.org/use "How it is used"
[links]: <https://example.org/links>

"""

# Texts that are made of one part, again and again.
PARTS = {
    "mixed, as real Markdown": MIXED,
    "paragraphs of long lines": (LINE + "\n") * 6 + "\n",
    "one long line": LINE + " ",
    "paragraphs of two bytes": "ab\n\n",
    "headings of some words": "## A heading of some words ##\n",
    "setext headings": "Some words of a heading\n---\n",
    "quotes of long lines": f"> {LINE}\n",
    "quotes in quotes in quotes": "> > > a few words\n",
    "lists": "- one\n- two of them\n  and more\n\n  - within\n\n1. three\n2. four\n\n",
    "fences of some words": "```\nsome words\n```\n",
    "lines of an open fence": "~~~ a line of words\n",
    "lines of indented code": "    a line of words\n",
    "code": "```rust\nlet a = 1;\n    b(a);\n```\n\n    indented\n\n",
    "HTML": '<div class="a">\n<p>some text</p>\n</div>\n\n<!-- c -->\n\n',
    "definitions": '[a label]: /destination "title"\n[b]: <c>\n\n',
    "tables": "| a | b |\n|---|:-:|\n| 1 | 2 \\| 3 |\n\n",
    "blank lines": "\n",
    "quotes and blank lines in turn": "> a\n\n",
    "one line of tabs": "\t",
    "one line of spaces": " ",
    "one line of `*`": "*",
    "one line of `#`": "#",
    "CR LF": "some words\r\n",
}


def deep(quotes: int, after: str, lines: int, groups: int = 1) -> str:
    """So many quotes on a line, and lines after it, in so many groups."""
    return (">" * quotes + " a\n" + after * lines) * groups


def steps(items: int) -> str:
    """So many items in one another, each on a line of its own."""
    return "".join("  " * depth + "- a\n" for depth in range(items))


def in_fence(line: str, lines: int, first: str = "", further: str = "") -> str:
    """A fence that no line closes, with so many lines, in containers with these prefixes."""
    return f"{first}````\n" + f"{further}{line}\n" * lines


def fences(count: int, first: str = "", further: str = "") -> str:
    """So many fences of one line, in containers with these prefixes."""
    return f"{first}```\n{further}a\n{further}```\n" * count


def table(rows: int, columns: int) -> str:
    """A table of so many columns, with so many rows after its head."""
    return "\n".join(part * columns for part in ["|a", "|-", *["|b"] * rows]) + "\n"


def code(blank: int, after: str, first: str = "", empty: str = "", further: str = "") -> str:
    """A line of indented code, so many blank lines and one line more, in containers with these prefixes."""
    return f"{first}    a\n" + f"{empty}\n" * blank + f"{further}{after}\n"


# Texts that grow in another way, where they are once or twice as large.
GROWING: dict[str, Callable[[int], str]] = {
    "4,000 quotes on one line": lambda n: deep(4_000 * n, "", 0),
    "20 lines in 1,000 quotes, twice the lines": lambda n: deep(1_000, "", 0, 20 * n),
    "20 lines in 1,000 quotes, twice the quotes": lambda n: deep(1_000 * n, "", 0, 20),
    "1,000 quotes with 1,000 lazy lines, four times": lambda n: deep(1_000, "b\n", 1_000, 4 * n),
    "1,000 quotes with 1,000 lazy lines, twice both": lambda n: deep(1_000 * n, "b\n", 1_000 * n),
    "1,000 quotes with 1,000 blank lines, four times": lambda n: deep(1_000, "\n", 1_000, 4 * n),
    "1,000 quotes with 1,000 blank lines, twice both": lambda n: deep(1_000 * n, "\n", 1_000 * n),
    "1,000 quotes with 1,000 lines `> b`, twice both": lambda n: deep(1_000 * n, "> b\n", 1_000 * n),
    "200 items in one another on one line": lambda n: "- " * 200 * n + "a\n",
    "2,000 items in one another on one line": lambda n: "- " * 2_000 * n + "a\n",
    "200 items in one another line by line": lambda n: steps(int(200 * n**0.5)),
    "1,000 items with 1,000 blank lines, twice both": lambda n: "- " * 1_000 * n + "a\n" + "\n" * 1_000 * n,
    "10,000 items": lambda n: "- a\n" * 10_000 * n,
    "10,000 items with markers in turn": lambda n: "- a\n* b\n" * 5_000 * n,
    "an open fence of 8 MB": lambda n: in_fence(LINE, 101_000 * n),
    "an open fence of 8 MB in a quote": lambda n: in_fence(LINE, 101_000 * n, "> ", "> "),
    "an open fence of 8 MB in an item": lambda n: in_fence(LINE, 101_000 * n, "- ", "  "),
    "100,000 lines in a fence, too short to close it": lambda n: in_fence("```", 100_000 * n),
    "such lines in a quote": lambda n: in_fence("```", 100_000 * n, "> ", "> "),
    "such lines in an item": lambda n: in_fence("```", 100_000 * n, "- ", "  "),
    "100,000 fences": lambda n: fences(100_000 * n),
    "100,000 fences in a quote": lambda n: fences(100_000 * n, "> ", "> "),
    "100,000 fences in items": lambda n: fences(100_000 * n, "- ", "  "),
    "100,000 blank lines in code": lambda n: code(100_000 * n, "    b"),
    "100,000 blank lines in code in a quote": lambda n: code(100_000 * n, "    b", "> ", ">", "> "),
    "100,000 blank lines in code in an item": lambda n: code(100_000 * n, "    b", "- ", "", "  "),
    "100,000 blank lines after code": lambda n: code(100_000 * n, "b"),
    "100,000 blank lines after code in a quote": lambda n: code(100_000 * n, "b", "> ", ">", "> "),
    "100,000 blank lines after code in an item": lambda n: code(100_000 * n, "b", "- ", "", "  "),
    "100,000 lines of code with as many blank ones": lambda n: "    a\n\n" * 100_000 * n,
    "a comment of 8 MB that is not closed": lambda n: "<!--\n" + f"{LINE}\n" * 101_000 * n,
    "300,000 of `<!-` in a comment": lambda n: "<!--\n" + "<!-" * 300_000 * n,
    "300,000 of `]]` in CDATA": lambda n: "<![CDATA[" + "]]" * 300_000 * n,
    "300,000 of `</` in a script": lambda n: "<script>\n" + "</" * 300_000 * n,
    "300,000 lines `<a `": lambda n: "<a \n" * 300_000 * n,
    "300,000 of `<a ` on one line": lambda n: "<a " * 300_000 * n,
    "a tag with 100,000 attributes": lambda n: "<a" + ' b="c"' * 100_000 * n + ">\n",
    "such a tag that is not closed": lambda n: "<a" + ' b="c"' * 100_000 * n + "\n",
    "100,000 setext headings": lambda n: "a\n-\n" * 100_000 * n,
    "a setext heading of 100,000 lines": lambda n: "a\n" * 100_000 * n + "=\n",
    "such a heading in a quote": lambda n: "> a\n" * 100_000 * n + "> =\n",
    "100,000 underlines after a line": lambda n: "a\n" + "=\n" * 100_000 * n,
    "100,000 lines of HTML in a quote": lambda n: "> <div>\n" + "> a\n" * 100_000 * n,
    "100,000 definitions": lambda n: "[a]: b\n" * 100_000 * n,
    "100,000 definitions in a quote": lambda n: "> [a]: b\n" * 100_000 * n,
    "a paragraph of 100,000 lines that begin with `[`": lambda n: "[a\n[\n" * 50_000 * n,
    "100,000 lines in a label that is not closed": lambda n: "[\n" + "a\n" * 100_000 * n,
    "`[a]: b` with 100,000 underlines after it": lambda n: "[a]: b\n" + "=\n" * 100_000 * n,
    "`[a]: b` with 100,000 lines after it": lambda n: "[a]: b\n" + "c\n" * 100_000 * n,
    "100,000 parentheses in a destination": lambda n: "[a]: " + "(" * 50_000 * n + ")" * 50_000 * n + "\n",
    "a title of 100,000 lines that is not closed": lambda n: '[a]: b\n"' + "c\n" * 100_000 * n,
}

# The same, of tables and of lines that are almost some.
TABLES: dict[str, Callable[[int], str]] = {
    "a table of 100,000 rows": lambda n: table(100_000 * n, 1),
    "such a table in a quote": lambda n: "".join(f"> {line}\n" for line in table(100_000 * n, 1).splitlines()),
    "a table with a row of 100,000 cells": lambda n: "a\n:-\n" + "|b" * 100_000 * n + "\n",
    "a table of 100,000 columns": lambda n: table(1, 100_000 * n),
    "400 rows of 400 columns, twice the rows": lambda n: table(400 * n, 400),
    "400 rows of 400 columns, twice the columns": lambda n: table(400, 400 * n),
    "a cell of 100,000 words": lambda n: "a\n:-\n" + "b " * 100_000 * n + "\n",
    "a cell of 100,000 pairs": lambda n: "a\n:-\n" + "\\|" * 100_000 * n + "\n",
    "100,000 tables without a body": lambda n: "a\n:-\n\n" * 100_000 * n,
    "100,000 lines of text with a pipe": lambda n: "|a\n" * 100_000 * n,
    "a table after 100,000 lines of text": lambda n: "a\n" * 100_000 * n + ":-\n",
    "100,000 delimiter rows of one cell too many": lambda n: "a|b\n-|-|-\n" * 100_000 * n,
    "100,000 lines, each a head that the next one refuses": lambda n: "-|-|-\n-|-\n" * 50_000 * n,
    "a head of 100,000 cells and a delimiter row of one fewer": lambda n: "|a" * 100_000 * n + "\n" + "|-" * (100_000 * n - 1) + "\n",
}


def front(lines: int, line: str, after: str) -> str:
    """A text that begins as frontmatter does, with so many lines and with this after them."""
    return "---\n" + f"{line}\n" * lines + after


def in_notes(notes: int) -> str:
    """So many footnote definitions in one another, each on a line of its own."""
    return "".join("    " * depth + "[^a]: b\n" for depth in range(notes))


# The same, of footnote definitions, of frontmatter, and of what is almost some.
EXTENSIONS: dict[str, Callable[[int], str]] = {
    "10,000 footnote definitions": lambda n: "[^a]: b\n" * 10_000 * n,
    "10,000 footnote definitions in a quote": lambda n: "> [^a]: b\n" * 10_000 * n,
    "10,000 footnote definitions without text": lambda n: "[^a]:\n" * 10_000 * n,
    "a footnote definition of 100,000 paragraphs": lambda n: "[^a]: b\n" + "\n    b\n" * 100_000 * n,
    "a footnote definition with 100,000 lazy lines": lambda n: "[^a]: b\n" + "b\n" * 100_000 * n,
    "1,000 footnote definitions in one another on one line": lambda n: "[^a]: " * 1_000 * n + "b\n",
    "200 footnote definitions in one another line by line": lambda n: in_notes(int(200 * n**0.5)),
    "1,000 such with 1,000 blank lines, twice both": lambda n: "[^a]: " * 1_000 * n + "b\n" + "\n" * 1_000 * n,
    "1,000 labels of 990 bytes": lambda n: f"[^{'a' * 990}]: b\n" * 1_000 * n,
    "1,000 labels of 990 bytes that are not closed": lambda n: f"[^{'a' * 990}\n\n" * 1_000 * n,
    "a label of 1,000,000 bytes": lambda n: "[^" + "a" * 1_000_000 * n + "]: b\n",
    "frontmatter of 8 MB": lambda n: front(101_000 * n, LINE, "---\n"),
    "frontmatter of 8 MB that is not closed": lambda n: front(101_000 * n, LINE, ""),
    "100,000 lines in frontmatter, too short to close it": lambda n: front(100_000 * n, "--", "---\n"),
    "such lines, and nothing that closes it": lambda n: front(100_000 * n, "--", ""),
    "100,000 blank lines in frontmatter": lambda n: front(100_000 * n, "", "---\n"),
    "100,000 blank lines, and nothing that closes it": lambda n: front(100_000 * n, "", ""),
}

# The same, of references that an inline layer looks up: `examples_references` reads them.
REFERENCES: dict[str, Callable[[int], str]] = {
    "100,000 definitions looked up by 100,000 references, twice of each": lambda n: "".join(
        [f"[{at}]: b\n" for at in range(100_000 * n)] + ["\n"] + [f"a [{at}]\n" for at in range(100_000 * n)]
    ),
}

# Texts with inline content: how each begins, and a part that follows again and again.
INLINES: dict[str, tuple[str, str]] = {
    "mixed, as real Markdown": ("", MIXED),
    "paragraphs of long lines": ("", PARTS["paragraphs of long lines"]),
    "emphasis": ("", "Some *emphasis*, some **strong emphasis** and some ***of both***, in a line of text\n"),
    "links": ("", "A [link to a page](https://example.org/page \"its title\") and ![an image](image.png)\n"),
    "references": (
        "[page]: https://example.org/page \"its title\"\n[other]: <image.png>\n\n",
        "A [reference to a page][page], the [page][] by its label and the [other] in a line\n",
    ),
    "code": ("", "Some `code` and ``some ` of it`` in a line of text that has `more of it` after that\n"),
}

# What is timed: a part, and how often it is repeated.
TIMED: list[tuple[str, str, list[int]]] = [
    ("MB of paragraphs", PARTS["paragraphs of long lines"] * 8 + "* * *\n\n", [1, 2, 4, 8]),
    ("MB of quotes", f"> {LINE}\n> and *ends* here\nor on a lazy line.\n>\n> > # a\n> > b\n\n", [1, 2, 4, 8]),
    ("MB of mixed text", MIXED, [1, 2, 4, 8]),
    ("headings", "## A heading of a few # words ##\n", [10_000, 20_000, 40_000, 80_000]),
    ("lines in 1,000 quotes", DEEP, [500, 1_000, 2_000, 4_000]),
]


# The outline of the blocks of the standard input by libcmark: a line for each block, and its lines of the source. The
# first function replaces that of the library, so that no inlines are read.
CMARK_OUTLINE = r"""
#include <cmark.h>
#include <stdio.h>
#include <stdlib.h>
#include <string.h>

void cmark_parse_inlines(void *mem, void *parent, void *refmap, int options) {}

static void indent(int depth) {
    for (int at = 0; at < depth; at++) fputs("  ", stdout);
}

static int is_leaf(cmark_node_type type) {
    return type == CMARK_NODE_PARAGRAPH || type == CMARK_NODE_HEADING || type == CMARK_NODE_CODE_BLOCK
        || type == CMARK_NODE_HTML_BLOCK;
}

int main(void) {
    size_t size = 0, room = 1 << 20;
    char *text = malloc(room);
    for (size_t got; text && (got = fread(text + size, 1, room - size, stdin)) > 0;) {
        size += got;
        if (size == room) text = realloc(text, room *= 2);
    }
    if (!text) return 3;
    cmark_node *document = cmark_parse_document(text, size, CMARK_OPT_DEFAULT);
    cmark_iter *iter = cmark_iter_new(document);
    const char *from = text, *end = text + size;
    int line = 1, depth = 0;
    for (cmark_event_type event; (event = cmark_iter_next(iter)) != CMARK_EVENT_DONE;) {
        cmark_node *node = cmark_iter_get_node(iter);
        cmark_node_type type = cmark_node_get_type(node);
        if (type == CMARK_NODE_DOCUMENT) continue;
        if (event == CMARK_EVENT_EXIT) {
            depth -= !is_leaf(type);
            continue;
        }
        indent(depth);
        fputs(cmark_node_get_type_string(node), stdout);
        if (type == CMARK_NODE_HEADING) printf(" %d", cmark_node_get_heading_level(node));
        fputs("\n", stdout);
        if (is_leaf(type)) {
            for (; line <= cmark_node_get_end_line(node) && from < end; line++) {
                const char *feed = memchr(from, '\n', end - from);
                const char *next = feed ? feed + 1 : end;
                if (line >= cmark_node_get_start_line(node)) {
                    indent(depth + 1);
                    fputs("| ", stdout);
                    fwrite(from, 1, (feed ? feed : end) - from, stdout);
                    fputs("\n", stdout);
                }
                from = next;
            }
        } else if (type != CMARK_NODE_THEMATIC_BREAK) {
            depth++;
        }
    }
    cmark_iter_free(iter);
    cmark_node_free(document);
    free(text);
    return 0;
}
"""

# Programs that are counted beside it where they are installed.
OTHERS = ["cmark --to xml", "cmark-gfm --extension table --to xml", "md2html --ftables"]


def arguments(name: str) -> list[str]:
    """The arguments of the program for the text of this name: to read tables, or all, where it is about them."""
    if name in EXTENSIONS:
        return ["all"]
    return ["gfm"] if name in TABLES or name == "tables" else []


def filled(part: str, size: int) -> str:
    """A part again and again, up to this size."""
    return part * max(1, size // len(part))


# The program with an inline layer that looks references up; one that makes events of whole Markdown, where a text begins
# so; and one that makes HTML.
LAYER = ROOT / "crates/examples_references/out/examples_references"
EVENTS = ROOT / "crates/test_cost/out/test_cost"
WITH_INLINES = "\n\t\n"
HTML = ROOT / "crates/hoxalgurre/out/hoxalgurre"

# Programs whose HTML is counted beside it.
OTHER_HTML = ["cmark", "cmark-gfm --extension table", "md2html --ftables"]


class Ran(NamedTuple):
    """What a run took: seconds from its start to its end, the most bytes that it held, and seconds of the processor."""

    seconds: float
    memory: int
    processor: float


class Program:
    """A program that reads a text from its standard input."""

    def __init__(self, path: Path) -> None:
        if not path.is_file():
            raise SystemExit(f"{path} does not exist: `rt run` in its crate builds it")
        self.path = path
        self.counts: dict[int, int] = {}

    def instructions(self, text: str, given: list[str]) -> int:
        """The instructions from the start of the process to its end."""
        key = hash((text, *given))
        if key not in self.counts:
            command = ["valgrind", "--tool=callgrind", "--callgrind-out-file=/dev/null", self.path, *given]
            done = subprocess.run(command, input=text.encode(), stdout=subprocess.DEVNULL, stderr=subprocess.PIPE)
            found = re.search(rb"Collected : (\d+)", done.stderr)
            if done.returncode != 0 or not found:
                raise SystemExit(f"{self.path}: status {done.returncode}: {done.stderr[-300:]!r}")
            self.counts[key] = int(found[1])
        return self.counts[key]

    def by_byte(self, text: str, given: list[str]) -> float:
        """The instructions by byte of text, less those of an empty one."""
        return (self.instructions(text, given) - self.instructions("", given)) / len(text.encode())

    def run(self, part: str, size: int, given: list[str]) -> Ran:
        """What a run takes on a part again and again, up to this size.

        What this script holds when it starts the process counts too, so it keeps no text of that size.
        """
        block = part.encode() * max(1, 100_000 // len(part))
        with tempfile.TemporaryFile() as source:
            for _ in range(size // len(block)):
                source.write(block)
            source.write(block[: size % len(block)])
            source.seek(0)
            start = time.perf_counter()
            process = subprocess.Popen([self.path, *given], stdin=source, stdout=subprocess.DEVNULL)
            _, status, usage = os.wait4(process.pid, 0)
            seconds = time.perf_counter() - start
        process.returncode = os.waitstatus_to_exitcode(status)
        if process.returncode != 0:
            raise SystemExit(f"{self.path} ended with status {process.returncode}")
        return Ran(seconds, usage.ru_maxrss * 1024, usage.ru_utime + usage.ru_stime)


def row(*cells: str) -> None:
    print("| " + " | ".join(cells) + " |", flush=True)


def head(*cells: str) -> None:
    row(*cells)
    print("|" + "---|" * len(cells))


def others(commands: list[str]) -> dict[str, tuple[Program, list[str]]]:
    """The programs of these commands that are installed, each with its arguments."""
    found = {}
    for command in commands:
        name, *given = shlex.split(command)
        if path := shutil.which(name):
            found[Path(name).name] = (Program(Path(path)), given)
    return found


def print_cost(program: Program, size: int, beside: dict[str, tuple[Program, list[str]]]) -> None:
    """What a byte of text costs, where the text is so long already: of a text less its first half."""
    head("Text", "Instructions a byte", "Memory a byte", *beside)
    for name, part in PARTS.items():
        given = arguments(name)
        half, whole = filled(part, size // 2), filled(part, size // 2) * 2

        def cost(program: Program, given: list[str]) -> str:
            more = program.instructions(whole, given) - program.instructions(half, given)
            return f"{more / (len(whole) - len(half)):.1f}"

        least = 8 * size
        while program.run(part, least, given).memory < 40 * MEGABYTE and least < 60 * MEGABYTE:
            least *= 2
        memory = (program.run(part, 2 * least, given).memory - program.run(part, least, given).memory) / least
        row(name, cost(program, given), f"{memory:.1f}", *(cost(*other) for other in beside.values()))


def print_inlines(size: int, beside: dict[str, tuple[Program, list[str]]]) -> None:
    """What a byte of text with inline content costs: of a text less its first half."""
    head("Text", "Events", "HTML", *beside)
    counted = [(Program(EVENTS), WITH_INLINES, []), (Program(HTML), "", ["html"])]
    counted += [(program, "", given) for program, given in beside.values()]
    for name, (first, part) in INLINES.items():
        half, whole = filled(part, size // 2), filled(part, size // 2) * 2
        costs = [
            program.instructions(before + first + whole, given) - program.instructions(before + first + half, given)
            for program, before, given in counted
        ]
        row(name, *(f"{cost / (len(whole) - len(half)):.1f}" for cost in costs))


def print_growth(program: Program, size: int) -> None:
    """How the instructions grow with the text, less those of an empty one.

    Lists that double make steps, so texts of one part grow by two doublings, and the mean of these counts.
    """
    head("Text", "Bytes", "Instructions a byte", "Twice the text")
    texts = {name: (filled(part, size // 4), filled(part, size // 4) * 4, 2) for name, part in PARTS.items()}
    texts |= {name: (make(1), make(2), 1) for name, make in (GROWING | TABLES | EXTENSIONS | REFERENCES).items()}
    for name, (once, more, doublings) in texts.items():
        reads = Program(LAYER) if name in REFERENCES else program
        first, last = (reads.by_byte(text, arguments(name)) for text in (once, more))
        growth = 2 * (last / first) ** (1 / doublings)
        mark = "" if growth <= WANTED else " (!)"
        row(name, f"{len(once):,}", f"{first:,.1f}", f"{growth:.2f} times{mark}")


def print_times(program: Program, runs: int) -> None:
    """Seconds from the start of the process to its end, and the most memory that it held."""
    head("Text", "Time", "Speed", "Memory at most")
    for name, part, counts in TIMED:
        for count in counts:
            size = count * (MEGABYTE if name.startswith("MB") else len(part))
            ran = [program.run(part, size, arguments(name)) for _ in range(runs)]
            seconds, held = min(one.seconds for one in ran), max(one.memory for one in ran)
            speed = size / MEGABYTE / seconds
            row(f"{count:,} {name}", f"{seconds:.3f} s", f"{speed:.1f} MB/s", f"{held / 2**20:.0f} MiB")


def cmark_outline(folder: Path) -> Program:
    """The program of `CMARK_OUTLINE`."""
    source, built = folder / "cmark_outline.c", folder / "cmark_outline"
    source.write_text(CMARK_OUTLINE)
    options = ["-O2", "-Wl,-z,muldefs", "-Wl,-Bstatic", "-lcmark", "-Wl,-Bdynamic"]
    done = subprocess.run(["cc", source, "-o", built, *options], capture_output=True, text=True)
    if done.returncode != 0:
        raise SystemExit(f"no program over libcmark: {done.stderr[-300:]}")
    return Program(built)


def print_beside(program: Program, text: str, runs: int) -> None:
    """What 10 MB of text take, the least of some runs, each program in turn."""
    head("Program", "Processor time", "Memory at most")
    with tempfile.TemporaryDirectory() as folder:
        programs = {
            "blocks": (program, []),
            "blocks gfm": (program, ["gfm"]),
            "cmark, blocks alone": (cmark_outline(Path(folder)), []),
        }
        ran: dict[str, list[Ran]] = {name: [] for name in programs}
        for _ in range(runs):
            for name, (one, given) in programs.items():
                ran[name].append(one.run(text, 10 * MEGABYTE, given))
    for name, taken in ran.items():
        processor, held = min(one.processor for one in taken), max(one.memory for one in taken)
        row(name, f"{processor:.3f} s", f"{held / 2**20:.0f} MiB")


def main() -> None:
    parser = argparse.ArgumentParser(description=__doc__, formatter_class=argparse.RawDescriptionHelpFormatter)
    named = "cost, growth, times, beside, inlines; the first three if none is named"
    parser.add_argument("tables", nargs="*", metavar="TABLE", help=named)
    parser.add_argument("--program", type=Path, default=ROOT / "crates/blocks/out/blocks", help="what is measured")
    parser.add_argument("--size", type=int, default=240_000, help="bytes of a text that is counted (240000)")
    parser.add_argument("--other", action="append", default=[], metavar="COMMAND", help="counted beside it by `cost`")
    parser.add_argument("--runs", type=int, default=4, help="runs of which the best time counts (4)")
    parser.add_argument("--text", type=Path, metavar="FILE", help="the text that `beside` repeats")
    asked = parser.parse_args()
    tables = asked.tables or ["cost", "growth", "times"]
    if unknown := set(tables) - {"cost", "growth", "times", "beside", "inlines"}:
        parser.error(f"no table: {', '.join(sorted(unknown))}")
    if not shutil.which("valgrind") and set(tables) & {"cost", "growth", "inlines"}:
        print("valgrind is not there, so no instructions are counted: times alone", file=sys.stderr)
        tables = [table for table in tables if table not in ("cost", "growth", "inlines")] or ["times"]
    program = Program(asked.program)
    for table in tables:
        if table == "cost":
            print_cost(program, asked.size, others(OTHERS + asked.other))
        elif table == "growth":
            print_growth(program, asked.size)
        elif table == "inlines":
            print_inlines(asked.size, others(OTHER_HTML))
        elif table == "beside":
            print_beside(program, asked.text.read_text() if asked.text else MIXED, asked.runs)
        else:
            print_times(program, asked.runs)
        print()


if __name__ == "__main__":
    main()
