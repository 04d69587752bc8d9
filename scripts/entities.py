#!/usr/bin/env python3
"""Writes the table of `md_entities`; with `--check` compares it.

The names are those of the HTML Living Standard, section 13.5 "Named character references"
(https://html.spec.whatwg.org/entities.json, which CommonMark 2.5 cites), as Python has them in `html.entities`. Of
these 2,231 names the 2,125 that end with `;` count in Markdown.
"""

import html.entities
import pathlib
import sys

TABLE = pathlib.Path(__file__).resolve().parent.parent / "crates/md_entities/src/table.rt"
WIDTH = 112


def rows():
    """Each name without its `;`, and its one or two characters, in the order of the bytes of the names."""
    return sorted((name[:-1], text) for name, text in html.entities.html5.items() if name.endswith(";"))


def wrapped(parts):
    """Lines of parts, each as long as it may be."""
    lines = [""]
    for part in parts:
        if lines[-1] and len(lines[-1]) + len(part) + 1 > WIDTH:
            lines.append("")
        lines[-1] += (" " if lines[-1] else "") + part
    return "".join(f"    {line}\n" for line in lines)


def written(character):
    """A character as Rust writes it."""
    return "'\\u{%x}'" % ord(character)


def numbers(comment, name, kind, values):
    """A static of these values, as Rust writes them."""
    body = wrapped(f"{value}," for value in values)
    return f"\n/// {comment}\n#[rattlefmt::skip]\npub(crate) static {name}: [{kind}; {len(values)}] = [\n{body}];\n"


def table():
    names = [name for name, _ in rows()]
    text = ";".join(names)
    starts = [0]
    for name in names[:-1]:
        starts.append(starts[-1] + len(name) + 1)
    lines = [text[at : at + WIDTH] for at in range(0, len(text), WIDTH)]
    return (
        "// The table of the named character references of HTML. Written by `scripts/entities.py`, which says from what.\n"
        "\n/// The names, in the order of their bytes, with a `;` between them.\n"
        f"#[rattlefmt::skip]\npub(crate) static NAMES: [u8; {len(text)}] = *b\"\\\n"
        + "\\\n".join(f"    {line}" for line in lines)
        + "\";\n"
        + numbers("Where each name starts in `NAMES`.", "STARTS", "u16", starts)
        + numbers("The first character of each.", "FIRST", "char", [written(text[0]) for _, text in rows()])
        + numbers(
            "The second character of each, or U+0000 if it has one alone.",
            "SECOND",
            "char",
            [written(text[1:] or "\0") for _, text in rows()],
        )
    )


def main():
    if "--check" in sys.argv[1:]:
        if TABLE.read_text() != table():
            sys.exit("the table of md_entities is not that of Python's html.entities")
    else:
        TABLE.write_text(table())


main()
