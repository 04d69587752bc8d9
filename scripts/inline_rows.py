#!/usr/bin/env python3
"""inline_rows.py: tries wrong inline definitions in the place of the definition. Each must be refused by a row of those
that the check computes, which are computed here without proof."""
import glob
import html.entities
import os
import re
import sys

sys.dont_write_bytecode = True
import antt
import wrong_definitions

SCRIPTS = os.path.dirname(os.path.abspath(__file__))
CRATES = os.path.join(os.path.dirname(SCRIPTS), "crates")
# where the definition is, and its rows
DEFINITION = ("md_inlines", "md_inline_events")
ROWS = sorted(glob.glob(os.path.join(CRATES, "md_inlines", "proofs", "**", "*Rows.antt"), recursive=True))
CONSTRUCTS = "InlineConstructs"


def constructs():
    """The constants of the constructs, from their Rust: a value a field, or those of another and some fields."""
    file, = (path for path in glob.glob(os.path.join(CRATES, "*", "src", "**", "*.rt"), recursive=True)
             if f"pub struct {CONSTRUCTS} " in open(path, encoding="utf8").read())
    found = {}
    for name, body in re.findall(rf"pub const (\w+): {CONSTRUCTS} = {CONSTRUCTS} {{(.*?)\n    }};",
                                 open(file, encoding="utf8").read(), re.S):
        other = re.search(rf"\.\.{CONSTRUCTS}::(\w+)", body)
        own = {field: value == "true" for field, value in re.findall(r"(\w+): (true|false),", body)}
        found[name] = {**(found[other[1]] if other else {}), **own}
    return found


NAMES = {name[:-1] for name in html.entities.html5 if name.endswith(";")}
GIVEN = {"is_name": antt.sized(1, lambda name: bytes(name).decode("latin1") in NAMES), **constructs()}


def rows():
    """By the name of its file and its own: the module of each row, and its name there."""
    for file in ROWS:
        path = os.path.relpath(file, CRATES)[:-len(".antt")].replace(os.sep, ".")
        for name in re.findall(r"^(row\w*) :", open(file, encoding="utf8").read(), re.M):
            yield f"{os.path.basename(file)[:-len('Rows.antt')]} {name[len('row_'):]}", (f"Rattle.{path}", name)


def holds(library, path, name):
    left, right = library.sides(path, name)
    return left == right


def path_of(name):
    file, = (path for crate in DEFINITION
             for path in glob.glob(os.path.join(CRATES, crate, "specs", "**", name + ".antt"), recursive=True))
    return "Rattle." + os.path.relpath(file, CRATES)[:-len(".antt")].replace(os.sep, ".")


def wrong():
    """The wrong definitions, each with its row, its file, and what is there and what is put in its place."""
    text = re.sub(r"^#.*\n", "", open(os.path.join(SCRIPTS, "wrong_inlines.txt"), encoding="utf8").read(), flags=re.M)
    for lines in re.split(r"\n\n+", text.strip()):
        found = re.fullmatch(r"(.+)\nrow: (.+)\nfile: (.+)\nold: (.+)\nnew: ?(.*)", lines)
        if not found:
            sys.exit(f"inline_rows: no wrong definition: {lines}")
        yield found.groups()


wrong_definitions.run(
    "inline_rows", wrong_definitions.Rows(antt.Library(CRATES, GIVEN), path_of, dict(rows()), holds), list(wrong()),
    "texts of the inline definition", "wrong inline definitions")
