#!/usr/bin/env python3
"""plain_inlines.py: runs the built program `plain_inlines` on the text of each row of the inline definition (`rt ci` or
`rt run` builds it: `out`; where PROGRAMS is set, it is in that folder). What it prints must be the forest that the row
gives, in the printed form; it is printed here by this script, from the row. A text that is no UTF-8 it must refuse. No
text has an empty line, which would end the text of the program. Rows of what is read of a part give no forest, and are
left out."""
import concurrent.futures
import glob
import os
import re
import subprocess
import sys

sys.dont_write_bytecode = True
import antt
import counts

TOP = os.path.dirname(os.path.dirname(os.path.abspath(__file__)))
CRATES = os.path.join(TOP, "crates")
FOLDER = os.environ.get("PROGRAMS", os.path.join(CRATES, "plain_inlines", "out"))
PROGRAM = os.path.join(FOLDER, "plain_inlines")
# What a row reads its text with: the sets that have its constructs, and what the lines after the text say.
GIVEN = {
    "markdown": (["commonmark"], []),
    "with_labels": (["commonmark"], ["=bar", "=ref", "=foo*"]),
    "extended": (["all", "alerts"], ["=bar", "^a"]),
    "further": (["all", "alerts"], ["=bar", "^a"]),
    "first_of_item": (["all", "alerts"], ["=bar", "^a", "-"]),
    "without_single": (["all", "alerts"], ["=bar", "^a", "~", "$"]),
    "with_footnotes": (["all", "alerts"], ["^b", "^a b"]),
}
# What is read of a part, which is no forest.
OF_PARTS = {"text_of", "string_of"}


def rows():
    """Each row that gives a forest: its name, what it reads its text with, its text and its forest."""
    library = antt.Library(CRATES)
    for file in sorted(glob.glob(os.path.join(CRATES, "md_inlines", "proofs", "*Rows.antt"))):
        path = "Rattle." + os.path.relpath(file, CRATES)[:-len(".antt")].replace(os.sep, ".")
        module = library.module(path)
        for name in re.findall(r"^(row\w*) :", open(file, encoding="utf8").read(), re.M):
            left, right = module.statements[name].split(" :", 1)[1].split(" ≡", 1)
            reading = antt.Parser(left).expression()
            if reading[1][1] not in OF_PARTS:
                text, = (bytes(antt.value_of(given, {}, module)) for given in reading[2])
                forest = antt.value_of(antt.Parser(right).expression(), {}, module)
                short = f"{os.path.basename(file)[:-len('Rows.antt')]} {name[len('row_'):]}"
                yield short, reading[1][1], text, forest


def printed(forest, text, depth=0):
    """The printed form of a forest at the front of a text, and what is left of the text."""
    lines = b""
    while forest[0] != "nothing":
        indent = b"  " * depth
        lines += indent + forest[1][0].encode()
        if forest[0] == "piece":
            over, text = text[:forest[2] + 1], text[forest[2] + 1:]
            lines += b" | " + over.replace(b"\n", b"\n" + indent + b"| ") + b"\n"
        else:
            inside, text = printed(forest[2], text, depth + 1)
            lines += b"\n" + inside
        forest = forest[3]
    return lines, text


def is_utf8(text):
    try:
        return text.decode() is not None
    except UnicodeDecodeError:
        return False


def fault(row):
    """What is wrong with what is printed of a row, under each set that has its constructs."""
    name, reading, text, forest = row
    wanted, left = printed(forest, text)
    if left or b"\n\n" in text + b"\n":
        return f"{name}: no text of the program, or its forest is not over all of it"
    ended = (0, wanted, b"") if is_utf8(text) else (2, b"", b"plain_inlines: not UTF-8\n")
    sets, lines = GIVEN[reading]
    # the set `gfm` has all but math
    sets = sets + ["gfm"] * (len(sets) > 1 and b"$" not in text)
    given = b"\n".join([text, b"", *(line.encode() for line in lines), b""])
    for inputs in [given] + [text, text + b"\n"] * (not lines):
        for name_of_set in sets:
            ran = subprocess.run([PROGRAM, name_of_set], input=inputs, capture_output=True, timeout=60)
            if (ran.returncode, ran.stdout, ran.stderr) != ended:
                return f"{name}, {name_of_set}: {ran.stdout!r} {ran.stderr!r} in place of {wanted!r}"
    return None


def main():
    tried = list(rows())
    with concurrent.futures.ThreadPoolExecutor(os.cpu_count()) as pool:
        found = [line for line in pool.map(fault, tried) if line]
    for line in found:
        print(f"plain_inlines: {line}")
    failed = len(found) + counts.wrong_count("texts of plain_inlines", len(tried))
    print(f"plain_inlines: {len(tried)} texts of the inline definition, {failed} failed")
    sys.exit(failed > 0)


if __name__ == "__main__":
    main()
