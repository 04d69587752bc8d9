#!/usr/bin/env python3
"""Tries whether hostile texts of inline content take at most 2.05 times the instructions where they are twice as long.

The texts are what a reader of inline content may read again and again: what opens and is not closed, what closes
nothing, searches that fail, and labels that are looked up. The built program `test_cost` (`rt ci` builds it: `out`;
where PROGRAMS is set, it is in that folder) reads them by the layer `Inlines` with the constructs of GitHub. Valgrind
counts its instructions: those on a text of SIZE characters and on one of eight times as many, each less those on no
text. A list that grows is copied at some sizes and not at others, so the times are the mean of three doublings.
With `--measure` it prints the instructions by character, too. `--program FILE` tries another build of the program.
"""

import argparse
import os
import re
import subprocess
import sys
import tempfile
from collections.abc import Callable
from concurrent.futures import ThreadPoolExecutor
from pathlib import Path

sys.dont_write_bytecode = True
import counts

ROOT = Path(__file__).resolve().parent.parent
PROGRAM = Path(os.environ.get("PROGRAMS", ROOT / "crates/test_cost/out")) / "test_cost"
SIZE = 4_000
# Twice a text takes at most so many times the instructions.
WANTED = 2.05

# How a text begins that `test_cost` reads by this layer: two blank lines, the second with a tab.
FIRST = "\n\t\n"
DEFINED = "[b]: /c\n\n[^f]: d\n\n"


def repeated(part: str, size: int) -> str:
    """So many characters of one part, again and again."""
    return (part * (size // len(part) + 1))[:size]


def parts(part: str) -> Callable[[int], str]:
    """Parts that are alike."""
    return lambda size: repeated(part, size)


def around(before: str, inner: str, after: str) -> Callable[[int], str]:
    """Constructs in one another."""
    return lambda size: repeated(before, size // 2) + inner + repeated(after, size // 2)


def one(first: str, part: str, last: str = "") -> Callable[[int], str]:
    """One construct of such parts."""
    return lambda size: first + repeated(part, size) + last


def lengthening(mark: str) -> Callable[[int], str]:
    """Runs of a mark, each longer by one than the one before."""

    def make(size: int) -> str:
        runs = [mark * length + " " for length in range(1, int((2 * size) ** 0.5) + 1)]
        return "".join(runs)[:size]

    return make


def defined(make: Callable[[int], str]) -> Callable[[int], str]:
    """The same after a definition of `b` and of the footnote `f`."""
    return lambda size: DEFINED + make(size)


ATTENTION: dict[str, Callable[[int], str]] = {
    "`*a `, which opens": parts("*a "),
    "`a* `, which closes nothing": parts("a* "),
    "`*a _b `, which open in turn": parts("*a _b "),
    "`*a **b `, runs of two lengths": parts("*a **b "),
    "`a**b c* `, whose lengths do not fit": parts("a**b c* "),
    "`*a_ `, marks that close no other": parts("*a_ "),
    "`***a b* c** `, closed in parts": parts("***a b* c** "),
    "emphasis in emphasis": around("*a ", "b", " a*"),
    "a run of `*`": parts("*"),
    "`_a`, in words": parts("_a"),
    "`~a ~~b `": parts("~a ~~b "),
    "runs of `*`, each longer": lengthening("*"),
    "`\u00e9*`, beside characters beyond ASCII": parts("\u00e9*"),
}

BRACKETS: dict[str, Callable[[int], str]] = {
    "`[`": parts("["),
    "`[a `": parts("[a "),
    "`![`": parts("!["),
    "`]`": parts("]"),
    "`[]`": parts("[]"),
    "`[a]`, which nothing defines": parts("[a]"),
    "`[b] `, which a definition has": defined(parts("[b] ")),
    "`[a][`": parts("[a]["),
    "brackets in brackets": around("[", "a", "]"),
    "references around references": defined(around("[", "a", "][b]")),
    "links around links": around("[a", "b", "](c)"),
    "images in images": around("![a", "b", "](c)"),
    "`[a](`": parts("[a]("),
    "`[a](b`": parts("[a](b"),
    "`[a](<b`": parts("[a](<b"),
    "`[a](b \"c`": parts("[a](b \"c"),
    "a destination of `(`": one("[a](", "("),
    "a destination of `\\(`": one("[a](", "\\(", ")"),
    "`[^f]`, a footnote call": defined(parts("[^f]")),
    "`![^f]`": defined(parts("![^f]")),
    "`*[a*](c) `": parts("*[a*](c) "),
    "a label of `\\]`": one("[", "\\]", "]"),
}

ATOMS: dict[str, Callable[[int], str]] = {
    "runs of backticks, each longer": lengthening("`"),
    "a run of backticks": parts("`"),
    "`` `a`` ``": parts("`a`` "),
    "`<`": parts("<"),
    "`<a `": parts("<a "),
    "`<a b=\"`": parts("<a b=\""),
    "`<!--`": parts("<!--"),
    "`<!A `": parts("a <!A "),
    "`<?`": parts("a <?"),
    "`<![CDATA[`": parts("a <![CDATA["),
    "`<a:`": parts("<a:"),
    "`<a@b.`": parts("<a@b."),
    "`\\*`": parts("\\*"),
    "`&#x`": parts("&#x"),
    "`&amp;`": parts("&amp;"),
}

ADDRESSES: dict[str, Callable[[int], str]] = {
    "`http://`": parts("(http://"),
    "`www.a.b` and `)`": one("www.a.b", ")"),
    "`www.a.b` and parentheses": one("www.a.b/", "()", ")"),
    "`www.a.b` and `&a;`": one("www.a.b/", "&a;"),
    "`a@b.c_`": parts("a@b.c_"),
    "`a@b_`": parts("a@b_"),
    "`a.`": parts("a."),
    "`mailto:`": parts("mailto:"),
    "`xmpp:a@b.c/`": parts("xmpp:a@b.c/"),
    "`_www.`": parts("_www."),
    "`_www.a.b`": parts("_www.a.b"),
    "`_www..a`": parts("_www..a"),
    "`_www.` and two dots": one("", "_www.", ".a"),
    "`_www.` in a bracket": one("[", "_www.a", ".b"),
}

LINES: dict[str, Callable[[int], str]] = {
    "spaces in a line": one("a", " ", "b"),
    "lines with hard breaks": parts("a  \n"),
    "lines with `\\` before their ends": parts("a\\\n"),
    "words": parts("some words "),
}

# What every text is, by its name.
HOSTILE: dict[str, Callable[[int], str]] = {**ATTENTION, **BRACKETS, **ATOMS, **ADDRESSES, **LINES}


def instructions(program: Path, text: str) -> int:
    """What the program takes for a text."""
    with tempfile.NamedTemporaryFile() as out:
        ran = subprocess.run(
            ["valgrind", "--tool=callgrind", f"--callgrind-out-file={out.name}", program],
            input=(FIRST + text).encode(), stdout=subprocess.DEVNULL, stderr=subprocess.PIPE,
        )
    found = re.search(rb"Collected : (\d+)", ran.stderr)
    if ran.returncode != 0 or not found:
        sys.exit(f"{program}: status {ran.returncode}: {ran.stderr[-300:].decode(errors='replace')}")
    return int(found[1])


def main() -> None:
    parser = argparse.ArgumentParser(description=__doc__, formatter_class=argparse.RawDescriptionHelpFormatter)
    parser.add_argument("--program", type=Path, default=PROGRAM, help="another build of test_cost")
    parser.add_argument("--measure", action="store_true", help="print what each text takes")
    asked = parser.parse_args()
    empty = instructions(asked.program, "")

    def tried(name: str) -> bool:
        once, more = (instructions(asked.program, HOSTILE[name](times * SIZE)) - empty for times in (1, 8))
        growth = (more / once) ** (1 / 3)
        if asked.measure:
            print(f"| {name} | {more / SIZE / 8:.0f} | {growth:.2f} times |", flush=True)
        if growth > WANTED:
            print(f"{name}: twice the text takes {growth:.2f} times the instructions", flush=True)
        return growth <= WANTED

    with ThreadPoolExecutor(2) as pool:
        failed = [*pool.map(tried, HOSTILE)].count(False)
    failed += counts.wrong_count("hostile texts", len(HOSTILE))
    print(f"hostile texts: {len(HOSTILE) - failed} passed, {failed} failed")
    sys.exit(failed > 0)


if __name__ == "__main__":
    main()
