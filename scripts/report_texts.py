"""The texts that `hoxalgurre` is tried on: those of the rows of crates/test_rows, of examples/texts, of the cases of
examples/cases, and some that are made here. Also what `blocks`, `events` and `hoxalgurre events --inlines` print of them."""
import copy
import glob
import os
import re
import subprocess
import tempfile
from collections import namedtuple
from concurrent.futures import ThreadPoolExecutor

from report_model import Model

SETS = ("commonmark", "gfm", "all", "alerts")
NAMED = {"n": "\n", "r": "\r", "t": "\t", "0": "\0"}
ESCAPE = re.compile(r"\\(?:u\{([0-9a-f]+)\}|(.))", re.S)
# How many rows and cases there are at least.
LEAST_ROWS, LEAST_PAGES, LEAST_LABELS, LEAST_LINKS, LEAST_TABLES, LEAST_TREES = 1026, 205, 138, 25, 12, 30

Row = namedtuple("Row", "constructs text output")
Sample = namedtuple("Sample", "line constructs text wanted")

# Control characters, quotes, backslashes, characters of one to four bytes, endings, tabs, marks, and deep nesting.
MADE = [
    "", "\n", "\r", "\r\n", " ", "\t", "a", "a\n", "a\r\nb\r\nc", "a\rb\rc\n\rd\r\r\n", "\ufeff", "\ufeffa", "\ufeff# a\n",
    "\ufeff\n---\n", "a\0b\n\0\n# \0\n```\0 \0\n\0\n```\n|\0|\n|-|\n|\0|\n", "# a\x01\x02\x03\x07\x08\x0b\x0c\x0e\x1f\x7f\n",
    "".join(chr(code) for code in range(1, 32)), '# "a" \\ \\" / \' <b> & &amp; `c`\n', "> \"\\\n```\"\\ \"\n\\\"\n",
    "# \u2028\u2029\x85\xa0\u3000\n\n\u3000a\u3000\n=\n\n\xa0b\n-\n", "# \xe9 \u20ac \U0001f600 \U0010ffff\n",
    "\U0001f600\n\n[\U0001f600]: \U0001f600 '\U0001f600'\n[^\u1e9e]: \xdf\n", "|\u20ac|\U0001f600|\n|-|:-:|\n|\xe9|\n",
    "> " * 100 + "a\n", "- " * 100 + "a\n", "".join(" " * at + "- a\n" for at in range(0, 60, 2)), "# a\n" * 200,
    "".join("#" * depth + f" {depth}\n" for depth in (3, 1, 2, 6, 5, 4, 6, 1, 1, 2, 3, 2, 6, 6, 1)), "a\n" * 300 + "=\n",
    ">\t\ta\n>\n>\t b\n", "-\t\ta\n\n\t\tb\n", "> ```\n>\ta\n>\t\tb\n", "[a]: b\n[A]: c\n[ a ]: d\n[^a]: b\n[^A]: c\n[^a]: d\n",
    "1234567890. a\n\n123456789. b\n", "0. a\n", "007) a\n", "1. a\n1) b\n- c\n+ d\n* e\n", "a\n===\nb\n---\n    c\n  d\n-\n",
    "|a|b|\n|-|-|\n" * 3, "a|b\n:-|-:\n1\n1|2|3\n\\||`|`\n", "# a #\n## b ## \n### c \\#\n#\n## ##\n", "$$a\nb\n$$\n$$\n\nc",
    "+++\na = 1\n+++\nb\n", "---\na\n\n---\n# b\n", "---\na\n", "~~~a b c\nd\n~~~\n~~~\n\n", "```\n```\n```\n\n\n", "<!-- a\n\n",
    "<div>\n<b>\"&\n\n  <?a\nb?>\nc\n", "> [!NOTE]\n> a\n\n> [!tip]\n\n> [!Important]\n>\n> b\n> - [!warning]\n",
    "> [!CAUTION]\nb\n\n> > [!warning]\n> > a\n", "- [ ] a\n- [x] b\n", "x" * 5000 + "\n",
    "".join(f"A line of many words, {mark} and more of them\n\nA line of as many words that ends with {mark}.\n\n"
            for mark in ('"', "\0", "<", ">", "&")),
    "".join(f"[a](<https://example.org/{mark}/and/more>) ![b](<{mark}>) [c](<abcdefghijklmnop{mark}>)\n\n"
            for mark in (*"\0\1\x7f \"&'*[]^_`{|}~\xe9", "\\a")),
    "A line\nof text\n*and one* of\nit ![an image\nof lines\nand](b \"c\nd\") in\r\nthe [f\ng](h) `i\nj`\nk\n",
    "Lines\nof ![an image\nof lines](b) and `c\nd`[^e]\n\n> [f\n> g]\n\n[f g]: h\n[^e]: i\n",
]


def literal(written):
    """The text that is written with the escapes of Rust's strings."""
    return ESCAPE.sub(lambda found: chr(int(found[1], 16)) if found[1] else NAMED.get(found[2], found[2]), written)


def rows():
    """The rows of crates/test_rows that have an outline: the comment of its lib.rt says how one is written."""
    found = []
    for path in sorted(set(glob.glob("crates/test_rows/src/*.rt")) - {"crates/test_rows/src/events.rt"}):
        for part in re.findall(r'r(#+)"(.*?)"\1', open(path, encoding="utf-8", newline="").read(), re.S):
            for written in part[1].strip("\n").split("\n\n"):
                head, _, rest = written.partition("\n")
                if " | " in head:
                    text, _, outline = rest.partition("\n")
                    found.append(Row(head.split(" | ")[1], literal(text[1:-1]), output(outline)))
    if len(found) < LEAST_ROWS:
        raise SystemExit(f"reports: {len(found)} rows, and not {LEAST_ROWS} at least")
    return found


def output(outline):
    """The output that has the outline of a row."""
    lines, _, labels = (literal(outline) + "\n").lstrip("\n").partition("definitions ")
    return lines + "\ndefinitions " + (labels or "0\nfootnotes 0\n")


def samples(path, least):
    """The cases of a file: the text of each, and what it has to give. A `→` is a tab."""
    found, part = [], None
    for number, line in enumerate(open(path, encoding="utf-8"), 1):
        head = re.fullmatch(r"%%%% (commonmark|gfm|all|alerts)\n", line)
        if head:
            part = []
            found.append((number, head[1], part, []))
        elif line == "%%%%\n":
            part = found[-1][3]
        elif part is not None and not line.startswith("%%%% #"):
            part.append(line.replace("→", "\t"))
    if len(found) < least:
        raise SystemExit(f"reports: {len(found)} cases in {path}, and not {least} at least")
    return [Sample(number, constructs, "".join(text), "".join(wanted[:-1] if wanted[-1:] == ["\n"] else wanted))
            for number, constructs, text, wanted in found]


def pages():
    """Texts with the page that each has to give."""
    return samples("examples/cases/html.txt", LEAST_PAGES)


def label_cases():
    """Texts with what `labels` has to find."""
    return [case._replace(wanted=case.wanted.split("\n")[:-1]) for case in samples("examples/cases/labels.txt", LEAST_LABELS)]


def link_cases():
    """Texts with what `links` has to print."""
    return [case._replace(wanted=case.wanted.split("\n")[:-1]) for case in samples("examples/cases/links.txt", LEAST_LINKS)]


def table_cases():
    """Texts with their tables of contents."""
    return samples("examples/cases/toc.txt", LEAST_TABLES)


def tree_cases():
    """Texts with their trees, as the file writes them."""
    return samples("examples/cases/tree.txt", LEAST_TREES)


def texts():
    """All texts, as bytes, in groups without repeats: first the short ones, then rows, then files."""
    files = [open(path, "rb").read() for path in sorted(glob.glob("examples/texts/*.md"))]
    short = [text.encode() for text in MADE + [sample.text for sample in
                                                 pages() + label_cases() + link_cases() + table_cases() + tree_cases()]]
    groups, seen = [], set()
    for group in (short, [row.text.encode() for row in rows()], files):
        groups.append([text for text in dict.fromkeys(group) if text not in seen])
        seen.update(group)
    return groups


def least_set(text, constructs):
    """A set with the same constructs as far as the text can have them, so that fewer runs are needed."""
    if constructs == "alerts" and b"[!" not in text:
        constructs = "all"
    if constructs == "all" and not re.match(rb"(\xef\xbb\xbf)?(---|\+\+\+)", text) and b"$$" not in text:
        constructs = "gfm"
    if constructs == "gfm" and not re.search(rb"[|:]|\[\^", text):
        constructs = "commonmark"
    return constructs


def chosen(constructs):
    """The arguments of `hoxalgurre` for a set as `blocks` has it."""
    return ["-c", constructs, *["--no-frontmatter"] * (constructs in ("commonmark", "gfm"))]


def printed(name, constructs, text):
    ran = subprocess.run([program(name), constructs], input=text, capture_output=True, timeout=60)
    if ran.returncode:
        raise SystemExit(f"reports: {name} {constructs} ends with status {ran.returncode} on {text[:80]!r}")
    return ran.stdout


def program(name):
    """Where a program is: in the folder PROGRAMS, or where `rt ci` has built it."""
    return os.path.abspath(os.path.join(os.environ.get("PROGRAMS", f"crates/{name}/out"), name))


def models(wanted):
    """The models of texts under sets, by both, with the events of inline content too."""
    needed = sorted({(text, least_set(text, constructs)) for text, constructs in wanted})
    made = {}

    def make(pair):
        text, constructs = pair
        made[pair] = Model(text, printed("blocks", constructs, text), printed("events", constructs, text))

    with ThreadPoolExecutor(4) as pool:
        list(pool.map(make, needed))
    found = {}
    for constructs in SETS:
        under = list(dict.fromkeys(text for text, of in wanted if of == constructs))
        for text, inlines in zip(under, inline_events(constructs, under)):
            found[text, constructs] = copy.copy(made[text, least_set(text, constructs)])
            found[text, constructs].inlines = inlines
    return found


def inline_events(constructs, under):
    """The events of texts with those of inline content, by one run for many."""
    for at in range(0, len(under), 200):
        with tempfile.TemporaryDirectory() as folder:
            for name, text in enumerate([*under[at:at + 200], b""]):
                with open(os.path.join(folder, str(name)), "wb") as file:
                    file.write(text)
            words = [program("hoxalgurre"), "events", "--inlines", *chosen(constructs), *map(str, range(name + 1))]
            ran = subprocess.run(words, capture_output=True, cwd=folder, timeout=120, check=True)
            yield from re.split(rb"^==> \d+ <==\n", ran.stdout, flags=re.M)[1:-1]
