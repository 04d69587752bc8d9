#!/usr/bin/env bash
# Runs `hoxalgurre` on the files of `examples/texts`, and compares what it prints with the files `NAME.expected`: the
# headings and what is wrong with labels, as text and as JSON that python3 reads, and the tags of the HTML. The places in
# all JSON are those of the file: their bytes, their lines and their columns agree, and blocks lie within one another.
#
# It takes the program that `rt ci` has built, or that of the folder PROGRAMS, where that is set.
set -euo pipefail
cd "$(dirname "$0")/.."
exec python3 - "$@" <<'PYTHON'
import glob, html.parser, json, os, re, subprocess, sys

PROGRAM = os.path.join(os.environ.get("PROGRAMS", "crates/hoxalgurre/out"), "hoxalgurre")
FOLDER = "examples/texts"
passed = failed = 0


def compare(place, printed, wanted):
    global passed, failed
    if printed == wanted:
        passed += 1
    else:
        print(f"{place}: prints\n{printed}\nand not\n{wanted}")
        failed += 1


def run(*words, text=None, status=0):
    ran = subprocess.run([PROGRAM, *words], input=text, capture_output=True, timeout=60)
    compare(" ".join(words) + ": status", (ran.returncode, ran.stderr.decode() if status < 2 else ""), (status, ""))
    return ran.stdout.decode() if status < 2 else ran.stderr.decode()


def expected(name):
    """What is wanted of a file: its constructs, headings, findings, and tags."""
    read = {"headings": [], "labels": [], "html": "", "constructs": ""}
    for line in open(f"{FOLDER}/{name}.expected", encoding="utf-8"):
        key, colon, rest = line.rstrip("\n").partition(":")
        if line.startswith("  "):
            read[section].append(line.rstrip("\n")[2:])
        elif colon and key in read:
            section = key
            if key in ("html", "constructs"):
                read[key] = rest.strip()
    return read


# The tags within a text, which are not compared.
PHRASES = ("a", "br", "code", "del", "em", "img", "input", "strong", "sup")


class Tags(html.parser.HTMLParser):
    """The tags of blocks of a page, each with those in it: `ul(li(p) li)`, and a table as `table:COLUMNSxROWS`."""

    def __init__(self):
        super().__init__()
        self.open = [["", []]]

    def handle_starttag(self, tag, attributes):
        if tag in PHRASES:
            return
        self.open.append([tag, []])
        if tag == "hr":
            self.handle_endtag(tag)

    def handle_endtag(self, tag):
        if tag in PHRASES:
            return
        if self.open[-1][0] != tag:
            sys.exit(f"a tag </{tag}> that closes <{self.open[-1][0]}>")
        name, inner = self.open.pop()
        if name == "table":
            rows = [len(row[1]) for part in inner for row in part[1]]
            name, inner = f"table:{rows[0]}x{len(rows) - 1}", []
        self.open[-1][1].append([name, inner])

    handle_startendtag = handle_starttag

    def shown(self):
        def of(tags):
            return " ".join(name + (f"({of(inner)})" if inner else "") for name, inner in tags)
        return of(self.open[0][1])


def tags(page):
    parser = Tags()
    parser.feed(page)
    if len(parser.open) != 1:
        sys.exit("a tag is not closed")
    return parser.shown()


def point(raw, offset):
    """The line and the column of a byte."""
    before = raw[:offset]
    lines = re.split(rb"\r\n|\n|\r", before)
    column = 0
    for byte in lines[-1]:
        column = (column // 4 + 1) * 4 if byte == 9 else column + 1
    return len(lines), column + 1


def is_place(raw, place):
    # A place within a cut tab has the byte of the tab, and a larger column.
    line, column = point(raw, place["offset"])
    in_tab = raw[place["offset"]:place["offset"] + 1] == b"\t" and column < place["column"] <= column + 3
    before = re.split(rb"\r\n|\n|\r", raw[:place["offset"]])[-1]
    columns = len(before) + 1, len(before.decode().encode("utf-16-le")) // 2 + 1
    return (0 <= place["offset"] <= len(raw) and line == place["line"] and (column == place["column"] or in_tab)
            and columns == (place["byte_column"], place["utf16_column"]))


def places(value):
    """All places in a JSON value."""
    if isinstance(value, dict):
        if set(value) == {"line", "column", "offset", "byte_column", "utf16_column"}:
            yield value
        for inner in value.values():
            yield from places(inner)
    elif isinstance(value, list):
        for inner in value:
            yield from places(inner)


def read_json(task, path, constructs, status=0, words=()):
    printed = json.loads(run(task, *words, "-f", "json", "-c", constructs, path, status=status))
    compare(f"{path}: {task}: version", [one["version"] for one in printed], [1])
    compare(f"{path}: {task}: file", [one["file"] for one in printed], [path])
    return printed[0]


def check(name):
    path, wanted = f"{FOLDER}/{name}.md", expected(name)
    raw, constructs = open(path, "rb").read(), wanted["constructs"]
    # Headings.
    headings = read_json("headings", path, constructs)["headings"]
    compare(f"{path}: headings", [f"{h['depth']} {h['position']['start']['line']} {h['text']}" for h in headings],
            wanted["headings"])
    ends = [next((o["position"]["start"]["offset"] for o in headings[at + 1:] if o["depth"] <= h["depth"]), len(raw))
            for at, h in enumerate(headings)]
    compare(f"{path}: sections", [h["section_end"] for h in headings], ends)
    lines = []
    for h in headings:
        start = h["position"]["start"]
        lines.append(f"{start['line']}:{start['column']} {start['offset']}..{h['section_end']} "
                     + "  " * (h["depth"] - 1) + h["text"])
    compare(f"{path}: headings as text", run("headings", "-c", constructs, path).split("\n")[:-1], lines)
    # Labels.
    status = 1 if wanted["labels"] else 0
    printed = run("labels", "--shortcuts", "-c", constructs, path, status=status).split("\n")[:-1]
    compare(f"{path}: labels", printed, [f"{path}:{label}" for label in wanted["labels"]])
    findings = read_json("labels", path, constructs, status=status, words=["--shortcuts"])["findings"]
    lines = []
    for f in findings:
        start = f["position"]["start"]
        first = f", first in line {f['first_line']}" if f["first_line"] else ""
        lines.append(f"{path}:{start['line']}:{start['column']}: {f['problem']} [{f['label']}]{first}")
        part = raw[start["offset"]:f["position"]["end"]["offset"]]
        compare(f"{path}: {part}", (part[:1], part[-1:]), (b"[", b"]"))
    compare(f"{path}: labels as JSON", lines, printed)
    # HTML.
    page = run("html", "-c", constructs, path)
    compare(f"{path}: tags", tags(page), wanted["html"])
    compare(f"{path}: html as JSON", read_json("html", path, constructs)["html"], page)
    # The outline: its blocks lie within one another, and all places are right.
    outline = read_json("outline", path, constructs)
    events = read_json("events", path, constructs)
    for place in places([outline, events, headings, findings]):
        if not is_place(raw, place):
            compare(f"{path}: place", place, point(raw, place["offset"]))
    open_blocks, is_nested = [], True
    for block in outline["blocks"]:
        start, end = (block["position"][key]["offset"] for key in ("start", "end"))
        del open_blocks[block["depth"]:]
        is_nested &= len(open_blocks) == block["depth"] and start <= end
        if open_blocks:
            is_nested &= open_blocks[-1][0] <= start and end <= open_blocks[-1][1]
        for text in block["texts"]:
            is_nested &= text["text"].encode() in raw[start:end]
        open_blocks.append((start, end))
    compare(f"{path}: blocks within one another", is_nested, True)
    # The text as standard input.
    compare(f"{path}: standard input", run("outline", "-c", constructs, text=raw),
            run("outline", "-c", constructs, path))


names = sorted(os.path.basename(path)[:-3] for path in glob.glob(f"{FOLDER}/*.md"))
if not os.path.isfile(PROGRAM):
    sys.exit(f"texts: {PROGRAM} is not built")
if len(names) < 60:
    sys.exit(f"texts: {len(names)} files, and not 60 at least")
for name in names:
    check(name)
paths = [f"{FOLDER}/{name}.md" for name in names]
together = json.loads(run("headings", "-f", "json", *paths))
compare("all files at once", [one["file"] for one in together], paths)
compare("not UTF-8", run("outline", text=b"a\r\nb\xff", status=2), "hoxalgurre: -:2:2: not UTF-8\n")
compare("no such file", run("html", "no/such.md", status=4), "hoxalgurre: no/such.md: no such file\n")
run("nothing", status=2)
print(f"texts: {len(names)} files, {passed} passed, {failed} failed")
sys.exit(failed != 0)
PYTHON
