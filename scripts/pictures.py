#!/usr/bin/env python3
"""pictures.py [--check]: draws docs/events.svg, from what `events` prints of a text with cut tabs, and docs/crates.svg, from
crates.txt. With --check both are compared and not written.

It takes the program that `rt ci` has built, or that of the folder PROGRAMS, where that is set."""
import html, os, re, subprocess, sys

os.chdir(os.path.join(os.path.dirname(os.path.abspath(__file__)), ".."))
EVENTS = os.path.join(os.environ.get("PROGRAMS", "crates/events/out"), "events")
TEXT = ">\t\ta\n> - b\n>\tc\n"
LEFT, CELL, ROW = 12, 84, 20
DASHED = ' stroke-dasharray="4 3"'
FILLS = {"text": "#dff3df", "mark": "#ffe3c2", "space": "#e8edf6", "ending": "#e4e0ff"}
TEXTS = ("Data", "CodeFlowChunk", "MathFlowChunk", "HtmlFlowData", "FrontmatterChunk")

# The groups of crates, from the top: each depends on those below it.
GROUPS = (
    ("Tests and the reference program", r"test_.*|reference_(?!inlines).*|plain_.*",
     "what compares definitions, programs and the library with each other"),
    ("Programs and examples", r"md_program|printing|blocks|events|hoxalgurre|hoxalgurre_c|examples_.*",
     "what users run, link or copy"),
    ("The library", r"markdown_blocks|markdown_inlines|markdown_html",
     "parse, outline, wrap, the inline layer, HTML: what users name"),
    ("The machine", r"md_flow|md_at_once", "lines, read call by call and at once"),
    ("Proofs of the exact list", r"proof_rows|proof_exact.*", "no code: the events of flow are the exact list"),
    ("Laws of constructs", r"proof_frame|proof_.*_laws|md_registry",
     "each construct seen by bytes, by cells and by lines; which there are, and in which order"),
    ("Constructs", r"md_leaves|md_literal|md_tables|md_link_definitions|md_content|md_containers|"
     r"md_order|md_resolve|md_outline|md_wrap", "states and their rules; resolvers, the outline, texts written into containers"),
    ("Inline layers", r"md_inline_.*|proof_inline.*|md_entities|md_inlines|reference_inlines",
     "what a text part means, and what a layer finds in it"),
    ("Beliefs and the tokenizer", r"md_engine|md_meaning|md_events|md_scan",
     "what a text means, what events are, and what calls states"),
)


class Picture:
    """The elements of a picture, and how large it is."""

    def __init__(self, title):
        self.parts, self.width, self.height = [f"<title>{html.escape(title)}</title>"], 0, 0

    def box(self, x, y, width, height, fill, stroke="#667", dash=""):
        self.parts.append(f'<rect x="{x}" y="{y}" width="{width}" height="{height}" rx="3" fill="{fill}" '
                          f'stroke="{stroke}"{dash}/>')
        self.reach(x + width, y + height)

    def text(self, x, y, text, size=12, anchor="middle", weight="normal"):
        self.parts.append(f'<text x="{x}" y="{y}" font-size="{size}" text-anchor="{anchor}" '
                          f'font-weight="{weight}">{html.escape(text)}</text>')
        self.reach(x + (len(text) * size * 0.62 if anchor == "start" else 0), y)

    def line(self, x, y, to_x, to_y):
        self.parts.append(f'<line x1="{x}" y1="{y}" x2="{to_x}" y2="{to_y}" stroke="#99a"/>')

    def reach(self, x, y):
        self.width, self.height = max(self.width, int(x) + 12), max(self.height, int(y) + 12)

    def svg(self):
        head = (f'<svg xmlns="http://www.w3.org/2000/svg" viewBox="0 0 {self.width} {self.height}" '
                f'width="{self.width}" height="{self.height}" font-family="ui-monospace, monospace" fill="#223">')
        return "\n".join([head, f'<rect width="{self.width}" height="{self.height}" fill="#fff"/>', *self.parts, "</svg>", ""])


def kind(name):
    if name.endswith("LineEnding"):
        return "ending"
    return "text" if name in TEXTS else "space" if name == "SpaceOrTab" else "mark"


def read_events():
    """The events of the text: whether one enters, its name, and its point."""
    printed = subprocess.run([EVENTS, "gfm"], input=TEXT.encode(), capture_output=True, check=True, timeout=60).stdout
    for row in printed.decode().splitlines():
        sign, name, *point = row.split()
        yield sign == "+", name, tuple(map(int, point))


def read_parts():
    """The parts of the text, the outer ones first: name, first and last point, depth, and whether it is a piece."""
    parts, stack = [], []
    for at, (enters, name, point) in enumerate(read_events()):
        if enters:
            stack.append((name, point, len(parts), at))
            parts.append(None)
        else:
            name, start, place, entered = stack.pop()
            parts[place] = (name, start, point, len(stack), entered + 1 == at)
    return parts


def draw_source(picture, source, top):
    """A line of the source, a box for each byte, as wide as its columns. The columns that it has are returned."""
    column = 0
    for char in source + "\n":
        width = 4 - column % 4 if char == "\t" else 1
        shown = {"\t": "⇥", " ": "␣", "\n": "↵"}.get(char, char)
        picture.box(LEFT + column * CELL, top, width * CELL, ROW + 6, "#f7f7fa")
        picture.text(LEFT + (column + width / 2) * CELL, top + 17, shown, 14)
        for inner in range(column + 1, column + width):
            picture.line(LEFT + inner * CELL, top + 1, LEFT + inner * CELL, top + ROW + 5)
        column += width
    return column


def draw_part(picture, top, name, first, last, is_whole, is_piece):
    """The columns that a part has on a line. The border is dashed where it continues from or to another line."""
    x, width = LEFT + first * CELL, (last - first) * CELL
    picture.box(x, top, width, ROW, FILLS[kind(name)] if is_piece else "#ffffff", dash="" if is_whole else DASHED)
    picture.text(x + width / 2, top + 14, name, round(min(11, (width - 4) / (0.62 * len(name))), 1))


def draw_events():
    """Each line of the source in columns, and below it the parts that have columns on it, the outermost first."""
    picture = Picture("The events over the source of a text with cut tabs")
    shown = TEXT.replace("\t", "\\t").replace("\n", "\\n")
    picture.text(LEFT, 15, f'"{shown}"', 12, "start")
    top = 24
    for number, source in enumerate(TEXT.split("\n")[:-1], 1):
        end = draw_source(picture, source, top)
        top += ROW + 10
        rows = {}
        for name, start, stop, depth, is_piece in read_parts():
            first = start[1] - 1 if start[0] == number else 0
            last = stop[1] - 1 if stop[0] == number else end
            if start[0] <= number <= stop[0] and first < last:
                is_whole = start[0] == number and (stop[0] == number or is_piece)
                rows.setdefault(depth, []).append((name, first, last, is_whole, is_piece))
        for depth in sorted(rows):
            for part in rows[depth]:
                draw_part(picture, top, *part)
            top += ROW + 2
        top += 14
    return picture.svg()


def read_crates():
    """The libraries of each crate of crates.txt that are crates of the repository."""
    lines = [line.split("#")[0] for line in open("crates.txt", encoding="utf-8")]
    found = {}
    for line in lines:
        name, colon, deps = line.partition(":")
        if colon:
            found[name.split()[0]] = deps.split()
    return {name: [dep for dep in deps if dep in found] for name, deps in found.items()}


def reached(crates, name):
    """All that a crate depends on, through others too."""
    found = set()
    for dep in crates[name]:
        found |= {dep} | reached(crates, dep)
    return found


def grouped(crates):
    """The crates of each group, those that others depend on first. Each is in one group, and depends on none above."""
    groups = [[] for _ in GROUPS]
    for name in crates:
        found = [at for at, (_, names, _) in enumerate(GROUPS) if re.fullmatch(names, name)]
        if len(found) != 1:
            sys.exit(f"pictures: {name} is in {len(found)} groups")
        groups[found[0]].append(name)
    place = {name: at for at, group in enumerate(groups) for name in group}
    for name, deps in crates.items():
        for dep in deps:
            if place[dep] < place[name]:
                sys.exit(f"pictures: {name} depends on {dep}, which is in a group above")
    below = {name: len(reached(crates, name)) for name in crates}
    return [sorted(group, key=lambda name: below[name]) for group in groups]


def draw_crates():
    """A box for each group, with its crates, and a line to the group below."""
    picture = Picture("The crates in nine groups, each above those that it depends on")
    width, size, top = 900, 12, 12
    groups = grouped(read_crates())
    for (title, _, what), names in zip(GROUPS, groups):
        rows, row = [], ""
        for name in names:
            if row and len(row) + len(name) > 110:
                rows, row = [*rows, row], ""
            row += (" · " if row else "") + name
        rows.append(row)
        height = 26 + 18 * len(rows)
        has_code = not all(name.startswith("proof_") for name in names)
        picture.box(LEFT, top, width, height, "#dff3df" if title == "The library" else "#e8edf6" if has_code else "#f7f7fa")
        picture.text(LEFT + 10, top + 17, title, 13, "start", "bold")
        picture.text(LEFT + width - 10, top + 17, what, size, "end")
        for at, row in enumerate(rows):
            picture.text(LEFT + 10, top + 37 + 18 * at, row, size, "start")
        top += height
        if names is not groups[-1]:
            picture.line(LEFT + width // 2, top, LEFT + width // 2, top + 14)
            top += 14
    return picture.svg()


def main(words):
    pictures = {"docs/crates.svg": draw_crates(), "docs/events.svg": draw_events()}
    for path, picture in pictures.items():
        if words == ["--check"]:
            if not os.path.isfile(path) or open(path, encoding="utf-8").read() != picture:
                sys.exit(f"pictures: {path} is not what the programs print; run scripts/pictures.py")
        else:
            open(path, "w", encoding="utf-8").write(picture)
    if words == ["--check"]:
        print(f"pictures: {len(pictures)} passed, 0 failed")


if sys.argv[1:] not in ([], ["--check"]):
    sys.exit("usage: pictures.py [--check]")
if not os.path.isfile(EVENTS):
    sys.exit(f"pictures: {EVENTS} is not built")
main(sys.argv[1:])
