#!/usr/bin/env python3
"""c_header.py [--check]: writes what the library for C has of the lists of the project:

- `include/hoxalgurre.h`, with the names of events, the constructs and the words of the outline;
- `c/names.h`, the texts of names;
- `names.rt` and `bits.rt` of the crate hoxalgurre_c, the names by their numbers and the bits of constructs.

Numbers are the binary interface. A name keeps its place in the enum `Name`, and a word its place in `Word`. A construct
keeps its bit: one that is new goes to the end of BLOCKS or INLINES. With --check the files are compared and not
written, so that a change of the order shows."""
import os, re, sys

os.chdir(os.path.join(os.path.dirname(os.path.abspath(__file__)), ".."))
VERSION = (1, 0, 0)
BLOCKS = """block_quote code_fenced code_indented definition heading_atx heading_setext html_flow list_item
thematic_break gfm_footnote_definition gfm_table frontmatter math_flow alerts""".split()
INLINES = """attention autolink character_escape character_reference code_text hard_break_escape hard_break_trailing
html_text label_start_image label_start_link gfm_autolink_literal gfm_footnote_call gfm_strikethrough
gfm_task_list_item math_text gfm_strikethrough_single_tilde math_text_single_dollar""".split()
MARKS = INLINES[-2:]
# The first bit of each list: more constructs have room between.
FIRST = {"blocks": 0, "inlines": 32}
SETS = [
    ("COMMONMARK", "blocks", BLOCKS[:9], "The constructs of CommonMark."),
    ("GFM", "blocks", BLOCKS[:11], "Those, and tables and footnotes."),
    ("ALL", "blocks", BLOCKS[:13], "Those, frontmatter and math."),
    ("ALERTS", "blocks", BLOCKS, "Those, and alerts."),
    ("COMMONMARK_INLINES", "inlines", INLINES[:10] + MARKS, "What CommonMark has in texts."),
    ("GFM_INLINES", "inlines", INLINES[:14] + MARKS, "Those, and what GitHub adds."),
    ("ALL_INLINES", "inlines", INLINES, "Those, and math."),
]


def read(path):
    return open(path, encoding="utf-8").read()


def variants(path, kind):
    """The variants of an enum, in their order."""
    body = re.search(rf"pub enum {kind} \{{\n(.*?)\n\}}", read(path), re.S)[1]
    lines = (line.strip() for line in body.split("\n"))
    found = [line for line in lines if line and not line.startswith("//")]
    if not found or any(not re.fullmatch(r"[A-Z]\w*(\(.*\)| \{.*\})?,", line) for line in found):
        sys.exit(f"c_header: the enum `{kind}` does not have one variant a line")
    return [re.match(r"\w+", line)[0] for line in found]


def flags(path, kind):
    """The flags of a struct with their comments, but those of MDX."""
    body = re.search(rf"pub struct {kind} \{{\n(.*?)\n\}}", read(path), re.S)[1]
    found = re.findall(r"((?: *///.*\n)*) *pub (\w+): bool,", body + "\n")
    said = {name: " ".join(line.strip(" /") for line in text.strip().split("\n")) for text, name in found}
    return {name: text for name, text in said.items() if not name.startswith("mdx_")}


def upper(name):
    return re.sub(r"(?<=[a-z])(?=[A-Z])", "_", name).upper()


def enum(prefix, names):
    return "".join(f"    HOXALGURRE_{prefix}_{upper(name)} = {at},\n" for at, name in enumerate(names))


def comment(text):
    """A comment above what it tells, in lines of at most 120 columns."""
    lines, words = [""], text.split()
    for word in words:
        if len(lines[-1]) + len(word) > 112:
            lines.append("")
        lines[-1] += (" " if lines[-1] else "") + word
    return "/* " + "\n * ".join(lines) + " */\n"


def constructs(list_of, names):
    return "".join(comment(list_of[name]) + f"#define HOXALGURRE_CONSTRUCT_{name.upper()} (UINT64_C(1) << {at})\n"
                   for at, name in names)


def mask(kind, names):
    every = {"blocks": BLOCKS, "inlines": INLINES}[kind]
    return sum(1 << (FIRST[kind] + every.index(name)) for name in names)


def sets():
    return "".join(comment(said) + f"#define HOXALGURRE_{name} UINT64_C(0x{mask(kind, its):x})\n"
                   for name, kind, its, said in SETS)


def parts():
    blocks = flags("crates/md_engine/src/configuration.rt", "Constructs")
    inlines = flags("crates/md_inlines/src/lib.rt", "InlineConstructs")
    marks = flags("crates/md_inlines/src/lib.rt", "InlineOptions")
    inlines.update({name: re.sub("^Whether o", "O", text) for name, text in marks.items()})
    if set(blocks) != set(BLOCKS) or set(inlines) != set(INLINES):
        sys.exit("c_header: the constructs of the library are others than those of this script")
    names = variants("crates/md_engine/src/event.rt", "Name")
    words = variants("crates/md_meaning/src/outline.rt", "Word")
    kinds = variants("crates/md_meaning/src/alert.rt", "AlertKind")
    return {
        "names": enum("NAME", names), "name_count": str(len(names)),
        "words": enum("WORD", words), "word_count": str(len(words)),
        "kinds": enum("ALERT", kinds), "kind_count": str(len(kinds)),
        "blocks": constructs(blocks, enumerate(BLOCKS, FIRST["blocks"])),
        "inlines": constructs(inlines, enumerate(INLINES, FIRST["inlines"])),
        "sets": sets(),
        "major": str(VERSION[0]), "minor": str(VERSION[1]), "patch": str(VERSION[2]),
    }


def bits():
    """The bits of constructs, and those of each list, for the crate."""
    lines = ["// The bits of constructs, for C. Made by `scripts/c_header.py`."]
    for kind, names in (("blocks", BLOCKS), ("inlines", INLINES)):
        lines += [f"pub(crate) const {name.upper()}: u64 = 1 << {at};" for at, name in enumerate(names, FIRST[kind])]
        lines += [f"/// All of these.\npub(crate) const {kind.upper()}: u64 = {hex(mask(kind, names))};"]
    return "\n\n".join(lines) + "\n"


def files():
    have = parts()
    header = re.sub(r"^@(\w+)@\n|@(\w+)@", lambda it: have[it[1] or it[2]], read("c/hoxalgurre.h.in"), flags=re.M)
    names = variants("crates/md_engine/src/event.rt", "Name")
    listed = "".join(f'    "{name}",\n' for name in names)
    code = "".join(f"    Name::{name},\n" for name in names)
    return {
        "include/hoxalgurre.h": header,
        "c/names.h": f"/* The texts of names, by their numbers. Made by scripts/c_header.py. */\n{listed}",
        "crates/hoxalgurre_c/src/bits.rt": bits(),
        "crates/hoxalgurre_c/src/names.rt": f"""// The names of events by their numbers. Made by `scripts/c_header.py`.

use markdown_blocks::event::Name;

/// Each name is at its number.
pub(crate) const NAMES: [Name; {len(names)}] = [
{code}];
""",
    }


if sys.argv[1:] not in ([], ["--check"]):
    sys.exit("usage: c_header.py [--check]")
for path, text in files().items():
    if sys.argv[1:] and read(path) != text:
        sys.exit(f"c_header: {path} has other names or numbers than the library; run scripts/c_header.py if it may")
    if not sys.argv[1:]:
        open(path, "w", encoding="utf-8").write(text)
