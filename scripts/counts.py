#!/usr/bin/env python3
"""counts.py: compares how many there are of each thing that the gate tries with `counts.txt`.

    scripts/counts.py                 the must-fail edits, the wrong bodies, the rows and the texts of the repository, the
                                      form of each edit, the numbers that the pages give, and how many words they have
    scripts/counts.py --ci FILE       what `rt ci` has printed of must-fail edits: all refused, and none bad or not tried
    scripts/counts.py NAME NUMBER     what a check has counted
"""
import glob
import os
import re
import sys

TOP = os.path.dirname(os.path.dirname(os.path.abspath(__file__)))

# A number in a page: what it counts, the page, and the words around it.
PAGES = [
    ("must-fail edits", "docs/proofs.md", r"([\d,]+) are \*\*edits\*\*"),
    ("texts", "README.md", r"the ([\d,]+) files of `examples/texts`"),
    ("texts of the inline definition", "docs/definitions-inlines.md", r"([\d,]+) rows, texts with their forests"),
    ("wrong inline definitions", "docs/definitions-inlines.md", r"([\d,]+) wrong definitions of one line"),
]

# How many words a page has at most, and all pages of the top and of docs/ together.
MOST_WORDS = [("README.md", 1_200), ("*.md", 38_000)]


def counts():
    """The numbers of `counts.txt`, by their names."""
    found = {}
    for line in open(os.path.join(TOP, "scripts/counts.txt"), encoding="utf-8"):
        name, colon, number = line.strip().rpartition(": ")
        if line.strip() and not line.startswith("#"):
            if not colon or not number.isdigit() or name in found:
                sys.exit(f"counts.txt: not a name and a number, or twice: {line.strip()}")
            found[name] = int(number)
    return found


def wrong_count(name, number):
    """Says whether there are not as many as `counts.txt` has."""
    wanted = counts().get(name)
    if wanted != number:
        print(f"counts: {number} {name}, and counts.txt has {wanted}")
    return wanted != number


def read(path):
    return open(os.path.join(TOP, path), encoding="utf-8").read()


def listed(pattern):
    return sorted(os.path.relpath(path, TOP) for path in glob.glob(os.path.join(TOP, pattern)))


def fault_of_edit(path, root):
    """What keeps an edit from being applied, if anything does: each `old:` is once in what the earlier pairs made."""
    texts, file, old, pairs = {}, None, None, 0
    for line in read(path).split("\n"):
        key, colon, value = line.partition(":")
        value = value[1:] if value.startswith(" ") else value
        if not line or line.startswith("#"):
            continue
        if key == "function":
            continue
        if not colon or key not in ("file", "old", "new"):
            return f"no line of an edit: {line}"
        if key == "file":
            file = os.path.join(root, value.strip())
            if file.split("/")[2:3] not in (["src"], ["specs"], ["proofs"]):
                return f"{value} is not below src, specs or proofs"
            if not os.path.isfile(os.path.join(TOP, file)):
                return f"there is no file {value}"
            texts.setdefault(file, read(file))
        elif file is None or (key == "new") != (old is not None):
            return f"a line `{key}:` out of its order"
        elif key == "old":
            if texts[file].count(value) != 1:
                return f"`{value}` is {texts[file].count(value)} times in {file}"
            old = value
        else:
            if old == value:
                return f"it changes nothing of `{old}`"
            texts[file] = texts[file].replace(old, value)
            old, pairs = None, pairs + 1
    return None if pairs and old is None else "it has no pair of `old:` and `new:`, or half of one"


def rows_of(module):
    """How many rows a module of `test_rows` has, each of which is one."""
    text = re.search(r'r(#+)"(.*?)"\1', read(f"crates/test_rows/src/{module}.rt"), re.S)
    rows = text[2].split("\n\n")
    for row in rows:
        if not re.match(r'[^|\n]+ \| [^\n]+\n"[^\n]*"(\n|$)', row):
            sys.exit(f"counts: {module}.rt: no row: {row[:200]!r}")
    return len(rows)


def check_table(edits):
    """Compares the table of wrong bodies: it names each edit."""
    table = read("docs/proofs.md").partition("| Crate | Promise | Edits | Rows |")[2].partition("\n\n")[0]
    cells = [line.strip("|").split("|") for line in table.split("\n")[2:]]
    names = [name for line in cells for name in re.findall(r"`(\w+)`", line[2])]
    files = [os.path.basename(path)[:-len(".edit")] for path in edits]
    for name in sorted(set(names) ^ set(files)):
        print(f"docs/proofs.md: the table and must-fail/ differ in {name}")
    return int(sorted(names) != sorted(files))


def check_words():
    """Compares how many words the pages have with how many they may have."""
    pages = listed("*.md") + listed("docs/*.md")
    failed = 0
    for name, most in MOST_WORDS:
        words = sum(len(read(page).split()) for page in pages if name in (page, "*.md"))
        if words > most:
            print(f"counts: {words} words in {name}, and not {most} at most")
            failed += 1
    return failed


def check_all():
    """Compares all that can be counted without a run."""
    failed = 0
    edits = listed("crates/*/must-fail/*")
    bodies = listed("scripts/wrong-bodies/*")
    for path in edits:
        why = fault_of_edit(path, os.path.dirname(os.path.dirname(path)))
        why = why if path.endswith(".edit") else "an edit ends in .edit"
        if why:
            print(f"{path}: BAD EDIT: {why}")
            failed += 1
    for path in bodies:
        why = fault_of_edit(path, "")
        if why:
            print(f"{path}: BAD EDIT: {why}")
            failed += 1
    modules = re.findall(r"^ +(\w+)::rows\(\),$", read("crates/test_rows/src/lib.rt"), re.M)
    rows = sum(rows_of(module) for module in modules)
    for name, number in [
        ("must-fail edits", len(edits)),
        ("wrong bodies", len(bodies)),
        ("rows", rows),
        ("event rows", rows_of("events")),
        ("texts", len(listed("examples/texts/*.md"))),
    ]:
        failed += wrong_count(name, number)
    for name, page, words in PAGES:
        found = re.findall(words, read(page))
        if [int(it.replace(",", "")) for it in found] != [counts()[name]]:
            print(f"{page}: {found} for `{words}`, and counts.txt has {counts()[name]} {name}")
            failed += 1
    failed += check_table(edits) + check_words()
    print(f"counts: {len(edits)} must-fail edits, {len(bodies)} wrong bodies, {rows} rows, {failed} failed")
    return failed


def check_ci(path):
    """Looks at what `rt ci` said of must-fail edits, which it lets pass if they are bad."""
    said = open(path, encoding="utf-8", errors="replace").read()
    bad = re.findall(r"^.*(?:BAD EDIT|NOT TRIED|NOT REFUSED).*$", said, re.M)
    for line in bad:
        print("counts:", line)
    # Some kits count them, others have a line for each.
    counted = re.findall(r"must-fail edits: (\d+) refused", said)
    refused = int(counted[0]) if counted else len(re.findall(r"must-fail \S+: refused, as it must be", said))
    failed = wrong_count("must-fail edits", refused) + len(bad)
    print(f"counts: {refused} must-fail edits refused, {failed} failed")
    return failed


def main():
    words = sys.argv[1:]
    if not words:
        sys.exit(check_all() > 0)
    if len(words) == 2 and words[0] == "--ci":
        sys.exit(check_ci(words[1]) > 0)
    if len(words) == 2 and words[1].isdigit():
        sys.exit(wrong_count(words[0], int(words[1])))
    sys.exit(__doc__)


if __name__ == "__main__":
    main()
