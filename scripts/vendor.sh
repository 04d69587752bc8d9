#!/usr/bin/env bash
# Copies libraries into another repository: vendor.sh FOLDER [LIBRARY]...
#
# A library is `markdown_blocks` or one over it, as `markdown_inlines`. FOLDER gets, below `crates`, each that is named and
# each crate of this repository that it depends on, and their lines in `crates.txt`, which is made where it is not there.
# The pages and the licence are in `FOLDER/docs/hoxalgurre`, and there `VENDORED` says from which commit the copy is, and
# which libraries and crates it has. Where none is named, those in `VENDORED` are meant, or else `markdown_blocks`.
#
# A second call updates the copy: it replaces the crates that the list in `VENDORED` names, and removes those of them that
# no library needs any longer. A crate that is there and not on that list is the user's: the call is refused and changes
# nothing. So is one into this repository. Wrong bodies and tests stay here.
set -euo pipefail
if [ $# -lt 1 ]; then
    echo "usage: scripts/vendor.sh FOLDER [LIBRARY]..." >&2
    exit 2
fi
exec python3 - "$(dirname "$0")/.." "$@" <<'PYTHON'
import glob, os, re, shutil, subprocess, sys

top, folder = (os.path.realpath(path) for path in sys.argv[1:3])
libraries = sys.argv[3:]
crates, lines, pages = (os.path.join(folder, name) for name in ("crates", "crates.txt", "docs/hoxalgurre"))
list_file = os.path.join(pages, "VENDORED")


def refuse(why):
    print(f"vendor: {why}; nothing is changed", file=sys.stderr)
    sys.exit(2)


def is_inside(path):
    return os.path.commonpath([os.path.realpath(path), top]) == top


def named(path):
    """The lines of a crates.txt that name a crate, each with the name."""
    text = open(path, encoding="utf-8").read().split("\n") if os.path.exists(path) else []
    found = {}
    for line in text:
        name, colon, _ = line.split("#")[0].partition(":")
        if colon:
            found[name.strip()] = line
    return found


def origin():
    """The commit that the crates and pages are of, and whether they are as it has them."""
    def git(*words):
        ran = subprocess.run(["git", "-C", top, *words], capture_output=True, text=True)
        return ran.stdout.strip() if ran.returncode == 0 else None
    if git("rev-parse", "--show-toplevel") != top:
        return "unknown"
    changed = git("status", "--porcelain", "--", *COPIED)
    return git("rev-parse", "HEAD") + (" and changes that are not committed" if changed else "")


COPIED = ["crates", "crates.txt", "docs", "LICENSE", "README.md", "CHANGELOG.md"]
for path in (folder, crates, lines, pages):
    if is_inside(path):
        refuse(f"{path} is in this repository")

if os.path.lexists(pages) and not os.path.isfile(list_file):
    refuse(f"{pages} is there, and has no list VENDORED")
listed = open(list_file, encoding="utf-8").read() if os.path.exists(list_file) else ""
brought = re.findall(r"^crate (\w+)$", listed, re.M)
libraries = libraries or re.findall(r"^library (\w+)$", listed, re.M) or ["markdown_blocks"]

# The libraries and all below them, in the order of crates.txt.
own = named(os.path.join(top, "crates.txt"))
for name in libraries:
    if not name.startswith("markdown_") or name not in own:
        refuse(f"{name} is no library")
needed, left = set(), list(libraries)
while left:
    name = left.pop()
    if name in own and name not in needed:
        needed.add(name)
        left += own[name].split("#")[0].partition(":")[2].split()
for name in needed - set(brought):
    if os.path.lexists(os.path.join(crates, name)) or name in named(lines):
        refuse(f"{folder} has a crate {name} that is on no list in docs/hoxalgurre/VENDORED")
for name in {*needed, *brought}:
    if os.path.islink(os.path.join(crates, name)):
        refuse(f"{os.path.join(crates, name)} is a symbolic link")

os.makedirs(crates, exist_ok=True)
shutil.rmtree(pages, ignore_errors=True)
os.makedirs(pages)
for name in brought:
    shutil.rmtree(os.path.join(crates, name), ignore_errors=True)
leave = lambda path, names: {"out", "must-fail"} & set(names) if os.path.dirname(path) == os.path.join(top, "crates") else ()
for name in needed:
    shutil.copytree(os.path.join(top, "crates", name), os.path.join(crates, name), ignore=leave)
kept = open(lines, encoding="utf-8").read().splitlines() if os.path.exists(lines) else []
kept = [line for line in kept if line.split("#")[0].partition(":")[0].strip() not in {*brought, *needed}]
with open(lines + ".new", "w", encoding="utf-8") as file:
    file.write("\n".join([*kept, *(own[name] for name in own if name in needed)]) + "\n")
os.replace(lines + ".new", lines)

for page in [*glob.glob(os.path.join(top, "docs", "*")), *(os.path.join(top, name) for name in COPIED[3:])]:
    shutil.copy(page, pages)
for name in libraries:
    shutil.copy(os.path.join(top, "LICENSE"), os.path.join(crates, name))
with open(list_file, "w", encoding="utf-8") as file:
    file.write(f"commit {origin()}\n" + "".join(f"library {name}\n" for name in libraries))
    file.write("".join(f"crate {name}\n" for name in own if name in needed))
gone = [name for name in brought if name not in needed]
print(f"vendored: {len(needed)} crates to {folder}" + (f"; removed {' '.join(gone)}" if gone else ""))
PYTHON
