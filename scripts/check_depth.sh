#!/usr/bin/env bash
# Containers and inline constructs in one another take no stack, whatever their number: built programs (`rt ci` or `rt
# run` builds them: `out`; where PROGRAMS is set, they are in that folder) run with 256 KB of stack.
#
# - `test_bench levels` tries the parser on 100,000 markers of containers, of three kinds, the third of four containers,
#   and the plain program on a quarter of each; the parser with the inline layer on 100,000 brackets on each side, on
#   emphasis 50,000 deep and on 25,000 images in one another.
# - `blocks` prints the outline of a line of 1,000,000 `*`, of one of as many spaces, and of 100,000 empty lines.
# - `plain_blocks` prints the outline of 2,000 containers in one another, on one line and on two, the second of which
#   closes them. The outlines are written here.
# - `plain_inlines` prints the inline content of 300 images in one another, and of emphasis 300 deep. The printed forms
#   are written here.
# - The same with requests for memory refused, every 61st in turn, alone and with all that follow (`scripts/refuse.c`):
#   the program then ends with status 3, says so and prints nothing, so that what it holds by then is let go without
#   stack too.
set -euo pipefail
cd "$(dirname "$0")/.."
work=$(mktemp -d)
trap 'rm -rf "$work"' EXIT
kit=$(dirname "$(rt doc)")
"$kit/toolchain/bin/clang" --target=x86_64-unknown-linux-gnu --sysroot="$kit/toolchain" -O2 -shared -fPIC -nostdlib -fuse-ld=lld \
    -o "$work/refuse.so" scripts/refuse.c
python3 - "$work/refuse.so" <<'PYTHON'
import os, resource, subprocess, sys

LIBRARY = sys.argv[1]
FOLDER = os.environ.get("PROGRAMS")
STACK = 256 * 1024
LEVELS = 2000
DEEP = 300

# A marker, and the words of the outline that it opens.
MARKERS = {"> ": ["quote"], "- ": ["list -", "item"], "> 1. ": ["quote", "list .", "item"]}

# What is before a text and after it, and how a part around a forest is printed: lines with their depths, first those before the forest,
# which is as deep as their number says, and then those after it.
INLINE = [
    ("*a ", " a*", [(0, "Emphasis"), (1, "EmphasisSequence | *"), (1, "EmphasisText"), (2, "Data | a "), 2, (2, "Data |  a"), (1, "EmphasisSequence | *")]),
    ("![", "](b)", [
        (0, "Image"), (1, "Label"), (2, "LabelImage"), (3, "LabelImageMarker | !"), (3, "LabelMarker | ["), (2, "LabelText"), 3,
        (2, "LabelEnd"), (3, "LabelMarker | ]"), (1, "Resource"), (2, "ResourceMarker | ("), (2, "ResourceDestination"),
        (3, "ResourceDestinationRaw"), (4, "ResourceDestinationString"), (5, "Data | b"), (2, "ResourceMarker | )"),
    ]),
]
# how "`c`" is printed
CODE = [(0, "CodeText"), (1, "CodeTextSequence | `"), (1, "CodeTextData | c"), (1, "CodeTextSequence | `")]


def printed(words):
    """The printed form of so many such parts in one another, around a code span."""
    inner, place = next((word, place) for place, word in enumerate(words) if isinstance(word, int))
    levels = range(DEEP)
    lines = [(inner * level + depth, word) for level in levels for depth, word in words[:place]]
    lines += [(inner * DEEP + depth, word) for depth, word in CODE]
    lines += [(inner * level + depth, word) for level in reversed(levels) for depth, word in words[place + 1:]]
    return "".join("  " * depth + word + "\n" for depth, word in lines)


def program(name):
    return f"{FOLDER}/{name}" if FOLDER else f"crates/{name}/out/{name}"


def run(command, text="", env={}, files=[]):
    """The status of a run with little stack, what it printed and what it complained of."""
    small = lambda: resource.setrlimit(resource.RLIMIT_STACK, (STACK, STACK))
    ran = subprocess.run(command, input=text.encode(), capture_output=True, env=env, pass_fds=files, preexec_fn=small, timeout=110)
    return ran.returncode, ran.stdout, ran.stderr


def outline(words, last):
    """The outline of these words, each in the one before, with a paragraph in the innermost, and what follows them."""
    words = [*words, "paragraph", "| a"]
    return "".join("  " * depth + word + "\n" for depth, word in enumerate(words)) + last + "\ndefinitions 0\nfootnotes 0\n"


def refuse(name, text, number):
    """A run whose requests are refused as the number says, and whether one was."""
    readable, writable = os.pipe()
    ended = run([program(name)], text, {"LD_PRELOAD": LIBRARY, "REFUSE": number, "REFUSED_TO": str(writable)}, [writable])
    os.close(writable)
    with open(readable, "rb") as requests:
        return ended, b"r" in requests.read()


def check_outline(name, text, wanted):
    """Compares the outline of a text, and refuses requests for memory."""
    right = (0, wanted.encode(), b"")
    if run([program(name)], text) != right:
        sys.exit(f"{name} on {text[:20]!r}..: not its outline with {STACK} bytes of stack")
    runs = 0
    for following in ("", "+"):
        number = 1
        while True:
            ended, is_refused = refuse(name, text, f"{number}{following}")
            if ended != ((3, b"", f"{name}: out of memory\n".encode()) if is_refused else right):
                sys.exit(f"{name} on {text[:20]!r}.., request {number}{following} refused: status {ended[0]}, {ended[2]}")
            if not is_refused:
                break
            number, runs = number + 61, runs + 1
    return runs


ended = run([program("test_bench"), "levels"])
if ended != (0, b"15 tried, 0 wrong\n", b""):
    sys.exit(f"bench levels with {STACK} bytes of stack: {ended}")
for text, words in (("*" * 1_000_000, "break\n"), (" " * 1_000_000, ""), ("\n" * 100_000, "")):
    if run([program("blocks")], text) != (0, (words + "\ndefinitions 0\nfootnotes 0\n").encode(), b""):
        sys.exit(f"blocks on {len(text)} of {text[0]!r}: not its outline with {STACK} bytes of stack")
runs = 0
for marker, words in MARKERS.items():
    line = marker * (LEVELS // len(words)) + "a\n"
    words = words * (LEVELS // len(words))
    runs += check_outline("plain_blocks", line, outline(words, ""))
    runs += check_outline("plain_blocks", line + "\nb\n", outline(words, "paragraph\n  | b\n"))
inner = runs
for before, after, words in INLINE:
    runs += check_outline("plain_inlines", before * DEEP + "`c`" + after * DEEP, printed(words))
print(f"depth: {len(MARKERS)} kinds of markers, {LEVELS} levels, {len(INLINE)} inline constructs, {DEEP} deep, {runs} runs refused memory")
if inner < 100 or runs - inner < 20:
    sys.exit("not at least 100 and 20 runs refused memory")
PYTHON
