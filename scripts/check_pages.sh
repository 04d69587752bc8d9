#!/usr/bin/env bash
# Compares what the pages show with what the programs print that `rt ci` or `rt run` has built (crates/NAME/out/NAME; where
# PROGRAMS is set, that folder has them under their names).
#
# - A line `<!-- run -->` is before a code block: a command, an empty line, and what the command prints. The
#   command is `hoxalgurre ARGUMENTS` or `(cd crates/NAME && rt try -- ARGUMENTS)`, with `printf '..' |` before it or
#   `< stdin` at its end. Where the block has the command alone, it prints what the file `stdout` of the crate has.
# - A line `<!-- by SCRIPT -->` is before a code block whose commands that step of the gate runs. Any other code block
#   that begins with a command is refused.
# - A line `<!-- text -->` is before a fenced block with one line, which `printf '%b'` makes the text of, and a line
#   `<!-- events SET -->` before a fenced block: what `events SET` prints of that text; or `<!-- parts SET -->`: the same
#   with a line for each part, its name, the line and column where it begins, and its first byte and the one after it.
# - A text in quotes, its set, an arrow and blocks, each but the set between backticks, as in `"> a\nb"` (gfm) → `quote (paragraph)`:
#   the outline of the text, each word with what is one deeper in parentheses. Lines of text are left out, unless one is
#   shown in quotes. The set is `commonmark` where none is named.
# - A line `<!-- code FILE -->` is before a fenced block whose lines are in that file, in this order.
#
# `scripts/counts.py` has how many examples there are, and compares the numbers that the pages give.
set -euo pipefail
cd "$(dirname "$0")/.."
exec python3 - *.md docs/*.md examples/*.md examples/*/README.md <<'PYTHON'
import os, re, subprocess, sys
sys.path.insert(0, "scripts")
sys.dont_write_bytecode = True
import counts

SETS = "commonmark|gfm|all|alerts"
COMMAND = re.compile(r"(?:printf '([^']*)' \| )?\(cd crates/(\w+) && rt (?:try|run)(?: -- ([\w ]+?))?( < stdin)?\)")
REPORT = re.compile(r"(?:printf '([^']*)' \| )?(hoxalgurre) ([\w ./-]+)()")
BEGINS = re.compile(r"(?:[A-Z_]+=\S+ )*(?:rt|git|cargo|pip|python3|make|gcc|cd|tar|printf|echo|cmark|hoxalgurre|\(cd|"
                    r"(?:\.ci|scripts)/\S+)(?: |$)")
STEPS = open(".ci/run", encoding="utf-8").read()
SHOWN = re.compile(rf"(`+) ?(\"[^`].*?\") ?\1(?: \(({SETS})\))? → `([^`]*)`")
passed = failed = 0


def program(name):
    return os.path.join(os.environ["PROGRAMS"], name) if "PROGRAMS" in os.environ else f"crates/{name}/out/{name}"


def run(name, words, text):
    """What a program prints of a text, and its status."""
    if not os.path.isfile(program(name)):
        sys.exit(f"pages: {program(name)} is not built")
    ran = subprocess.run([program(name), *words], input=text, capture_output=True, timeout=60)
    return ran.returncode, ran.stdout.decode(errors="replace")


def compare(place, printed, wanted):
    global passed, failed
    if printed == wanted:
        passed += 1
    else:
        print(f"{place}: prints\n{printed}\nand not\n{wanted}")
        failed += 1


def escaped(text):
    """The bytes of a text as `printf` writes it."""
    return subprocess.run(["bash", "-c", "printf '%b' \"$1\"", "bash", text], capture_output=True, check=True).stdout


def parts(printed):
    """The parts of printed events, each at its begin."""
    found, opened = [], []
    for event in printed.splitlines():
        sign, name, line, column, index, _ = event.split()
        if sign == "+":
            opened.append(len(found))
            found.append(f"{'  ' * (len(opened) - 1)}{name} {line}:{column} {index}")
        else:
            found[opened.pop()] += f"..{index}"
    return "".join(part + "\n" for part in found)


def literal(text):
    """The bytes of a text in Rust's notation."""
    named = {"n": "\n", "r": "\r", "t": "\t", "0": "\0", "\\": "\\", '"': '"', "'": "'"}
    meant = lambda found: chr(int(found[1] or found[2], 16)) if found[1] or found[2] else named[found[3]]
    return re.sub(r"\\(?:u\{([0-9a-f]+)\}|x([0-7][0-9a-f])|(.))", meant, text[1:-1]).encode()


def blocks(outline, has_texts):
    """The blocks of an outline, each with what is one deeper in parentheses."""
    def under(depth):
        found = []
        while lines and len(lines[0]) - len(lines[0].lstrip(" ")) == 2 * depth:
            line = lines.pop(0)[2 * depth:]
            word, bar, text = line.partition("| ")
            if bar and (word == "" or word.strip() in ("info", "meta", "label", "destination", "title", "delimiter", "cell")):
                found += [f'"{text}"'] if has_texts else []
                continue
            inner = under(depth + 1)
            found.append(f"{line} ({inner})" if inner else line)
        return ", ".join(found)
    lines = outline.rsplit("\ndefinitions ", 1)[0].split("\n")[:-1]
    return under(0)


def block(page, lines, at):
    """The lines of the code block that begins here, and the line after it."""
    fence = re.fullmatch(r"(```+)\w*", lines[at]) if at < len(lines) else None
    if fence:
        if fence[1] not in lines[at + 1:]:
            sys.exit(f"{page}:{at + 1}: the fence is not closed")
        end = lines.index(fence[1], at + 1)
        return lines[at + 1:end], end + 1
    end = at
    while end < len(lines) and (lines[end].startswith("    ") or not lines[end]):
        end += 1
    own = [line[4:] for line in lines[at:end]]
    while own and not own[-1]:
        own.pop()
    while own and not own[0]:
        own.pop(0)
    if not own:
        sys.exit(f"{page}:{at + 1}: no code block")
    return own, end


def command(page, place, shown):
    """A command with what it prints."""
    empty = shown.index("") if "" in shown else len(shown)
    found = COMMAND.fullmatch(" ".join(shown[:empty])) or REPORT.fullmatch(" ".join(shown[:empty]))
    if not found:
        sys.exit(f"{place}: not such a command")
    text, name, words, stored = found[1], found[2], (found[3] or "").split(), found[4]
    given = open(f"crates/{name}/stdin", "rb").read() if stored else escaped((text or "").replace("%%", "%"))
    wanted = "".join(line + "\n" for line in shown[empty + 1:])
    if not wanted:
        wanted = open(f"crates/{name}/stdout", encoding="utf-8").read()
    status, printed = run(name, words, given)
    # Reports of what is wrong end with status 1 where anything is.
    compare(place, (status > (words[:1] in (["labels"], ["links"])), printed), (False, wanted))


def quoted(place, path, shown):
    """Lines of a file."""
    left = [line.strip() for line in open(path, encoding="utf-8")]
    for line in filter(None, map(str.strip, shown)):
        if line not in left:
            compare(place, f"{path} without this line here", line)
            return
        left = left[left.index(line) + 1:]
    compare(place, True, True)


def check(page):
    lines = open(page, encoding="utf-8").read().split("\n")
    at = 0
    while at < len(lines):
        line, place = lines[at], f"{page}:{at + 1}"
        mark = re.fullmatch(r"<!-- (run|by|text|code|events|parts)(?: ([^ ]+))? -->", line)
        if mark and mark[1] == "run":
            shown, at = block(page, lines, at + 1)
            command(page, place, shown)
        elif mark and mark[1] == "by":
            shown, at = block(page, lines, at + 1)
            compare(place, f"scripts/{mark[2]}" in STEPS, True)
        elif mark and mark[1] == "code":
            shown, at = block(page, lines, at + 1)
            quoted(place, mark[2], shown)
        elif mark and mark[1] == "text":
            text, at = block(page, lines, at + 1)
            asked = re.fullmatch(rf"<!-- (events|parts) ({SETS}) -->", lines[at])
            if len(text) != 1 or not asked:
                sys.exit(f"{place}: a text is one line, and `<!-- events SET -->` or `<!-- parts SET -->` is after it")
            shown, at = block(page, lines, at + 1)
            status, printed = run("events", [asked[2]], escaped(text[0]))
            printed = parts(printed) if asked[1] == "parts" else printed
            compare(place, (status, printed), (0, "".join(line + "\n" for line in shown)))
        elif mark:
            sys.exit(f"{place}: events without a text")
        elif re.fullmatch(r"```+\w*", line):
            shown, at = block(page, lines, at)
            if shown and BEGINS.match(shown[0]):
                sys.exit(f"{place}: a command that is not run")
        else:
            if line.startswith("    ") and not lines[at - 1].startswith("    ") and BEGINS.match(line.strip()):
                sys.exit(f"{place}: a command that is not run")
            for _, text, chosen, wanted in SHOWN.findall(line.replace("\\|", "|") if line.startswith("|") else line):
                status, outline = run("blocks", [chosen or "commonmark"], literal(text))
                compare(place, (status, blocks(outline, '"' in wanted)), (0, wanted))
            at += 1


for page in sys.argv[1:]:
    check(page)
failed += counts.wrong_count("page examples", passed + failed)
print(f"pages: {passed} passed, {failed} failed")
sys.exit(failed != 0)
PYTHON
