#!/usr/bin/env bash
# Tries random texts and random sets of constructs with a new seed: soak.sh MINUTES [SEED]. It is not in the gate.
#
# - The bench, most of the time: `nasty flags`, `nasty random`, `nasty alerts` (the parser against the plain program, under
#   random sets of all flags, and whether its events nest and tile) and `blocks random` (the laws of nesting).
# - The programs `blocks` and `plain_blocks` on random texts: both print the same. `events` on these: its list is read here,
#   apart from the bench, and nests and tiles the text.
# - The library for C, in eight threads (`check_c.sh --fuzz`).
#
# It takes the programs that `rt ci` or `rt run` has built, and compiles the others without proof, once. It prints the seed,
# and each thing that it finds, with its text and what was printed, is a file of a folder that it names. With SEED it does
# the same again, as far as the time allows. Status 1 where it found something.
set -euo pipefail
cd "$(dirname "$0")/.."
if ! [[ "${1:-}" =~ ^[1-9][0-9]*$ && "${2:-1}" =~ ^[0-9]+$ && $# -le 2 ]]; then
    echo "usage: scripts/soak.sh MINUTES [SEED]" >&2
    exit 2
fi
exec python3 - "$@" <<'PYTHON'
import os, random, re, subprocess, sys, tempfile, time

MINUTES = int(sys.argv[1])
SEED = int(sys.argv[2]) if len(sys.argv) > 2 else int.from_bytes(os.urandom(6), "big")
TASKS = ["nasty flags {} 2000", "blocks random {} 300", "nasty random {} 2000", "nasty alerts {} 2000"]
SETS = ["commonmark", "gfm", "all", "alerts"]
PIECES = """> |>|- |-|1. |12) |\\n|\\n|\\n\\n|\\r|\\r\\n|\\t| |  |    |a|b c|é|# |## |#|=|===|---|***|```|~~~|$$|<div>|<!--|-->|<a b="c">|</pre>
[a]: b|[a]|[^a]: |[^b]|[!NOTE]|> [!tip]\\n|\\\\|"t"|'|(|)|<|>|a\\|b|-\\|-|:-|+++|\ufeff|\\0|\u3000|\U0001f600"""
PIECES = [re.sub(r"\\([nrt0\\|])", lambda it: {"n": "\n", "r": "\r", "t": "\t", "0": "\0"}.get(it[1], it[1]), piece)
          for line in PIECES.split("\n") for piece in re.split(r"(?<!\\)\|", line)]
found = tempfile.mkdtemp(prefix="hoxalgurre-soak-")
print(f"soak: seed {SEED}; what it finds is in {found}", flush=True)
findings = 0


def keep(name, *parts):
    global findings
    findings += 1
    with open(os.path.join(found, name), "wb") as file:
        file.write(b"\n".join(part if isinstance(part, bytes) else part.encode() for part in parts))
    print("soak: found", name, flush=True)


def run_built(program, cases, until):
    for name, (words, text) in cases.items():
        if time.monotonic() > until:
            return
        ran = subprocess.run([program, *words], input=text, capture_output=True)
        yield name, ran.returncode, ran.stdout


def run_tried(name, cases, until):
    """Compiles without proof, and runs the cases up to the time."""
    with tempfile.TemporaryDirectory() as folder:
        for case, (words, text) in cases.items():
            open(f"{folder}/{case}", "wb").write(text)
            open(f"{folder}/{case}.args", "w", encoding="utf-8").write("".join(word + "\n" for word in words))
        said, ends = open(f"{folder}.out", "w+b"), open(f"{folder}.err", "w+b")
        with said, ends:
            os.remove(f"{folder}.out"), os.remove(f"{folder}.err")
            tried = subprocess.Popen(["rt", "try", "--steps", "1", "--seconds", "600", "--cases", folder],
                                     cwd=f"crates/{name}", stdin=subprocess.DEVNULL, stdout=said, stderr=ends)
            begun = None
            while tried.poll() is None and (begun is None or time.monotonic() < begun + until):
                time.sleep(1)
                ends.seek(0)
                # the time begins with the first run, once the program is compiled
                begun = begun or (time.monotonic() if b"case=" in ends.read() else None)
            tried.terminate()
            tried.wait()
            ends.seek(0), said.seek(0)
            status = {it[0].decode(): int(it[1]) for it in re.findall(rb"^case=(\S+) run=ended status=(\d+)", ends.read(), re.M)}
            ends.seek(0)
            if not status:
                sys.exit(f"soak: {name} does not run:\n{ends.read().decode(errors='replace')[-2000:]}")
            parts = re.split(rb"^== (\w+)\n", said.read(), flags=re.M)
    printed = dict(zip((it.decode() for it in parts[1::2]), parts[2::2]))
    for case in cases:
        if case in status and case in printed:
            yield case, status[case], printed[case]


def run(name, cases, seconds):
    """The status and the output of each case that was run in the time."""
    program = os.path.join(os.environ.get("PROGRAMS", f"crates/{name}/out"), name)
    if os.access(program, os.X_OK):
        yield from run_built(program, cases, time.monotonic() + seconds)
    else:
        yield from run_tried(name, cases, seconds)


def fault(text, printed):
    """What keeps a printed list from nesting and tiling a text, if anything does."""
    points, line, column, last = {}, 1, 1, None
    for index, byte in enumerate(text):
        width = 4 - (column - 1) % 4 if byte == 9 else 1
        if not (byte == 10 and last == 13):
            points.update({(index, vs): (line, column + vs) for vs in range(width if byte == 9 else 1)})
        if byte in (10, 13):
            line, column = line + (not (byte == 10 and last == 13)), 1
        else:
            column += width
        last = byte
    points[len(text), 0] = (line, column)
    is_open, covered, before = [], (0, 0), ("", (0, 0))
    for number, row in enumerate(printed.decode().split("\n")[:-1], 1):
        sign, name, *numbers = row.split()
        line, column, *point = map(int, numbers)
        point = tuple(point)
        if points.get(point) != (line, column) or point < before[1]:
            return f"line {number}: no point of the text, or it goes back"
        if sign == "+":
            is_open.append(name)
        elif not is_open or is_open.pop() != name:
            return f"line {number}: no such part is open"
        elif before[0] == "+":
            if before[1] != covered or point <= covered:
                return f"line {number}: a piece that is empty or leaves bytes out"
            covered = point
        before = (sign, point)
    return None if not is_open and covered == (len(text), 0) else "parts stay open, or bytes are left out"


def try_bench(seconds):
    cases = {f"bench{at:06}": (TASKS[at % len(TASKS)].format(SEED + at).split(), b"") for at in range(60 * MINUTES)}
    tried = 0
    for name, status, printed in run("test_bench", cases, seconds):
        last = re.search(rb"(\d+) tried, 0 wrong\n*\Z", printed)
        tried += int(last[1]) if last else 0
        if status or not last:
            keep(name, "bench " + " ".join(cases[name][0]) + f": status {status}", printed)
    return tried


def try_programs(seconds):
    source, cases = random.Random(SEED), {}
    for at in range(600 * MINUTES):
        text = "".join(source.choice(PIECES) for _ in range(source.randrange(1, 60)))
        cases[f"text{at:06}"] = ([source.choice(SETS)], text.encode())
    outlines, tried = {}, 0
    for program in ("blocks", "plain_blocks", "events"):
        for name, status, printed in run(program, cases, seconds / 3):
            (word,), text = cases[name]
            tried += 1
            why = f"status {status}" if status else fault(text, printed) if program == "events" else None
            if program == "plain_blocks" and name in outlines and outlines[name] != (status, printed):
                why = "another outline than that of blocks"
            if program == "blocks":
                outlines[name] = (status, printed)
            if why:
                keep(f"{name}-{program}", f"{program} {word}: {why}", text, "prints", printed)
    return tried


def try_c(seconds):
    ran = subprocess.run(["scripts/check_c.sh", "--fuzz", str(seconds), str(SEED)], capture_output=True)
    last = re.search(rb"fuzz: seed \d+: (\d+) texts", ran.stdout)
    if ran.returncode or not last:
        keep("library-for-c", f"status {ran.returncode}", ran.stdout, ran.stderr)
    return int(last[1]) if last else 0


by_bench = try_bench(MINUTES * 60 // 2)
by_programs = try_programs(MINUTES * 60 // 4)
by_c = try_c(MINUTES * 60 // 4)
print(f"soak: seed {SEED}: {by_bench} tried by the bench, {by_programs} runs of programs, {by_c} texts by the library for C, "
      f"{findings} found in {found}")
sys.exit(findings > 0)
PYTHON
