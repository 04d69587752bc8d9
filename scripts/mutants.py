#!/usr/bin/env python3
"""mutants.py [--third N] [WORD..]: tries the wrong bodies of scripts/mutants.txt, each of which a test has to refuse.

All are applied to one copy of the crates, where a body is wrong only for its number, which the program reads from the
environment (`MUTANT`, by a function in C that the copy alone has). One program is built, without proof: `hoxalgurre`,
and by its first argument also `blocks`, `events` and a caller of `hoxalgurre_events`. With each number run the cases of
check_reports.py on short texts, calls of `hoxalgurre_events` as scripts/check_c.sh has them, scripts/man.py and
scripts/check_texts.sh, up to the first that fails. Number 0 is for the bodies as they are: all has to pass. With words,
only wrong bodies with all of them in their file or comment are tried, with --third N (0 to 2) every third one from the
Nth. Less than 97 of 100 refused is a failure, and so is a wrong body that does not apply."""
import os
import re
import subprocess
import sys
import tempfile
import time
from collections import namedtuple
from concurrent.futures import ThreadPoolExecutor

os.chdir(os.path.join(os.path.dirname(os.path.abspath(__file__)), ".."))
sys.path.insert(0, "scripts")
sys.dont_write_bytecode = True
from unproved import build_for_tests

CRATES = ("hoxalgurre", "markdown_html", "md_program", "hoxalgurre_c")
# The report that most likely changes, by the name of the file.
REPORTS = {"events": "events", "outline": "outline", "position": "outline", "headings": "headings", "labels": "labels",
           "references": "labels", "layer": "links", "anchors": "links", "links": "links", "toc": "headings",
           "tree": "tree", "spans": "outline", "source": "tree", "builder": "tree"}
# The program, or what the first argument of a caller is, by the crate.
PROGRAMS = {"md_program": "blocks", "hoxalgurre_c": "%c"}
LEAST, LEAST_SCORE = 417, 97

Mutant = namedtuple("Mutant", "number file comment old new")

LIBRARY = """#![tactic(auto)]
unsafe extern "C" { safe fn mutant_number() -> u32; }
pub fn is_wrong(number: u32) -> bool { mutant_number() == number }
"""

# The number.
IN_C = r"""
#include <stdint.h>
#include <stdlib.h>
uint32_t mutant_number(void) {
    static long number = -1;
    const char *given = getenv("MUTANT");
    if (number < 0) number = given ? atol(given) : 0;
    return (uint32_t)number;
}
"""

# What the program does by its first argument.
CHOICE = """
/// The events of the standard input by `hoxalgurre_events`: status and number, and those that have room.
fn by_c(rt: &HostRuntime, set: &str, room: usize) -> std::io::Result<()> {
    use std::io::Read;
    let mut bytes = Vec::new(rt.alloc());
    let _count = rt.stdin().read_to_end(&mut bytes)?;
    let mut out = Vec::new(rt.alloc());
    for _ in 0..room {
        out.push(hoxalgurre_c::HoxalgurreEvent { name: 999, is_exit: 9, line: 0, column: 0, index: 0, vs: 9 })?;
    }
    let constructs = match set {
        "commonmark" => 0x1ff, "gfm" => 0x7ff, "all" => 0x1fff, "alerts" => 0x3fff, _ => 1 << 63,
    };
    let mut count = 0;
    let (bytes, room) = (bytes.as_slice(), out.as_mut_slice());
    let status = hoxalgurre_c::hoxalgurre_events(rt.alloc(), bytes, constructs, room, &mut count);
    println!(rt; "{} {}", status, count)?;
    for event in &out {
        println!(rt; "{} {} {} {} {} {}", event.name, event.is_exit, event.line, event.column, event.index, event.vs)?;
    }
    Ok(())
}

fn main(rt: HostRuntime) -> ExitCode {
    let Ok(args) = md_program::system::arguments(&rt) else { return own_main(rt) };
    let mut errors = rt.stderr();
    match args.as_slice() {
        [first, rest @ ..] if first.as_str() == "%blocks" => ExitCode::from(printing::run_blocks::run(
            rt.alloc(), rest, &mut rt.stdin(), &mut rt.stdout(), &mut errors)),
        [first, rest @ ..] if first.as_str() == "%events" => ExitCode::from(printing::run_events::run(
            rt.alloc(), rest, &mut rt.stdin(), &mut rt.stdout(), &mut errors)),
        [first, set, room] if first.as_str() == "%c" => {
            let _done = by_c(&rt, set.as_str(), room.as_str().parse().unwrap_or(0));
            ExitCode::SUCCESS
        }
        _ => own_main(rt),
    }
}
"""


def read(path):
    """The wrong bodies of a file."""
    found, file, part = [], "", []
    for line in open(path, encoding="utf-8"):
        if line.startswith("== "):
            file = line[3:].strip()
        elif file and line.strip():
            part.append(line[2:].rstrip("\n"))
            if len(part) == 3:
                found.append(Mutant(len(found) + 1, file, *part))
                part = []
    return found


def replaced(path, old, new, why):
    text = open(path, encoding="utf-8").read()
    pattern = r"\s*\n\s*".join(re.escape(part) for part in old.split("⏎"))
    count = len(re.findall(pattern, text))
    if count != 1:
        sys.exit(f"mutants: {why}: `{old}` is {count} times in {path}")
    with open(path, "w", encoding="utf-8") as file:
        file.write(re.sub(pattern, lambda _: new, text))


def copied(work, found):
    """The copy of the crates, with all wrong bodies."""
    subprocess.run(f"mkdir -p {work}/crates/mutant/src {work}/crates/mutant/c && cp crates.txt HANDLES {work}/ && "
                   f"tar -C crates --exclude=out -cf - . | tar -C {work}/crates -xf -", shell=True, check=True)
    for it in found:
        if "is_wrong()" not in it.new:
            sys.exit(f"mutants: {it.comment}: nothing asks is_wrong()")
        new = it.new.replace("is_wrong()", f"mutant::is_wrong({it.number})")
        replaced(f"{work}/crates/{it.file}", it.old, new, it.comment)
    crates = open(f"{work}/crates.txt", encoding="utf-8").read()
    crates = crates.replace("hoxalgurre_c staticlib:", "hoxalgurre_c:") + "\nmutant:\n"
    for crate in CRATES:
        crates = re.sub(rf"^{crate}:", f"{crate}: mutant", crates, flags=re.M)
    crates = crates.replace("\nhoxalgurre: ", "\nhoxalgurre: hoxalgurre_c ")
    for name, text in (("crates.txt", crates), ("crates/mutant/src/lib.rt", LIBRARY),
                       ("crates/mutant/c/mutant.c", IN_C)):
        with open(f"{work}/{name}", "w", encoding="utf-8") as file:
            file.write(text)
    exports = f"{work}/crates/hoxalgurre_c/src/lib.rt"
    text = open(exports, encoding="utf-8").read()
    with open(exports, "w", encoding="utf-8") as file:
        file.write(text.replace('#[unsafe(no_mangle)]\npub extern "C" fn', "pub fn"))
    main = f"{work}/crates/hoxalgurre/src/main.rt"
    replaced(main, "fn main(rt: HostRuntime)", "fn own_main(rt: HostRuntime)", "main")
    with open(main, "a", encoding="utf-8") as file:
        file.write(CHOICE)


def built(work, found):
    """The program with all wrong bodies."""
    copied(work, found)
    os.makedirs(f"{work}/programs")
    build_for_tests(f"{work}/crates/hoxalgurre", f"{work}/programs/hoxalgurre", f"{work}/crates/mutant/c/mutant.c")
    for name in ("blocks", "events"):
        with open(f"{work}/programs/{name}", "w", encoding="utf-8") as file:
            file.write(f'#!/bin/sh\nexec "{work}/programs/hoxalgurre" %{name} "$@"\n')
        os.chmod(f"{work}/programs/{name}", 0o755)
    return f"{work}/programs"


def c_cases(Case, model_of):
    """Calls of `hoxalgurre_events`, as scripts/check_c.sh has them from C: all events, those that have room, and refused calls."""
    text = open("docs/events.md", "rb").read()[:3000] + b"\n> [!tip]\n>\t\ta\n\n$$\nb\n"
    header = open("include/hoxalgurre.h", encoding="utf-8").read()
    for constructs in ("commonmark", "gfm", "all", "alerts"):
        events = model_of(text, constructs).events
        for room in (len(events), 3, len(events) + 2):
            lines = [f"0 {len(events)}"]
            for event in events[:room]:
                lines.append(f"{number_of(header, event.name)} {0 if event.enters else 1} {event.line} {event.column} "
                             f"{event.offset} {event.virtual}")
            lines += ["999 9 0 0 0 9"] * (room - len(events))
            yield Case(["%c", constructs, str(room)], "".join(line + "\n" for line in lines).encode(), stdin=text)
    yield Case(["%c", "gfm", "0"], b"1 2\n", stdin=b"ab\xffc")
    yield Case(["%c", "none", "0"], b"4 0\n", stdin=b"a")


def number_of(header, name):
    """The number of a name in the header."""
    spelled = re.sub(r"(?<=[a-z])(?=[A-Z])", "_", name).upper()
    return int(re.search(rf"\bHOXALGURRE_NAME_{spelled} = (\d+)", header)[1])


class Tests:
    """The tests, with what the bodies as they are print."""

    def __init__(self, programs, folder):
        os.environ["PROGRAMS"] = programs
        from check_reports import all_cases
        from command_cases import Case
        from report_texts import models
        self.programs = programs
        model_of = lambda text, constructs: models([(text, constructs)])[text, constructs]
        self.cases = [*all_cases(folder, True), *c_cases(Case, model_of)]
        self.refusals, self.seconds = [0] * len(self.cases), [0.0] * len(self.cases)

    def refused_by(self, number, report=None):
        """What refuses a wrong body, or None: the cases of its report first, of these those that refused most, and of these
        the shortest."""
        environment = {**os.environ, "MUTANT": str(number)}
        order = [(report not in (case.program, *case.words[:1]), -refusals, seconds, at)
                 for at, (case, refusals, seconds) in enumerate(zip(self.cases, self.refusals, self.seconds))]
        for *_, at in sorted(order):
            case, begun = self.cases[at], time.monotonic()
            try:
                is_right = case.holds(case.run([os.path.join(self.programs, case.program)], environment))
            except subprocess.TimeoutExpired:
                is_right = False
            if not number:
                self.seconds[at] = time.monotonic() - begun
            if not is_right:
                self.refusals[at] += 1
                return ascii(case.words[:6])
        for words in (["scripts/man.py", "--check"], ["scripts/check_texts.sh"]):
            ran = subprocess.run(words, capture_output=True, text=True, errors="replace", env=environment)
            if ran.returncode:
                return f"{words[0]}: {ran.stdout[-300:]}{ran.stderr[-300:]}"
        return None


def report_of(file):
    """The report or the program that most likely changes, by the file of a wrong body."""
    name = os.path.basename(file).removesuffix(".rt")
    if file.split("/")[0] in PROGRAMS:
        return PROGRAMS[file.split("/")[0]]
    return "html" if file.startswith("markdown_html/") or name == "html" else REPORTS.get(name)


def chosen(found, words):
    if words[:1] == ["--third"]:
        found, words = found[int(words[1])::3], words[2:]
    return [it for it in found if all(word in f"{it.file} {it.comment}" for word in words)]


def main():
    found = read("scripts/mutants.txt")
    if len(found) < LEAST:
        sys.exit(f"mutants: {len(found)} wrong bodies, and not {LEAST} at least")
    tried = chosen(found, sys.argv[1:])
    with tempfile.TemporaryDirectory() as work, tempfile.TemporaryDirectory() as folder:
        tests = Tests(built(work, found), folder)
        if why := tests.refused_by(0):
            sys.exit(f"mutants: the bodies as they are: {why}")

        def outcome(it):
            why = tests.refused_by(it.number, report_of(it.file))
            if not why:
                print(f"{it.file}: {it.comment}: no test refuses it", flush=True)
            return bool(why)

        with ThreadPoolExecutor(2) as pool:
            refused = sum(pool.map(outcome, tried))
    print(f"mutants: {refused} of {len(tried)} refused")
    sys.exit(refused * 100 < LEAST_SCORE * len(tried))


if __name__ == "__main__":
    main()
