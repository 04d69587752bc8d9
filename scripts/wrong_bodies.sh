#!/usr/bin/env bash
# Tries wrong bodies without proof, each of which must change a row: those that no contract can refuse, or that one may
# let through, and those of promises that no must-fail edit tries.
#
# Each file of scripts/wrong-bodies has lines `file:`, `old:` (once in that file) and `new:`. All are applied to one
# copy of the crates, where a body is wrong only for its number: `is_wrong()` in a `new:` line asks that of the
# constructs, or of the walk over the cells of a table, which have a field for it in the copy, or in `md_program` of the
# program's name. The copy of `test_bench` then tries the rows with the number of its argument, and 0 is for the bodies
# as they are; of the parser also the rows of events, as the program `events` prints them and by `examples_layer`, those
# of texts in containers, and some parts. Where no options are at hand, `mutant::is_wrong()` asks for the number, by a
# function in C that the copy alone has. An edit of a crate of the inline definition changes what `plain_inlines` prints
# of the rows of that definition, and of some further texts. The program also prints the status of a run with an
# argument that is none. An edit of a crate of the plain program changes that body, each other the parser. One with the
# line `# bench` is tried with each construct off too, by its events, and on long labels, and something must be wrong.
#
# So are wrong bodies that follow from a list, and not from files: the first state of each construct, which answers
# `Nok` at once, and `pass`, which changes nothing at once. A row changes by each, so a parse goes through these
# functions.
set -euo pipefail
cd "$(dirname "$0")/.."
work=$(mktemp -d)
trap 'rm -rf "$work"' EXIT
mkdir -p "$work/crates/mutant/src" "$work/crates/mutant/c" "$work/cases"
cp crates.txt HANDLES "$work/"
tar -C crates --exclude=out -cf - . | tar -C "$work/crates" -xf -
python3 - "$work" scripts/wrong-bodies/*.edit <<'PYTHON'
import os, re, shutil, sys

sys.path.insert(0, "scripts")
sys.dont_write_bytecode = True
from first_states import FIRST, begun
from plain_inlines import GIVEN, is_utf8, rows as inline_rows

work, *edits = sys.argv[1:]
if len(edits) + len(FIRST) >= 256:
    sys.exit("too many wrong bodies for one program")


def replaced(name, old, new, why):
    text = open(f"{work}/{name}").read()
    if text.count(old) != 1:
        sys.exit(f"{why}: `{old}` is {text.count(old)} times in {name}")
    open(f"{work}/{name}", "w").write(text.replace(old, new))


BODY_OF = {"reference_tree": "Plain"} | dict.fromkeys(("md_inlines", "reference_inlines", "plain_inlines"), "Inlines")
bodies = [(0, "Blocks"), (0, "Plain"), (0, "Inlines")]
by_bench = set()
numbered = {"test_bench"}
for number, edit in enumerate(edits, 1):
    lines = [line.rstrip("\n").split(": ", 1) for line in open(edit) if line.strip() and not line.startswith("#")]
    if "# bench\n" in open(edit):
        by_bench.add(number)
    tells = False
    while lines:
        (_, name), (_, old), (_, new) = lines[:3]
        lines = lines[3:]
        tells = tells or "is_wrong()" in new
        if "mutant::" in new:
            numbered.add(name.split("/")[1])
        asked = f'(name == "Blocks{number}")' if "/md_program/" in name else f"is_wrong({number})"
        replaced(name, old, new.replace("is_wrong()", asked), edit)
    if not tells:
        sys.exit(f"{edit}: no `new:` asks is_wrong()")
    bodies.append((number, BODY_OF.get(name.split("/")[1], "Blocks")))

# what follows from the list
for number, state in enumerate(FIRST, len(edits) + 1):
    path = f"{work}/crates/{state.file}"
    text = begun(open(path, encoding="utf-8").read(), state, f"tokenizer.options.constructs.is_wrong({number})")
    open(path, "w", encoding="utf-8").write(text)
    bodies.append((number, "Blocks"))

# the program `plain_inlines` as a library, and the texts that it is tried on, each after its set
inlines = f"{work}/crates/plain_inlines/src"
text = open(f"{inlines}/main.rt").read().partition("\nfn main(")[0] + "\n"
os.remove(f"{inlines}/main.rt")
open(f"{inlines}/lib.rt", "w").write(text)
texts = [(GIVEN[reading][0][0], text.decode(), GIVEN[reading][1])
         for _, reading, text, _ in inline_rows() if is_utf8(text)]
texts += [("all", text, ["=" + "a" * 1000]) for text in (
    "[" + "a" * 1000 + "]", "<a@" + "b" * 64 + ".c>", "\\a", "`a``b", "&#00000065;", "<a:b>", "[a](<b>'c')",
    "<a b='c'd='e'>", "a@b.c_", "www.a.b/(c)", "a_b_c", "a  b", "a*b**", "[[a](b)](c)")]
texts.append(("all", "[x]", ["-"]))
if any("\x04" in text for _, text, _ in texts):
    sys.exit("the byte that ends a text is in one")
given = "\x04".join("\n".join([set_of, text, "", *lines, ""]) for set_of, text, lines in texts)

# the number of the run
listed = re.sub(rf"^({'|'.join(numbered)})(:| .*:)", r"\g<0> mutant", open(f"{work}/crates.txt").read(), flags=re.M)
listed = re.sub(r"^test_bench:", r"\g<0> plain_inlines", listed, flags=re.M)
for name, text in (
    ("crates.txt", listed + "\nmutant:\n"),
    ("crates/mutant/src/lib.rt", """#![tactic(auto)]
unsafe extern "C" { safe fn mutant_number() -> u32; safe fn mutant_set(number: u32); }
pub fn is_wrong(number: u32) -> bool { mutant_number() == number }
pub fn set(number: u32) { mutant_set(number) }
"""),
    ("crates/mutant/c/mutant.c", """#include <stdint.h>
static uint32_t number;
uint32_t mutant_number(void) { return number; }
void mutant_set(uint32_t given) { number = given; }
"""),
):
    open(f"{work}/{name}", "w").write(text)

# which body is wrong
options = "crates/md_engine/src/configuration.rt"
text = open(f"{work}/{options}").read()
text = text.replace("    pub mdx_jsx_text: bool,\n", "    pub mdx_jsx_text: bool,\n    pub wrong: u8,\n")
text = text.replace("        mdx_jsx_text: false,\n", "        mdx_jsx_text: false,\n        wrong: 0,\n")
text += "\nimpl Constructs {\n    pub fn is_wrong(&self, number: u8) -> bool {\n        self.wrong == number\n    }\n}\n"
open(f"{work}/{options}", "w").write(text)
kept = "let wrong = options.constructs.wrong; let mut options = Blocks::built(options); options.constructs.wrong = wrong;"
replaced("crates/printing/src/events.rt", "let options = Blocks::built(options);", kept, "events")

# the walk over the cells of a table has no constructs, so it gets the number from the resolver
pass_of, tables, cells = "md_resolve/src/pass.rt", "md_tables/src/tables.rt", "md_tables/src/cells.rt"
for name, old, new in [
    ("md_order/src/wanted.rt", "pub tables: bool,", "pub tables: bool, pub wrong: u8,"),
    ("md_order/src/wanted.rt", "tables: false,", "tables: false, wrong: 0,"),
    (pass_of, "= wanted_of(names);", "= Wanted { wrong: tokenizer.options.constructs.wrong, ..wanted_of(names) };"),
    (pass_of, "self.table(alloc)", "self.table(alloc, wanted.wrong)"),
    (pass_of, "fn table(&mut self, alloc: Global)", "fn table(&mut self, alloc: Global, wrong: u8)"),
    (pass_of, "put_tables(&left[..many],", "put_tables(wrong, &left[..many],"),
    (tables, "pub fn put_tables(events:", "pub fn put_tables(wrong: u8, events:"),
    (tables, "stage: Stage::Outside,", "stage: Stage::Outside, wrong,"),
    (cells, "pub(crate) stage: Stage,", "pub(crate) stage: Stage, pub(crate) wrong: u8,"),
    (cells, "impl Walk {", "impl Walk { pub(crate) fn is_wrong(&self, number: u8) -> bool { self.wrong == number }"),
]:
    replaced(f"crates/{name}", old, new, "tables")

# a body a number
main = """#![tactic(auto)]
ghost use Rattle.std.specs.Prelude.{Unit};
use printing::blocks::Blocks;
use printing::events::Events;
use printing::print::print;
use markdown_blocks::outline::outline_part;
use markdown_blocks::parser::{parse, parse_with};
use examples_layer::References;
use test_rows::runner::event_rows::wanted;
use test_rows::runner::events::add_events;
use test_rows::runner::long::try_labels;
use test_rows::runner::report::Report;
use printing::printed::PartByPart;
use test_rows::runner::rows::{options_of, try_rows};
use test_rows::runner::texts::repeated;
use test_rows::runner::without::try_without;
use test_rows::runner::wraps::try_wraps;
use test_rows::case::CaseError;
use test_rows::event_case::EventCase;
use md_engine::configuration::{Constructs, ParseOptions};
use md_engine::event::{Event, Point};
use md_engine::message::Message;
use md_engine::resolve::Name as ResolveName;
use md_engine::tokenizer::Tokenizer;
use md_program::body::{Body, Outlined};
use md_program::printing::{OutlineOf, Printing};
use md_program::run::run;
use reference_tree::plain::Plain;
use plain_inlines::Inlines;
use std::alloc::Global;
use std::io::Read;
use std::{env, io};

/// Prints what `plain_inlines` prints of the texts on the standard input.
fn print_inlines(rt: &HostRuntime) -> io::Result<()> {
    let mut bytes = Vec::new(rt.alloc());
    let _count = rt.stdin().read_to_end(&mut bytes)?;
    for row in str::from_utf8(bytes.as_slice()).unwrap_or("").split('\\u{4}') {
        let (set, text) = row.split_once('\\n').unwrap_or(("", row));
        let constructs = if set == "all" { Constructs::ALL } else { Constructs::COMMONMARK };
        match Inlines::output(rt.alloc(), text, options_of(&constructs)) {
            Ok(printed) => print!(rt; "{}\\u{4}", str::from_utf8(&printed).unwrap_or(""))?,
            Err(_) => print!(rt; "out of memory\\u{4}")?,
        }
    }
    Ok(())
}

/// Tries a body on rows, on their texts with each construct off, and on long labels.
fn try_bench<B: Body>(alloc: Global, rows: &str, report: &mut Report) -> Result<(), CaseError> {
    try_rows::<B>(alloc, rows, report)?;
    try_without::<B>(alloc, rows, report)?;
    try_labels::<B>(alloc, report)
}

/// What was printed.
fn shown(bytes: &[u8]) -> &str {
    str::from_utf8(bytes).unwrap_or("")
}

/// Tries what is printed of the events of a body on the rows of events, with their layers.
fn try_events<B: Body>(alloc: Global, report: &mut Report) -> Result<(), CaseError> {
    for row in test_rows::events::rows().split("\\n\\n") {
        let case = EventCase::read(alloc, row)?;
        let options = B::built(options_of(&case.constructs));
        let text = case.text.as_str();
        let wanted = wanted(alloc, &case)?;
        if case.marks_references {
            let (marked, _state) = parse_with(alloc, &References, text, &options).or(Err(CaseError::Memory))?;
            let got = print(alloc, &marked).or(Err(CaseError::Memory))?;
            report.add(case.section, text, wanted.as_str(), got.as_str())?;
        } else {
            let got = Events::output(alloc, text, options).or(Err(CaseError::Memory))?;
            report.add(case.section, text, wanted.as_str(), shown(&got))?;
        }
    }
    Ok(())
}

/// Tries what is printed of the events, and then the others, which count only where they are wrong.
fn try_blocks<B: Body>(alloc: Global, report: &mut Report) -> Result<(), CaseError> {
    try_events::<B>(alloc, report)?;
    let mut others = Report::new(alloc);
    try_others(alloc, &mut others)?;
    report.wrong += others.wrong;
    Ok(())
}

/// How many lines the parts of the outline of a text have, each of which ends as soon as it may.
fn parts(alloc: Global, text: &str) -> Result<String, Message> {
    let (events, state) = parse(alloc, text, &ParseOptions::COMMONMARK)?;
    let mut counts = String::new(alloc);
    let mut rest = events.as_slice();
    for _part in 0..10 {
        if rest.is_empty() {
            break;
        }
        let part = outline_part(alloc, rest, &state)?;
        write!(counts, "{} ", part.lines.len())?;
        rest = rest.split_at(part.events).1;
    }
    Ok(counts)
}

/// Tries what no row of a body has: texts in containers, parts of outlines, and outlines by parts.
fn try_others(alloc: Global, report: &mut Report) -> Result<(), CaseError> {
    let text = "[a]: b\\n\\n> c\\n\\n[^d]: e\\n";
    let wanted = OutlineOf::<Blocks>::output(alloc, text, ParseOptions::GFM).or(Err(CaseError::Memory))?;
    let got = PartByPart::output(alloc, text, ParseOptions::GFM).or(Err(CaseError::Memory))?;
    report.add("an outline by parts", text, shown(&wanted), shown(&got))?;
    // What is known of the item may not be taken for known of the quote.
    let text = "- a\\n\\nb\\n\\n> ```\\n\\nc\\n";
    let wanted = OutlineOf::<Plain>::output(alloc, text, ParseOptions::GFM).or(Err(CaseError::Memory))?;
    let got = OutlineOf::<Blocks>::output(alloc, text, ParseOptions::GFM).or(Err(CaseError::Memory))?;
    report.add("containers at an empty line", text, shown(&wanted), shown(&got))?;
    let first = Point { line: 1, column: 1, index: 0, vs: 0 };
    let mut tokenizer = Tokenizer::new(alloc, first, &[], &ParseOptions::GFM);
    for name in [ResolveName::ListItem, ResolveName::GfmTable] {
        tokenizer.register_resolver(name).or(Err(CaseError::Memory))?;
    }
    let in_order = matches!(tokenizer.resolvers.as_slice(), [ResolveName::ListItem, ResolveName::GfmTable]);
    report.add("resolvers", "", "in order", if in_order { "in order" } else { "in another" })?;
    let text = "[a]: /b 'x\\n  y'\\n";
    let (events, _state) = parse_with(alloc, &References, text, &ParseOptions::GFM).or(Err(CaseError::Memory))?;
    add_events(alloc, text, events.as_slice(), report)?;
    for (line, wanted) in [("***\\n", "683 683 634 "), ("- a\\n", "6001 ")] {
        let text = repeated(alloc, line, 2_000)?;
        let got = parts(alloc, text.as_str()).or(Err(CaseError::Memory))?;
        report.add("parts of an outline", line, wanted, got.as_str())?;
    }
    try_wraps(alloc, test_rows::wraps::rows(), report)
}
"""
arms = lists = numbers = ""
for number, body in bodies:
    case = f"{body}{number}"
    numbers += f'            "{case}" => {number},\n'
    open(f"{work}/cases/{case}", "w", encoding="utf-8").write(given if body == "Inlines" else "")
    if body == "Inlines":
        continue
    main += f"""
struct {body}{number};
impl Body for {body}{number} {{
    ghost accepts = {{ λ _. Unit {{0}} }};
    ghost outlines = {{ λ _ _ _. Unit {{0}} }};
    ghost built = {{ λ options. options }};
    fn built(options: ParseOptions) -> ParseOptions {{
        let all = {body}::built(ParseOptions {{ constructs: Constructs {{ wrong: {number}, ..options.constructs }} }});
        ParseOptions {{ constructs: Constructs {{ wrong: {number}, ..all.constructs }} }}
    }}
    fn outlined<'a>(alloc: Global, text: &'a str, options: &'a ParseOptions) -> Result<Outlined<'a>, Message> {{
        {body}::outlined(alloc, text, options)
    }}
    fn events(alloc: Global, text: &str, options: &ParseOptions) -> Result<Option<Vec<Event>>, Message> {{
        {body}::events(alloc, text, options)
    }}
}}
"""
    tries = "try_bench" if number in by_bench else "try_rows"
    arms += f'                "{case}" => {tries}::<{case}>(rt.alloc(), rows, &mut report).is_err(),\n'
    if body == "Blocks":
        lists += f'                "{case}" => try_blocks::<{case}>(rt.alloc(), &mut report).is_err(),\n'
main += f"""
fn main(rt: HostRuntime) -> io::Result<()> {{
    let mut args = Vec::new(rt.alloc());
    for arg in env::args(&rt)?.skip(1) {{
        args.push(arg)?;
    }}
    let mut report = Report::new(rt.alloc());
    let mut ran_out = false;
    for arg in &args {{
        mutant::set(match arg.as_str() {{
{numbers}            _ => 0,
        }});
        if arg.as_str().starts_with("Inlines") {{
            return print_inlines(&rt);
        }}
        for rows in test_rows::all() {{
            ran_out |= match arg.as_str() {{
{arms}                _ => true,
            }};
            // one row that changes is enough
            if report.wrong > 0 {{
                break;
            }}
        }}
        if report.wrong == 0 {{
            ran_out |= match arg.as_str() {{
{lists}                _ => false,
            }};
        }}
        let status = run::<OutlineOf<Blocks>, _, _, _>(
            rt.alloc(), arg.as_str(), &args, &mut rt.stdin(), &mut rt.stdout(), &mut rt.stderr());
        println!(rt; "status {{status}}")?;
    }}
    println!(rt; "{{}} tried, {{}} wrong{{}}", report.tried, report.wrong, if ran_out {{ ", memory ran out" }} else {{ "" }})
}}
"""
shutil.rmtree(f"{work}/crates/test_bench/src")
os.mkdir(f"{work}/crates/test_bench/src")
open(f"{work}/crates/test_bench/src/main.rt", "w").write(main)
PYTHON
python3 - "$work" scripts/wrong-bodies/*.edit <<'PYTHON'
import os, re, subprocess, sys
from concurrent.futures import ThreadPoolExecutor

sys.path.insert(0, "scripts")
sys.dont_write_bytecode = True
import counts
from first_states import FIRST
from plain_inlines import is_utf8, printed, rows as inline_rows
from unproved import build_for_tests

work, *edits = sys.argv[1:]
program = f"{work}/tried"
build_for_tests(f"{work}/crates/test_bench", program, f"{work}/crates/mutant/c/mutant.c")


def run(case):
    """What the program prints for a case, and how it ends."""
    with open(f"{work}/cases/{case}", "rb") as given:
        try:
            ran = subprocess.run([program, case], stdin=given, capture_output=True, cwd=work, timeout=300)
        except subprocess.TimeoutExpired:
            return "", "300 seconds"
    # A body may also stop at a fault.
    said = "0 tried, a fault" if ran.returncode else ran.stdout.decode(errors="replace").strip()
    return said, f"status {ran.returncode} {ran.stderr.decode(errors='replace')[-1000:]}"


cases = sorted(os.listdir(f"{work}/cases"))
with ThreadPoolExecutor(len(os.sched_getaffinity(0))) as pool:
    ran = dict(zip(cases, pool.map(run, cases)))
named = {case: (case.rstrip("0123456789"), int(re.search(r"\d+$", case)[0])) for case in cases}
said, ends = ({named[case]: it[at] for case, it in ran.items()} for at in (0, 1))
numbers = counts.counts()
rows = {"Plain": numbers["rows"], "Blocks": numbers["rows"] + numbers["event rows"]}
for body, many in rows.items():
    if said[body, 0] != f"status 2\n{many} tried, 0 wrong":
        sys.exit(f"wrong bodies: {body} as it is: {said[body, 0]}\n{ends[body, 0]}")
forests = [printed(forest, text)[0].decode() for _, _, text, forest in inline_rows() if is_utf8(text)]
if said["Inlines", 0].split("\x04")[:len(forests)] != forests:
    sys.exit(f"wrong bodies: the inline definition as it is: {said['Inlines', 0][:300]}\n{ends['Inlines', 0]}")
# A row that ends in want of memory, which none does, is wrong too.
WRONG = r"^\d+ tried, ([1-9]|0 wrong, memory ran out)"
failed = 0
states = [f"{state.file}: {state.function} answers {state.answer} at once" for state in FIRST]
for number, edit in enumerate(edits + states, 1):
    body, found = next(((it[0], said[it]) for it in said if it[1] == number), ("", "no result"))
    is_wrong = "" if body == "Inlines" and found else r"^\d+ tried, " if number <= len(edits) and "# bench\n" not in open(edit) else WRONG
    if not re.search(is_wrong, found, re.M) or found == said.get((body, 0)):
        print(f"{edit}: no row changes ({found})")
        failed += 1
failed += counts.wrong_count("wrong bodies", len(edits)) + counts.wrong_count("first states", len(FIRST))
print(f"wrong bodies: {len(edits) + len(FIRST) - failed} passed, {failed} failed")
sys.exit(failed != 0)
PYTHON
