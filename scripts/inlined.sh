#!/usr/bin/env bash
# No function that is marked `#[inline(always)]` is out of line in a built program (`rt ci` or `rt run` builds them:
# `out`; where PROGRAMS is set, they are in that folder). Such a function is on the way of each line or each event,
# where a call costs more than what it does.
#
# The symbols of a program are the functions that its compiler left out of line: each of a crate of the repository is
# looked for in the sources by its path, as `md_events::names::is_block`, and refused where it has the mark. One that
# is not found there is refused too, so that a mark is not missed because a path is spelled in another way; closures and
# derived functions, which no line of the sources names, have none. ALONE has those that are known to be out of line,
# and a line of it that is no longer true is refused.
set -euo pipefail
cd "$(dirname "$0")/.."
kit=$(dirname "$(rt doc)")
python3 - "$kit/toolchain/bin/clang" <<'PYTHON'
import os, re, subprocess, sys
from pathlib import Path

CLANG = sys.argv[1]
FOLDER = os.environ.get("PROGRAMS")
NAMES = ["blocks", "events", "hoxalgurre"]
# Those that the compiler leaves out of line although they are marked, with the programs where it does: the two largest,
# in which most others are in line. They are called once a line, and once a state.
ALONE = {
    "md_at_once::at_once::containers": NAMES,
    "md_at_once::table::FlowTableTable::call": NAMES,
}

IMPL = re.compile(r"(?:unsafe )?impl(?:<[^{]*?>)? (.*?)(?: where .*)?\{?$")
TYPE = re.compile(r"^(?:pub(?:\([a-z]+\))? )?(?:struct|enum) (\w+)", re.MULTILINE)
DERIVED = re.compile(
    r"^#\[derive\(([\w, ]*)\)\]\n(?:#\[.*\]\n)*(?:pub(?:\([a-z]+\))? )?(?:struct|enum) (\w+)", re.MULTILINE
)
TRAIT = re.compile(r"(?:pub(?:\([a-z]+\))? )?trait (\w+)")
FUNCTION = re.compile(r"( *)(?:pub(?:\([a-z]+\))? )?(?:const )?(?:unsafe )?(?:extern \"C\" )?fn (\w+)")


def base(words):
    """The name of a type or a trait without its module and its parameters."""
    return re.sub(r"<.*", "", words.strip().lstrip("&")).split("::")[-1].strip(" {")


def home(name, modules, text, types):
    """The module of a type: one around the file, or one that it is taken from by a line `use`."""
    outer = [modules[:end] for end in range(len(modules), 0, -1)]
    taken = re.findall(rf"^use crate::([\w:]+)::(?:\{{.*)?\b{name}\b", text, re.MULTILINE)
    outer += [(modules[0], *it.split("::")) for it in taken]
    return next((it for it in outer if (*it, name) in types), modules)


def owner(line, modules, text, types):
    """The path of what the functions within an item belong to: a type, a type as a trait (`FlowTableTable`), or a
    trait."""
    found = IMPL.match(line)
    if found:
        trait, is_of_trait, its_type = found[1].partition(" for ")
        if is_of_trait:
            return [*modules, base(its_type) + base(trait)]
        return [*home(base(trait), modules, text, types), base(trait)]
    found = TRAIT.match(line)
    return [*modules, found[1]] if found else None


def functions(modules, text, types):
    """Each function of a file by its path in a program, and whether it is marked."""
    within, is_marked = None, False
    for line in text.split("\n"):
        if line and not line[0].isspace():
            within = owner(line, modules, text, types) or (within if line[0] in "#/" else None)
        is_marked = is_marked or line.strip() == "#[inline(always)]"
        found = FUNCTION.match(line)
        if found:
            yield "::".join([*(within if found[1] and within else modules), found[2]]), is_marked
            is_marked = False


def read_marks():
    """The functions of all crates, each with whether it is marked; and each type with a trait derived for it."""
    texts = {}
    for path in sorted(Path("crates").glob("*/src/**/*.rt")):
        inside = path.relative_to(f"crates/{path.parts[1]}/src").with_suffix("").parts
        modules = (path.parts[1], *(inside if inside[-1] not in ("lib", "main") else inside[:-1]))
        texts[modules] = path.read_text(encoding="utf-8")
    types = {(*modules, name) for modules, text in texts.items() for name in TYPE.findall(text)}
    derived = {
        "::".join([*modules, name + trait])
        for modules, text in texts.items()
        for traits, name in DERIVED.findall(text)
        for trait in traits.split(", ")
    }
    return {name: mark for modules, text in texts.items() for name, mark in functions(modules, text, types)}, derived


def symbols(program):
    """The functions that are out of line in a program, without their type parameters. A symbol with `++` is of an item
    of another library, of which a crate has an instance; one with `fn` in its path is of a closure."""
    words = ["llvm-nm", "--defined-only", "--format=just-symbols", program]
    ran = subprocess.run(words, executable=CLANG, capture_output=True, text=True, check=True)
    return {re.sub(r"::<.*|\+.*|\{.*", "", it) for it in ran.stdout.split("\n") if "++" not in it and "::fn::" not in it}


def main():
    marks, derived = read_marks()
    crates = {path.name for path in Path("crates").iterdir()}
    failed = False
    for name in NAMES:
        program = f"{FOLDER}/{name}" if FOLDER else f"crates/{name}/out/{name}"
        ours = {it for it in symbols(program) if it.split("::")[0] in crates and "::" in it}
        ours = {it for it in ours if it.rpartition("::")[0] not in derived}
        known = {it for it, programs in ALONE.items() if name in programs}
        said = [f"is marked, and is out of line: {it}" for it in sorted(ours) if marks.get(it) and it not in known]
        said += [f"is not found in the sources: {it}" for it in sorted(ours - marks.keys())]
        said += [f"is in line by now, so it leaves the list: {it}" for it in sorted(known - ours)]
        if not ours:
            said.append("has no symbol of the crates")
        for line in said:
            print(f"{name}: {line}")
        failed = failed or bool(said)
    print(f"{sum(marks.values())} functions are marked; {', '.join(NAMES)}: {'refused' if failed else 'as they should be'}")
    return 1 if failed else 0


sys.exit(main())
PYTHON
