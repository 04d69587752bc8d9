#!/usr/bin/env python3
"""bindings.py [--check]: writes the names of examples/rust (src/names.rs) and examples/python (src/hoxalgurre/_names.py)
from include/hoxalgurre.h: the constructs with their sets, the names of events, and the words of the outline. With --check
the files are compared and not written."""
import os
import re
import sys

os.chdir(os.path.join(os.path.dirname(os.path.abspath(__file__)), ".."))
HEADER = open("include/hoxalgurre.h", encoding="utf-8").read()
MADE = "Made by scripts/bindings.py from include/hoxalgurre.h."


def enum(kind):
    """The members of an enum, each with its number."""
    body = re.search(rf"^enum hoxalgurre_{kind} \{{\n(.*?)^\}};", HEADER, re.M | re.S)[1]
    found = re.findall(rf"HOXALGURRE_{kind.upper()}_(\w+) = (\d+)", body)
    if [int(number) for _, number in found] != list(range(len(found))):
        sys.exit(f"bindings: the numbers of enum hoxalgurre_{kind} are not 0, 1, ..")
    return [name for name, _ in found if name != "COUNT"]


def constructs():
    """The constructs, each with its comment and its bit."""
    found = re.findall(r"^/\* (.*) \*/\n#define HOXALGURRE_CONSTRUCT_(\w+) \(UINT64_C\(1\) << (\d+)\)$", HEADER, re.M)
    return [(name, about, 1 << int(bit)) for about, name, bit in found]


def sets():
    """The sets of constructs of blocks, each with that of texts that goes with it: the last one where there is none."""
    listed = re.findall(r"^#define HOXALGURRE_(\w+) UINT64_C\((0x\w+)\)$", HEADER, re.M)
    found = {name: int(bits, 16) for name, bits in listed}
    made, inlines = [], 0
    for name, bits in found.items():
        if not name.endswith("_INLINES"):
            inlines = found.get(f"{name}_INLINES", inlines)
            made.append((name, bits | inlines))
    return made, sum({bit for _, _, bit in constructs() if bit & inlines})


def camel(name):
    return "".join(word.capitalize() for word in name.lower().split("_"))


def rust_enum(name, about, members, kind):
    lines = [f"/// {about}", "#[derive(Clone, Copy, Debug, PartialEq, Eq, Hash, PartialOrd, Ord)]", "#[non_exhaustive]",
             f"#[repr({kind})]", "#[rustfmt::skip]", f"pub enum {name} {{"]
    lines += [f"    {camel(member)} = {number}," for number, member in enumerate(members)]
    lines += ["}", "", f"impl {name} {{", "    /// All of them, by their numbers.", "    #[rustfmt::skip]",
              f"    pub const ALL: [{name}; {len(members)}] = ["]
    lines += [f"        {name}::{camel(member)}," for member in members]
    return [*lines, "    ];", "}", ""]


def rust():
    lines = [f"// {MADE}", "#![allow(missing_docs)]", "//! Constructs, the names of events, and the words of an outline.", "",
             "use crate::{Constructs, Options};", "", "impl Constructs {"]
    for name, about, bit in constructs():
        lines += [f"    /// {about}", f"    pub const {name}: Constructs = Constructs({bit:#x});"]
    made, inlines = sets()
    lines += ["    /// All constructs of texts: what is in a line.",
              f"    pub const INLINES: Constructs = Constructs({inlines:#x});", "}", "", "impl Options {"]
    for name, bits in made:
        lines += [f"    /// The set `{name.lower()}`, with what it has in texts.",
                  f"    pub const {name}: Options = Options::of(Constructs({bits:#x}));"]
    lines += ["}", ""]
    about = "The names of events: `docs/events.md` says which ones blocks have."
    lines += rust_enum("Name", about, enum("name"), "u16")
    lines += rust_enum("Word", "What a line of an outline is.", enum("word"), "u16")
    lines += rust_enum("Alert", "The kinds of alerts.", enum("alert"), "usize")
    return "\n".join(lines[:-1]) + "\n"


def python():
    lines = [f'"""Constructs, the names of events, and the words of an outline.\n\n{MADE}"""', "import enum", "", "",
             "class Constructs(enum.IntFlag):", '    """Which constructs are on, as bits."""', ""]
    for name, about, bit in constructs():
        lines += [f"    {name} = {bit:#x}", f'    """{about}"""']
    made, inlines = sets()
    lines += ["", "", "# The sets of constructs, each with what it has in texts.", "SETS: dict[str, Constructs] = {"]
    lines += [f'    "{name.lower()}": Constructs({bits:#x}),' for name, bits in made]
    lines += ["}", "", "# All constructs of texts: what is in a line.", f"INLINES = Constructs({inlines:#x})"]
    lines += ["", "# The names of events, by their numbers.", "NAMES: tuple[str, ...] = ("]
    lines += [f'    "{camel(name)}",' for name in enum("name")]
    lines += [")", "", "# The words of the lines of an outline, by their numbers.", "WORDS: tuple[str, ...] = ("]
    lines += [f'    "{name.lower()}",' for name in enum("word")]
    lines += [")", "", "# The kinds of alerts, by their numbers.", "ALERTS: tuple[str, ...] = ("]
    lines += [f'    "{name.lower()}",' for name in enum("alert")]
    return "\n".join([*lines, ")"]) + "\n"


def main():
    if sys.argv[1:] not in ([], ["--check"]):
        sys.exit("usage: bindings.py [--check]")
    for path, text in (("examples/rust/src/names.rs", rust()), ("examples/python/src/hoxalgurre/_names.py", python())):
        if sys.argv[1:]:
            if open(path, encoding="utf-8").read() != text:
                sys.exit(f"bindings: {path} is not what the header says; run scripts/bindings.py")
        else:
            with open(path, "w", encoding="utf-8") as file:
                file.write(text)
    print("bindings: 2 passed, 0 failed")


if __name__ == "__main__":
    main()
