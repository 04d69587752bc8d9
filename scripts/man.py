#!/usr/bin/env python3
"""man.py [--check]: writes the manual page docs/hoxalgurre.1 from what `hoxalgurre --help` prints, the help of each of its
commands, and what the examples print. With --check the page is compared and not written.

It takes the program that `rt ci` has built, or that of the folder PROGRAMS, where that is set."""
import os, re, subprocess, sys

TOP = os.path.join(os.path.dirname(os.path.abspath(__file__)), "..")
PAGE = os.path.join(TOP, "docs/hoxalgurre.1")
PROGRAM = os.path.join(os.environ.get("PROGRAMS", os.path.join(TOP, "crates/hoxalgurre/out")), "hoxalgurre")

# What an example is for, and its command.
EXAMPLES = [
    ("A table of contents, each heading with the bytes of its section:",
     r"printf '# a\n\n## b\nc\n' | hoxalgurre headings"),
    ("The same as links in Markdown:",
     r"printf '# a\n\n## b\nc\n' | hoxalgurre headings --toc"),
    ("What is wrong with labels, with status 1 where something is:",
     r"printf '[a]: /b\n\n[c][d]\n' | hoxalgurre labels"),
    ("The links of a text, and which lead to no heading:",
     r"printf '# A title\n\n[b](#a-title) [c](#d)\n' | hoxalgurre links"),
    ("The blocks of CommonMark, with what is in their texts:",
     r"printf '# *a*\n' | hoxalgurre outline --inlines -c commonmark"),
]


def help_of(*words):
    """The paragraphs of a help text."""
    said = subprocess.run([PROGRAM, *words, "--help"], capture_output=True, text=True, check=True, timeout=60).stdout
    return [part.split("\n") for part in re.split(r"\n\n+", said.strip("\n"))]


def printed(command):
    """What a command prints."""
    words = ["bash", "-c", f'hoxalgurre() {{ "$PROGRAM" "$@"; }}; {command}']
    environment = {**os.environ, "PROGRAM": PROGRAM}
    return subprocess.run(words, capture_output=True, text=True, timeout=60, env=environment).stdout


def escaped(text):
    return re.sub(r"^([.'])", r"\\&\1", text.replace("\\", "\\e").replace("-", "\\-").replace("`", ""), flags=re.M)


def listed(part):
    """The lines after a head as a list: what is shown in bold, and what it means."""
    rows = (re.fullmatch(r"\s+(\S.*?)(?:\s{2,}(.*))?", line) for line in part[1:])
    return "".join(f".TP\n.B {escaped(row[1])}\n{escaped(row[2] or '')}\n" for row in rows)


def page():
    parts = help_of()
    about = parts[0][0]
    version = subprocess.run([PROGRAM, "--version"], capture_output=True, text=True, check=True).stdout.split()[1]
    made = f'.\\" Made by scripts/man.py from the help of the program.\n.TH HOXALGURRE 1 "" "hoxalgurre {version}"\n'
    made += f".SH NAME\nhoxalgurre \\- {escaped(about[0].lower() + about[1:].rstrip('.'))}\n"
    made += ".SH SYNOPSIS\n.B hoxalgurre\n.I COMMAND\n[\\fIOPTION\\fR]... [\\fIFILE\\fR]...\n"
    rest, commands = "", []
    for part in parts[1:]:
        if part[0] == "Commands:":
            commands = [line.split()[0] for line in part[1:] if line.split()[0] != "help"]
            made += ".SH COMMANDS\n" + listed(part)
        elif part[0] == "Options:":
            made += ".SH OPTIONS\n" + listed(part)
        elif not part[0].startswith("Usage:"):
            rest += ".PP\n" + escaped("\n".join(part)) + "\n"
    helps = {name: {part[0]: part for part in help_of(name)[1:]} for name in commands}
    shared = [part["Arguments:"] for part in helps.values()]
    if any(part != shared[0] for part in shared):
        sys.exit("man: the commands do not have the same arguments")
    options = {name: part["Options:"] for name, part in helps.items()}
    is_shared = lambda line: all(words_of(line) in map(words_of, part) for part in options.values())
    made += ".SS Of each command\n" + listed(shared[0]) + listed([line for line in options[commands[0]] if is_shared(line)])
    for name in commands:
        own = [line for line in options[name] if not is_shared(line)]
        made += f".SS Options of {name}\n" + listed(["", *own]) if own else ""
    made += ".SH NOTES\n" + rest
    for name, parts in helps.items():
        for head, part in parts.items():
            if head not in ("Options:", "Arguments:") and not head.startswith("Usage:"):
                made += f".SS Of {name}\n" + escaped("\n".join(part)) + "\n"
    made += ".SH EXAMPLES\n"
    for about, command in EXAMPLES:
        made += f".PP\n{escaped(about)}\n.PP\n.nf\n{escaped(f'$ {command}')}\n{escaped(printed(command))}.fi\n"
    return made


def words_of(line):
    """A line of a help text, however wide its columns are."""
    return line.split()


def main():
    if not os.path.isfile(PROGRAM):
        sys.exit(f"man: {PROGRAM} is not built")
    wanted = page()
    if sys.argv[1:] == ["--check"]:
        if open(PAGE, encoding="utf-8").read() != wanted:
            sys.exit("man: docs/hoxalgurre.1 is not what the help and the examples say; run scripts/man.py")
        print("man: 1 passed, 0 failed")
    elif sys.argv[1:]:
        sys.exit("usage: man.py [--check]")
    else:
        open(PAGE, "w", encoding="utf-8").write(wanted)


if __name__ == "__main__":
    main()
