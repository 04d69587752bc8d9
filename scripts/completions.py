#!/usr/bin/env python3
"""completions.py bash|zsh|fish: prints the completions of `hoxalgurre` for a shell, from the help of its commands.

It takes the program that `rt ci` has built, or that of the folder PROGRAMS, where that is set."""
import re
import sys
from collections import namedtuple

sys.dont_write_bytecode = True
from man import help_of

# A letter and a word, each without dashes; the name of its value; the values that it has, where they are listed.
Option = namedtuple("Option", "letter word value values about")
HEAD = "# Made by scripts/completions.py from the help of the program."


def commands():
    """Each command with what it does."""
    part = next(part for part in help_of() if part[0] == "Commands:")
    rows = [re.fullmatch(r"\s+(\w+)\s{2,}(.*)", line) for line in part[1:]]
    return [(row[1], row[2]) for row in rows if row[1] != "help"]


def options(*command):
    """The options of a command, or of none."""
    found = []
    for line in next(part for part in help_of(*command) if part[0] == "Options:")[1:]:
        row = re.fullmatch(r"\s+(?:-(\w), )?--([\w-]+)(?: <(\w+)>)?\s{2,}(.*)", line)
        values = re.search(r" \[possible values: (.*?)\]", row[4])
        about = re.sub(r" \[.*", "", row[4]).replace("`", "")
        found.append(Option(row[1], row[2], row[3], values[1].split(", ") if values else [], about))
    return found


def spelled(option):
    return [*([f"-{option.letter}"] if option.letter else []), f"--{option.word}"]


def bash():
    """One function: values of the option before, else options, commands or files."""
    valued = {option.word: option for name, _ in commands() for option in options(name) if option.value}.values()
    lines = [HEAD, "_hoxalgurre() {", "    local current=${COMP_WORDS[COMP_CWORD]} command= word words=",
             '    for word in "${COMP_WORDS[@]:1:COMP_CWORD-1}"; do',
             "        case $word in " + "|".join(name for name, _ in commands()) + ") command=$word; break ;; esac",
             "    done", "    case ${COMP_WORDS[COMP_CWORD-1]} in"]
    for option in valued:
        lines.append(f"    {'|'.join(spelled(option))})")
        lines.append(f"        COMPREPLY=($(compgen -W '{' '.join(option.values)}' -- \"$current\")); return ;;")
    lines += ["    esac", "    case $command in"]
    lines.append("    '') words='" + " ".join([name for name, _ in commands()] + words_of(options())) + "' ;;")
    lines += [f"    {name}) words='{' '.join(words_of(options(name)))}' ;;" for name, _ in commands()]
    lines += ["    esac", '    if [[ -z $command || $current == -* ]]; then',
              '        COMPREPLY=($(compgen -W "$words" -- "$current"))', "    else",
              '        COMPREPLY=($(compgen -f -- "$current"))', "    fi", "}",
              "complete -o filenames -F _hoxalgurre hoxalgurre"]
    return lines


def words_of(found):
    return [f"--{option.word}" for option in found]


def zsh():
    """One function: commands first, then what `_arguments` makes of the options of one."""
    lines = ["#compdef hoxalgurre", HEAD, "_hoxalgurre() {", "    if (( CURRENT == 2 )); then", "        local -a commands=("]
    lines += [f"            '{name}:{about}'" for name, about in commands()]
    lines += ["        )", "        _describe command commands", "        _arguments " + " ".join(map(argument, options())),
              "        return", "    fi", "    local command=$words[2]", "    shift words", "    (( CURRENT-- ))",
              "    case $command in"]
    for name, _ in commands():
        arguments = [*map(argument, options(name)), "'*:file:_files'"]
        lines.append(f"    {name})")
        lines.append("        _arguments " + " \\\n            ".join(arguments) + " ;;")
    return [*lines, "    esac", "}", '_hoxalgurre "$@"']


def argument(option):
    """An option as `_arguments` wants it."""
    names = spelled(option)
    about = re.sub(r"([\[\]:])", r"\\\1", option.about)
    value = f":{option.value}:({' '.join(option.values)})" if option.value else ""
    if len(names) == 1:
        return f"'{names[0]}[{about}]{value}'"
    return f"'({' '.join(names)})'{{{','.join(names)}}}'[{about}]{value}'"


def fish():
    lines = [HEAD]
    for name, about in commands():
        lines.append(f"complete -c hoxalgurre -n __fish_use_subcommand -f -a {name} -d '{about}'")
    for option in options():
        lines.append(f"complete -c hoxalgurre -n __fish_use_subcommand {flags(option)}")
    for name, _ in commands():
        for option in options(name):
            lines.append(f"complete -c hoxalgurre -n '__fish_seen_subcommand_from {name}' {flags(option)}")
    return lines


def flags(option):
    words = [f"-s {option.letter}"] if option.letter else []
    words.append(f"-l {option.word}")
    if option.value:
        words.append(f"-x -a '{' '.join(option.values)}'")
    return " ".join([*words, f"-d '{option.about}'"])


def main():
    shells = {"bash": bash, "zsh": zsh, "fish": fish}
    if len(sys.argv) != 2 or sys.argv[1] not in shells:
        sys.exit("usage: completions.py bash|zsh|fish")
    print("\n".join(shells[sys.argv[1]]()))


if __name__ == "__main__":
    main()
