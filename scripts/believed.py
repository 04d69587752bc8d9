#!/usr/bin/env python3
"""believed.py: counts what a reader has to believe of the contract of `parse`: the lines of all definitions that it
unfolds to, without imports and comments, and the files that they are in. It fails where there are more than the limits
below, or where one of these definitions names what belongs to the parser's run.

It counts the same of what calls of first states and of flow promise of the rest of a line (`line` of
`constructs::call`, `flow::start`, `document::flow_inside` and `document::containers_after`), with what is not among the
lines of `parse`; the same of what reading content makes of the lines of a text (`texts` of `read_texts`); of what the
first states of text promise of a line and of the lines of a text (`line` of `construct::content::chunk_start`,
`construct::definition::start` and `construct::paragraph::start`), with what is not among any of these; of what a reader
has to believe of the inline definition (`content`), with what is not among the lines of `parse`; and of what the inline
layer gives for a part (`AreEvents`), with what is not among the lines of either. It fails where there is more than the
limits below, or where one of these definitions names a rule by cells, a transition or a value."""
import os
import re
import sys

CRATES = os.path.join(os.path.dirname(os.path.dirname(os.path.abspath(__file__))), "crates")
STATEMENT = ("Rattle.markdown_blocks.specs.Parsed", "IsParsed")
# what the lines of the standard mean, and what a list of events means
MEANING = ("md_meaning",)
READING = ("md_events", "md_outline")
MOST, MOST_ELSE = 3200, 60
# what the calls of a line promise, by a behaviour; what that is at other states nobody has to believe
LINES = "Rattle.md_flow.specs.LineRule"
CALLS = ((LINES, "IsFirstCall"), (LINES, "IsLineCall"), (LINES, "IsMet"), (LINES, "IsMetFirst"), (LINES, "IsOpen"))
MOST_OF_CALLS, MOST_NEW = 1650, 620
# what reading content makes of the lines of a text
TEXTS = ("Rattle.markdown_blocks.specs.TextsRead", "AreTextsRead")
MOST_OF_TEXTS = 100
# what the inline content of a text is
INLINES = ("Rattle.md_inlines.specs.Content", "content")
MOST_OF_INLINES = 900
# what the inline layer gives for a part
LAYER = ("Rattle.markdown_inlines.specs.Layer", "AreEvents")
MOST_OF_LAYER = 200
# what the first states of text promise, by a behaviour
OWN = "Rattle.markdown_blocks.specs.TextRule"
FIRST = ((OWN, "IsChunkCall"), (OWN, "IsDefinitionCall"), (OWN, "IsParagraphCall"))
MOST_OF_FIRST = 110
# where rules by cells, transitions, schemes and values of constructs are from
RULE = re.compile(r"Rattle\.(md_\w+\.specs\.(\w+Rule|Registry|Flow|Document|States|Scheme|Transition)|"
                  r"proof_\w+\.specs\.(LineLeaf|ContainerRules|Rule|Leaf\.(?!Paragraph)\w+|Containers\.\w+))\.")
# where worlds, behaviours, feeds and cells, states and tokenizers are from; kinds of HTML are the line definition's too
RUN = re.compile(r"Rattle\.md_engine\.specs\.(World|Meaning|Sees|Scheme|TextFeed|declared\.state|"
                 r"declared\.tokenizer\.(?!held_leaf\.HtmlKind))\b")
MODULES = {}


class Module:
    """The definitions of a file, by name, each with all its lines, and where the other names come from."""

    def __init__(self, path):
        self.items, self.imported, self.called, self.owner = {}, {}, {}, {}
        file = os.path.join(CRATES, *path.split(".")[1:]) + ".antt"
        text = open(file, encoding="utf8").read() if os.path.exists(file) else ""
        item, depth = None, 0
        for line in text.split("\n"):
            if not line.strip() or line.lstrip().startswith("--"):
                continue
            if re.match(r"(abbrev )?mutual$|module _ .* where$", line):
                depth = 2
                continue
            if not line.startswith(" "):
                depth = 0
            inner = line[depth:]
            begin = re.match(r"(?:(?:pub|abbrev|unfoldable|data|record) )*([^\s:({]+)", inner)
            if re.match(r"(pub )?use ", line):
                self.add_import(line.split("use ", 1)[1])
            elif begin and not re.match(r"(pub )?mod ", line):
                item = begin.group(1)
                self.items.setdefault(item, []).append(line)
            elif item:
                self.items[item].append(line)
                made = re.match(r"  (\w+) :", inner)
                if made:
                    self.owner[made.group(1)] = item

    def add_import(self, text):
        listed = re.match(r"([\w.]+)\.\{(.*)\}$", text)
        if listed:
            for name in listed.group(2).split(", "):
                own = name.split(" as ")
                self.imported[own[-1]] = (listed.group(1), own[0])
        else:
            path = text.split(" as ")
            self.called[path[-1].split(".")[-1]] = path[0]


def module(path):
    if path not in MODULES:
        MODULES[path] = Module(path)
    return MODULES[path]


def place(path, name, tried=()):
    """Where a name is defined, if it is so in this repository."""
    here = module(path)
    if name in here.items:
        return path, name
    if name in here.owner:
        return path, here.owner[name]
    if name in here.imported and path not in tried:
        return place(*here.imported[name], (*tried, path))
    return None


def words(path, name):
    """The words of a definition, each with the word that a dot joins to it."""
    return re.findall(r"([^\W\d]\w*)(?:\.(\w+))?", re.sub(r'"[^"]*"', "", "\n".join(module(path).items[name])))


def imports(path, name):
    """What a definition names of other files, each with the file."""
    here = module(path)
    for first, second in words(path, name):
        if second and first in here.called:
            yield here.called[first], second
        elif first in here.imported:
            yield here.imported[first]


def named(path, name):
    """The definitions of this repository that a definition names."""
    yield from filter(None, (place(*found) for found in imports(path, name)))
    yield from filter(None, (place(path, first) for first, _ in words(path, name)))


def unfolded(path, name):
    seen, todo = {(path, name)}, [(path, name)]
    while todo:
        for found in named(*todo.pop()):
            if found not in seen:
                seen.add(found)
                todo.append(found)
    return seen


def lines_of(definitions):
    return sum(len(module(path).items[name]) for path, name in definitions)


def crate_of(definition):
    return definition[0].split(".")[1]


def main():
    all_of = unfolded(*STATEMENT)
    lines = lines_of(all_of)
    meaning, reading = ([place for place in all_of if crate_of(place) in crates] for crates in (MEANING, READING))
    rest = lines - lines_of(meaning) - lines_of(reading)
    print(f"{STATEMENT[1]}: {lines} lines in {len({path for path, _ in all_of})} files: {lines_of(meaning)} of the line "
          f"definition, {lines_of(reading)} of what reads events, {rest} others")
    of_calls = set().union(*(unfolded(*call) for call in CALLS))
    calls, new = lines_of(of_calls), lines_of(of_calls - all_of)
    print(f"{CALLS[0][1]}, {CALLS[1][1]}: {calls} lines in {len({path for path, _ in of_calls})} files, of which {new} "
          f"are not among those of {STATEMENT[1]}")
    of_texts = unfolded(*TEXTS)
    texts, own = lines_of(of_texts), lines_of(of_texts - all_of)
    print(f"{TEXTS[1]}: {texts} lines in {len({path for path, _ in of_texts})} files, of which {own} are not among those "
          f"of {STATEMENT[1]}")
    of_first = set().union(*(unfolded(*call) for call in FIRST))
    first, only = lines_of(of_first), lines_of(of_first - all_of - of_calls - of_texts)
    print(f"{', '.join(name for _, name in FIRST)}: {first} lines in {len({path for path, _ in of_first})} files, "
          f"of which {only} are not among those of any other")
    of_inlines = unfolded(*INLINES)
    inlines, own_inlines = lines_of(of_inlines), lines_of(of_inlines - all_of)
    print(f"{INLINES[1]}: {inlines} lines in {len({path for path, _ in of_inlines})} files, of which {own_inlines} are "
          f"not among those of {STATEMENT[1]}")
    of_layer = unfolded(*LAYER)
    layer, own_layer = lines_of(of_layer), lines_of(of_layer - all_of - of_inlines)
    print(f"{LAYER[1]}: {layer} lines in {len({path for path, _ in of_layer})} files, of which {own_layer} are not among "
          f"those of {STATEMENT[1]} and {INLINES[1]}")
    of_all = of_calls | of_texts | of_first
    of_rules = {f"{path}.{name}" for path, name in of_all if RULE.match(f"{path}.") and path != LINES}
    for name in sorted(of_rules):
        print("believed: a clause of lines unfolds to", name)
    of_run = {f"{path}.{name}" for place in all_of for path, name in imports(*place) if RUN.match(path)}
    for name in sorted(of_run):
        print("believed: a definition names", name)
    sys.exit(lines > MOST or rest > MOST_ELSE or calls > MOST_OF_CALLS or new > MOST_NEW or own > MOST_OF_TEXTS
             or own_inlines > MOST_OF_INLINES or own_layer > MOST_OF_LAYER or only > MOST_OF_FIRST
             or bool(of_run | of_rules))


main()
