"""Cases of the command lines of `hoxalgurre`, `blocks` and `events`: what each prints, and its status."""
import os
import re
import subprocess
from collections import namedtuple

from report_model import as_json, headings, place_of_byte, report
from report_texts import SETS, chosen, label_cases, link_cases, models, table_cases, tree_cases
from report_trees import spans_json, spans_text, tree, tree_text

Result = namedtuple("Result", "status stdout stderr")
REPORTS = ("outline", "events", "html", "headings", "labels", "links", "tree")

# Where the output and the standard error go, as bash writes it.
REDIRECTED = {"full": ">/dev/full", "no errors": "2>&-", "errors full": "2>/dev/full", "no input": "<&-"}

PAGE = "docs/hoxalgurre.1"

# What is printed of a table without an argument: a paragraph, as in CommonMark.
WITHOUT_TABLES = {
    "blocks": b"paragraph\n  | |a|\n  | |-|\n\ndefinitions 0\nfootnotes 0\n",
    "events": b"""+ Paragraph 1 1 0 0
  + Data 1 1 0 0
  - Data 1 4 3 0
  + LineEnding 1 4 3 0
  - LineEnding 2 1 4 0
  + Data 2 1 4 0
  - Data 2 4 7 0
- Paragraph 2 4 7 0
+ LineEnding 2 4 7 0
- LineEnding 3 1 8 0
""",
}

# Texts that are not UTF-8, each with the line and the column of the first byte that is none.
BROKEN = [
    (b"\xff", 1, 1), (b"a\xff", 1, 2), (b"a\nb\xff", 2, 2), (b"a\r\nb\xff", 2, 2), (b"a\rb\xff", 2, 2),
    (b"a\n\r\n\xff", 3, 1), (b"a\r\r\xff", 3, 1), (b"a\n\n\xff", 3, 1), (b"\r\n\xff", 2, 1), (b"a\r\xff\n", 2, 1), (b"\t\xff", 1, 5),
    (b"a\t\xff", 1, 5), (b"abc\t\xff", 1, 5), (b"abcd\t\xff", 1, 9), (b"\t\t \xff", 1, 10), (b"\xc3\xa9\xe2\x82\xac\xff", 1, 6),
    (b"\xf0\x9f\x98", 1, 1), (b"# a\n\xc3", 2, 1), (b"\xc0\x80", 1, 1), (b"a\xed\xa0\x80", 1, 2),
    (b"a\n\tb\xf5c", 2, 6), (b"\xef\xbb\xbfa\xff", 1, 5), (b"\xf4\x90\x80\x80", 1, 1),
]


class Case:
    """What a program has to print. `stderr` may be a pattern; a plain case is compared without backticks."""

    def __init__(self, words, stdout=b"", stderr=b"", status=0, folder=".", stdin=b"", name="hoxalgurre", how=None,
                 parts=None, is_plain=False):
        self.is_plain = is_plain
        self.words, self.stdout, self.stderr, self.status = words, stdout, stderr, status
        self.folder, self.stdin, self.program, self.how, self.parts = folder, stdin, name, how, parts

    def run(self, start, environment=None):
        command = [*start, *self.words]
        if self.how == "closed pipe":
            return self.piped(command, environment)
        if self.how:
            command = ["bash", "-c", f'exec "$@" {REDIRECTED[self.how]}', "bash", *command]
        ran = subprocess.run(command, input=self.stdin, capture_output=True, cwd=self.folder, timeout=240, env=environment)
        if self.is_plain:
            return Result(ran.returncode, ran.stdout.replace(b"`", b""), ran.stderr.replace(b"`", b""))
        return Result(ran.returncode, ran.stdout, ran.stderr)

    def piped(self, command, environment):
        """A run whose output nobody reads."""
        read, write = os.pipe()
        os.close(read)
        ran = subprocess.run(command, input=self.stdin, stdout=write, stderr=subprocess.PIPE, cwd=self.folder,
                             timeout=240, env=environment)
        os.close(write)
        return Result(ran.returncode, b"", ran.stderr)

    def holds(self, result):
        is_pattern = isinstance(self.stderr, re.Pattern)
        is_said = self.stderr.fullmatch(result.stderr) if is_pattern else self.stderr == result.stderr
        return is_said and (self.status, self.stdout) == (result.status, result.stdout)


def sections():
    """The sections of the manual page, in plain text: what lists have in two columns, and paragraphs."""
    found = {}
    for section in re.split(r"^\.S[HS] ", open(PAGE, encoding="utf-8").read(), flags=re.M)[1:]:
        head, _, rest = section.partition("\n")
        plain = re.sub(r"\\(f[A-Z]|&)", "", rest).replace("\\-", "-").replace("\\e", "\\")
        rows = re.findall(r"^\.TP\n\.B (.*)\n(.*)\n", plain, re.M)
        found[head] = rows, plain.replace(".PP\n", "\n")
    return found


def columns(rows):
    rows = [("    " + name if name.startswith("--") else name, text) for name, text in rows]
    width = max(len(name) for name, _ in rows) + 2
    return "".join(f"  {name:<{width}}{text}\n" for name, text in rows)


def help_cases():
    """The help, in the words of the manual page."""
    page = sections()
    about = page["NAME"][1].split(" - ")[1].strip()
    notes = paragraphs(page["NOTES"][1])
    commands, options, shared = page["COMMANDS"][0], page["OPTIONS"][0], page["Of each command"][0]
    whole = (f"{about[0].upper()}{about[1:]}.\n\nUsage: hoxalgurre <COMMAND>\n\nCommands:\n{columns(commands)}\n"
             f"Options:\n{columns(options)}\n{notes}")
    for words in (["--help"], ["-h"], ["help"]):
        yield Case(words, whole.encode(), is_plain=True)
    yield Case([], stderr=whole.encode(), status=2, is_plain=True)
    for word in ("--version", "-V"):
        yield Case([word], b"hoxalgurre 0.1.0\n")
    for task, text in commands[:-1]:
        own = page.get(f"Options of {task}", [[]])[0]
        said = (f"{text}\n\nUsage: hoxalgurre {task} [OPTIONS] [FILE]...\n\nArguments:\n{columns(shared[:1])}\n"
                f"Options:\n{columns(shared[1:-1] + own + shared[-1:])}")
        said += "\n" + paragraphs(page[f"Of {task}"][1]) if f"Of {task}" in page else ""
        for words in ([task, "--help"], [task, "-h"], ["help", task]):
            yield Case(words, said.encode(), is_plain=True)


def paragraphs(text):
    return text.strip("\n") + "\n"


def argument_cases(folder):
    """Arguments that the programs do not take."""
    for words, said in [
        (["nothing"], b"unrecognized subcommand 'nothing'"),
        (["html", "-c", "x"], b"invalid value 'x' for '--constructs <SET>'"),
        (["html", "--constructs", "GFM"], b"invalid value 'GFM' for '--constructs <SET>'"),
        (["labels", "-f", "xml"], b"invalid value 'xml' for '--format <FORMAT>'"),
        (["headings", "-V"], b"unexpected argument '-V' found"),
        (["html", "-x"], b"unexpected argument '-x' found"),
        (["events", "--format"], b"a value is required for '--format <FORMAT>' but none was supplied"),
        (["html", "-f", "text", "-f", "json"], b"the argument '--format <FORMAT>' cannot be used multiple times"),
        (["tree", "--inlines"], b"unexpected argument '--inlines' found"),
        (["outline", "--toc"], b"unexpected argument '--toc' found"),
        (["labels", "--ignore"], b"a value is required for '--ignore <LABEL>' but none was supplied"),
    ]:
        yield Case(words, stderr=re.compile(b"error: " + re.escape(said) + b"\n.*", re.S), status=2, folder=folder)
    for name in ("blocks", "events"):
        for words in (["none"], ["gfm", "gfm"], [""], ["GFM"], ["commonmark", "x"]):
            yield Case(words, stderr=f"{name}: unknown argument\n".encode(), status=2, name=name, stdin=b"a")
        yield Case(["gfm"], stderr=f"{name}: not UTF-8\n".encode(), status=2, name=name, stdin=b"a\xff")
        yield Case(["gfm"], stderr=f"{name}: read failed\n".encode(), status=4, name=name, how="no input")
        yield Case(["gfm"], stderr=f"{name}: write failed\n".encode(), status=4, name=name, how="full", stdin=b"a")
        yield Case(["x"], status=2, name=name, how="no errors")
        yield Case([], stdout=WITHOUT_TABLES[name], name=name, stdin=b"|a|\n|-|\n")


SHORT = {"a.md": b"# a\n\n|b|\n|-|\n", "b.md": b"> [!tip]\n> c\n\n$$\nd\n$$\n\n[^e]: f\n", "-x.md": b"- g\n\n  h\n",
         'q"\\\u2028\n\U0001f600\x01.md': b"i\n=\n", "empty.md": b"", "plus.md": b"+++\na\n+++\n# b #\n$$ c\n"}

# After examples/cases/each_block.md: what that does not have.
MORE = """
> [!caution]

- ~~~

- [a]: b 'c
  d'

0. e

>\t\tf

- ```
\t\tg

[^a]: h
[^A]: i

|a|b|
|:-:|-|
|c|
|d|e|f|

|g|
|-|

\u3000j\u3000
  k
===

### l ##
> # v
-
  m
  ***

  > n
  >
  - o
  |p|
  |-|

  q
$$ r
s
$$

\tt
"&<>\0

~~~ u

"""


class Files:
    """Short files in a folder, and what is reported of them."""

    def __init__(self, folder):
        self.folder = folder
        SHORT["all.md"] = open("examples/cases/each_block.md", "rb").read() + MORE.encode()
        for name, text in SHORT.items():
            with open(os.path.join(folder, name), "wb") as file:
                file.write(text)
        self.made = models([(text, constructs) for text in SHORT.values() for constructs in SETS])

    def result(self, task, form, constructs, names, heads=None):
        """The output for these files; `heads` of them are named in the call."""
        return report(task, form, [(name, self.made[SHORT[name], constructs]) for name in names], heads).encode()


def file_cases(files):
    """Sets, formats, files and the standard input."""
    folder, result = files.folder, files.result
    for task in REPORTS[:4]:
        for name in ("all.md", "plus.md", "a.md", "b.md", "empty.md"):
            for words, form, constructs in [
                ([task, name], "text", "gfm"), ([task, "-f", "json", name], "json", "gfm"),
                ([task, name, "--format=json"], "json", "gfm"), ([task, "--constructs", "gfm", name], "text", "gfm"),
                ([task, "-c", "commonmark", name], "text", "commonmark"), ([task, "-call", "-fjson", name], "json", "all"),
                ([task, name, "--constructs=alerts"], "text", "alerts"), ([task, name, "-calerts", "-fjson"], "json", "alerts"),
            ]:
                yield Case([*words, *chosen(constructs)[2:]], result(task, form, constructs, [name]), folder=folder)
        odd = list(SHORT)[3]
        for form in ("text", "json"):
            yield Case([task, "-f", form, odd, "a.md"], result(task, form, "gfm", [odd, "a.md"]), folder=folder)
            yield Case([task, "-f", form, odd], result(task, form, "gfm", [odd]), folder=folder)
            yield Case([task, "-f", form, "--", "-x.md"], result(task, form, "gfm", ["-x.md"]), folder=folder)
            yield Case([task, "-f", form, "a.md", "a.md"], result(task, form, "gfm", ["a.md", "a.md"]), folder=folder)
            alone = result(task, form, "gfm", ["b.md"]).replace(b'"b.md"', b'"-"')
            for words in ([], ["-"]):
                yield Case([task, "-f", form, *words], alone, folder=folder, stdin=SHORT["b.md"])
            both = result(task, form, "gfm", ["b.md", "a.md"]).replace(b'"b.md"', b'"-"')
            both = both.replace(b"==> b.md <==", b"==> - <==")
            yield Case([task, "-f", form, "-", "a.md"], both, folder=folder, stdin=SHORT["b.md"])


# A frontmatter before a heading: its heading by each set, and those where it is a break and the underline of a heading.
FRONT = b"---\ntitle: x\n---\n# a\n"
WITH_FRONT, WITHOUT_FRONT = b"4:1 17..21 a\n", b"2:1 4..17   title: x\n4:1 17..21 a\n"


def frontmatter_cases():
    """Frontmatter, which each set has unless it is turned off. A text without math and alerts has under all sets with
    frontmatter and tables what it has under `all`."""
    for words in ([], *(["-c", constructs] for constructs in SETS)):
        yield Case(["headings", *words], WITH_FRONT, stdin=FRONT)
        yield Case(["headings", *words, "--no-frontmatter"], WITHOUT_FRONT, stdin=FRONT)
    # CommonMark has no tables, whether it has frontmatter or not.
    yield Case(["html", "-c", "commonmark"], b"<p>|b|\n|-|</p>\n", stdin=b"---\na\n---\n|b|\n|-|\n")
    text = FRONT + b"\n|b|\n|-|\n\n[^c]: d\n"
    model = models([(text, "all")])[text, "all"]
    for task in REPORTS[:4]:
        for form in ("text", "json"):
            yield Case([task, "-f", form], report(task, form, [("-", model)]).encode(), stdin=text)


def failure_cases(files):
    """Files that have no report, between files that have one."""
    folder, result = files.folder, files.result
    broken, missing = os.path.join(folder, "broken.md"), b"hoxalgurre: missing.md: no such file\n"
    with open(broken, "wb") as file:
        file.write(b"a\n \xff")
    no_text = b"hoxalgurre: broken.md:2:2: not UTF-8\n"
    for task in REPORTS[:4]:
        for form in ("text", "json"):
            for names, left, said, status in [
                (["missing.md"], [], missing, 4), (["a.md", "missing.md", "b.md"], ["a.md", "b.md"], missing, 4),
                (["missing.md", "a.md"], ["a.md"], missing, 4), (["a.md", "broken.md"], ["a.md"], no_text, 2),
                (["missing.md", "broken.md", "a.md"], ["a.md"], missing + no_text, 4),
                (["broken.md", "missing.md"], [], no_text + missing, 4),
            ]:
                wanted = result(task, form, "gfm", left, len(names))
                yield Case([task, "-f", form, *names], wanted, said, status, folder)
                for how in ("no errors", "errors full"):
                    yield Case([task, "-f", form, *names], wanted, b"", status, folder, how=how)
    for raw, line, column in BROKEN:
        yield Case(["outline"], b"", f"hoxalgurre: -:{line}:{column}: not UTF-8\n".encode(), 2, stdin=raw)
    for raw in (b"\xff\xfea\0", b"\xfe\xff\0a", b"\xff\xfe"):
        yield Case(["labels", "-f", "json"], b"[]\n", b"hoxalgurre: -: UTF-16, not UTF-8\n", 2, stdin=raw)
    yield Case(["outline", "\udcff.md"], b"", b"hoxalgurre: a file name or another argument is not UTF-8\n", 2)
    yield Case(["headings", ".", "empty.md"], b"==> empty.md <==\n", b"hoxalgurre: .: is a directory\n", 4, folder)
    for task in REPORTS:
        status = 1 if task in ("labels", "links") else 0
        yield Case([task, "-"], status=status, stdin=b"# [a][] [b](#c)", how="closed pipe")
        yield Case([task, "missing.md", "-"], b"", missing, 4, folder, b"# [a]", how="closed pipe")
    yield Case(["html", "/proc/self/mem"], b"", b"hoxalgurre: /proc/self/mem: read failed\n", 4)
    yield Case(["html"], b"", b"hoxalgurre: -: read failed\n", 4, how="no input")
    for task in REPORTS[:4]:
        for form in ("text", "json"):
            yield Case([task, "-f", form, "a.md"], b"", b"hoxalgurre: write failed\n", 4, folder, how="full")
    yield Case(["--help"], b"", re.compile(b"hoxalgurre: write failed\n"), 4, how="full")


def finding(source, line):
    """A finding as JSON, by its line as text. Its label ends at the first `]` that no backslash escapes."""
    parts = re.fullmatch(r"(\d+):(\d+): (\w+ \w+) \[(.*)\](?:, first in line (\d+))?", line)
    row, column, problem, label, first = parts.groups()
    starts = [at for at in range(len(source)) if place_of_byte(source, at) == (int(row), int(column))]
    start = next(at for at in starts if source[at:at + 1] == b"[")
    end = re.compile(rb"\[(?:\\.|[^\]\\])*\]", re.S).match(source, start).end()
    point = lambda at: dict(zip(("line", "column", "offset"), (*place_of_byte(source, at), at)))
    return {"problem": problem, "label": label, "first_line": int(first) if first else None,
            "position": {"start": point(start), "end": point(end)}}


class Group:
    """Cases of one kind: each file alone, and all of a set together."""

    def __init__(self, folder, words, has_heads):
        self.folder, self.words, self.has_heads = folder, words, has_heads
        self.together, self.alone = {}, []

    def add(self, name, constructs, text, value, status=0):
        """A file, with what is printed of it as text and as JSON."""
        self.together.setdefault(constructs, []).append((name, text, value, status))
        self.alone.append(Case([*self.words, *chosen(constructs), name], text.encode(), b"", status, self.folder))

    def cases(self):
        for constructs, parts in self.together.items():
            names, texts, values, statuses = zip(*parts)
            heads = [f"==> {name} <==\n" if self.has_heads and len(names) > 1 else "" for name in names]
            text = "".join(head + text for head, text in zip(heads, texts))
            array, status, words = "[" + ",\n".join(values) + "]\n", max(statuses), [*self.words, *chosen(constructs)]
            yield Case([*words, *names], text.encode(), b"", status, self.folder)
            yield Case([*words, "-f", "json", *names], array.encode(), b"", status, self.folder)
        yield from self.alone


def written(folder, name, case):
    """The text of a case, which is written to a file."""
    with open(os.path.join(folder, name), "wb") as file:
        file.write(case.text.encode())
    return case.text.encode()


def finding_cases(folder):
    """The cases of labels, with shortcuts and without, and labels that are left out."""
    short, whole = Group(folder, ["labels", "--shortcuts"], False), Group(folder, ["labels"], False)
    for at, case in enumerate(label_cases()):
        name = f"l{at}.md"
        source = written(folder, name, case)
        for group, wanted in ((short, [line.removeprefix("? ") for line in case.wanted]),
                              (whole, [line for line in case.wanted if not line.startswith("? ")])):
            text = "".join(f"{name}:{line}\n" for line in wanted)
            value = as_json(name, {"findings": [finding(source, line) for line in wanted]}, source)
            group.add(name, case.constructs, text, value, 1 if text else 0)
    yield from short.cases()
    yield from whole.cases()
    one = b"-:1:1: undefined reference [a]\n"
    yield Case(["labels", "empty.md", "missing.md"], b"", b"hoxalgurre: missing.md: no such file\n", 4, folder)
    yield Case(["labels", "-", "broken.md"], one, b"hoxalgurre: broken.md:2:2: not UTF-8\n", 2, folder, b"[a][]")
    yield Case(["labels"], one, b"", 1, stdin=b"[a][]")
    for label, is_one in ((b"a" * 999, True), (b"a" * 1000, False)):
        said = b"-:1:2: undefined reference [" + label + b"]\n" if is_one else b""
        yield Case(["labels", "--shortcuts"], said, b"", 1 if is_one else 0, stdin=b"x[" + label + b"]")
    yield Case(["labels", "--shortcuts"], stdin=b"[a](b '" + b"c" * 2000 + b"')")
    several = b"[a][B] [b][] [^B] [^c] [C]"
    for words, said in [
        (["--ignore", " b ", "--ignore", "^C"], b"-:1:14: undefined footnote [b]\n"),
        (["--ignore=c", "--ignore=^b"], b"-:1:4: undefined reference [b]\n-:1:8: undefined reference [b]\n"
                                        b"-:1:19: undefined footnote [c]\n"),
        (["--ignore=b", "--ignore=^b", "--ignore=^c"], b""),
        (["--shortcuts", "--ignore=b", "--ignore=^b", "--ignore=^c"], b"-:1:24: undefined reference [c]\n"),
    ]:
        yield Case(["labels", *words], said, b"", 1 if said else 0, stdin=several)
    yield Case(["labels", "--ignore=a"], b"-:1:1: unused definition [a]\n", b"", 1, stdin=b"[a]: /b")
    yield Case(["labels"], b"", b"hoxalgurre: write failed\n", 4, stdin=b"[a][]", how="full")


LINK = re.compile(r"(\d+):(\d+) (\d+)\.\.(\d+) (\w+) (.*?)(, no such heading)?(?: % (.*))?")


def link(source, line):
    """A link as text and as JSON, by its line in a case."""
    row, column, start, end, kind, destination, broken, title = LINK.fullmatch(line).groups()
    place = lambda at: dict(zip(("line", "column", "offset"), (*place_of_byte(source, at), at)))
    if place_of_byte(source, int(start)) != (int(row), int(column)):
        raise ValueError(f"the place of a link: {line}")
    meant = destination.replace("%0A", "\n").replace("%0D", "\r")
    is_own = meant.startswith("#") and meant.lower() not in ("#", "#top")
    value = {"kind": kind, "position": {"start": place(int(start)), "end": place(int(end))}, "destination": meant,
             "title": title, "has_heading": not broken if is_own else None}
    return f"{row}:{column} {start}..{end} {kind} {destination}{broken or ''}\n", value


def link_report_cases(folder):
    group = Group(folder, ["links"], True)
    for at, case in enumerate(link_cases()):
        name = f"k{at}.md"
        source = written(folder, name, case)
        made = [link(source, line) for line in case.wanted]
        is_broken = any(value["has_heading"] is False for _, value in made)
        value = as_json(name, {"links": [value for _, value in made]}, source)
        group.add(name, case.constructs, "".join(text for text, _ in made), value, 1 if is_broken else 0)
    yield from group.cases()
    both = b"==> - <==\n1:1 0..7 link #b, no such heading\n==> empty.md <==\n"
    yield Case(["links", "-", "empty.md"], both, b"", 1, folder, b"[a](#b)")
    # `%` and one hexadecimal digit are no escape.
    yield Case(["links"], b"3:1 5..14 link #%3z, no such heading\n", status=1, stdin=b"# 0\n\n[a](#%3z)")
    yield Case(["links"], b"", b"hoxalgurre: write failed\n", 4, stdin=b"[a](b)", how="full")


ENTRY = re.compile(r"( *)- \[(.*)\]\(#(.*)\)")


def entry(model, at, line):
    """An item of a table of contents as JSON."""
    indent, text, anchor = ENTRY.fullmatch(line).groups()
    heading = [found for found in headings(model) if found["text"]][at]
    is_text = re.sub(r"\\(.)", r"\1", text)
    if "\n" in model.source[heading["position"]["start"]["offset"]:heading["position"]["end"]["offset"]].decode().split("===")[0][:-1]:
        is_text = is_text.replace(" ", "\n", 1)
    return {"depth": heading["depth"], "level": len(indent) // 2, "text": is_text, "anchor": anchor,
            "position": heading["position"]}


def table_report_cases(folder):
    group, cases = Group(folder, ["headings", "--toc"], True), table_cases()
    made = models([(case.text.encode(), case.constructs) for case in cases])
    for at, case in enumerate(cases):
        name = f"t{at}.md"
        model = made[written(folder, name, case), case.constructs]
        entries = [entry(model, at, line) for at, line in enumerate(case.wanted.split("\n")[:-1])]
        group.add(name, case.constructs, case.wanted, as_json(name, {"toc": entries}, model.source))
    yield from group.cases()


def tree_report_cases(folder):
    """The cases of trees, and the outlines with what is in their blocks."""
    alone, shown, cases = Group(folder, ["tree"], False), Group(folder, ["outline", "--inlines"], True), tree_cases()
    made = models([(case.text.encode(), case.constructs) for case in cases])
    for at, case in enumerate(cases):
        name = f"n{at}.md"
        source = written(folder, name, case)
        model, root = made[source, case.constructs], tree(source, case.wanted)
        made_of = tree_text(root, source)
        alone.add(name, case.constructs, made_of + "\n", f'{{"version":1,"file":"{name}","tree":{made_of}}}')
        shown.add(name, case.constructs, spans_text(model, root), spans_json(name, model, root))
    yield from alone.cases()
    yield from shown.cases()
    # Depth takes no stack.
    deep = 200
    yield Case(["tree"], nested(deep).encode(), stdin=b"> " * deep + b"a")


def nested(deep):
    """The tree of a paragraph in so many quotes."""
    place = lambda at: f'{{"line":1,"column":{at + 1},"offset":{at},"byte_column":{at + 1},"utf16_column":{at + 1}}}'
    node = lambda kind, at: f'{{"type":"{kind}","position":{{"start":{place(at)},"end":{place(2 * deep + 1)}}},"children":['
    text = f'{{"type":"text","value":"a","position":{{"start":{place(2 * deep)},"end":{place(2 * deep + 1)}}}}}'
    begins = node("root", 0) + "".join(node("blockquote", 2 * at) for at in range(deep)) + node("paragraph", 2 * deep)
    return begins + text + "]}" * (deep + 2) + "\n"


# Texts with what `html` prints of them with these options, written by hand.
PAGES = [
    (["--unsafe"], "<b>\n\n[a](javascript:b) *<i>c</i>* ![<u>](data:d) <data:e>\n",
     '<b>\n<p><a href="javascript:b">a</a> <em><i>c</i></em> <img src="data:d" alt="&lt;u&gt;" /> <a href="data:e">data:e</a></p>\n'),
    (["--anchors"], "# a *b*\n\n# A b\n\n##\n\n> ### Footnote label\n\n#### user-content-fn-a\n\n##### C_d! \xe9\n",
     '<h1 id="a-b">a <em>b</em></h1>\n<h1 id="a-b-1">A b</h1>\n<h2></h2>\n<blockquote>\n<h3>Footnote label</h3>\n</blockquote>\n'
     '<h4>user-content-fn-a</h4>\n<h5 id="c_d-\xe9">C_d! \xe9</h5>\n'),
    (["--anchors"], "# a\n# a\n# a-1\n", '<h1 id="a">a</h1>\n<h1 id="a-1">a</h1>\n<h1>a-1</h1>\n'),
    (["--unsafe", "--anchors"], "# <b>a\n", '<h1 id="a"><b>a</h1>\n'),
    (["--unsafe"], "<!-- \0 -->\n\na <b c='\0'>\n", "<!-- \ufffd -->\n<p>a <b c='\ufffd'></p>\n"),
    ([], "[a](<b\0c>)\n", '<p><a href="b%EF%BF%BDc">a</a></p>\n'),
    (["-ccommonmark"], "\ufeff# a\n", "<h1>a</h1>\n"),
]

PAGE_BEGIN = """<!DOCTYPE html>
<html>
<head>
<meta charset="utf-8" />
<meta name="viewport" content="width=device-width, initial-scale=1" />
<title>"""


def page_cases(folder):
    """HTML with options."""
    for words, text, wanted in PAGES:
        yield Case(["html", *words], wanted.encode(), stdin=text.encode())
        value = as_json("-", {"html": wanted}, text.encode())
        yield Case(["html", *words, "-fjson"], f"[{value}]\n".encode(), stdin=text.encode())
    for words, text, title, body in [
        (["--page"], "a\n\n# b & *c*\n", "b &amp; c", "<p>a</p>\n<h1>b &amp; <em>c</em></h1>\n"),
        (["--page", "--anchors"], "# a\n", "a", '<h1 id="a">a</h1>\n'), (["--page"], "a\n", "-", "<p>a</p>\n"),
        (["--page"], "#\n\n# a\n", "-", "<h1></h1>\n<h1>a</h1>\n"), (["--page"], "", "-", ""),
    ]:
        wanted = f"{PAGE_BEGIN}{title}</title>\n</head>\n<body>\n{body}</body>\n</html>\n"
        yield Case(["html", *words], wanted.encode(), stdin=text.encode())
    yield Case(["html", "--page", "empty.md"], f"{PAGE_BEGIN}empty.md</title>\n</head>\n<body>\n</body>\n</html>\n".encode(),
               folder=folder)


# The parts of `*a* [b](c)`, which is on one line.
INLINE_PARTS = """Paragraph 0..10
  Emphasis 0..3
    EmphasisSequence 0..1
    EmphasisText 1..2
      Data 1..2
    EmphasisSequence 2..3
  Data 3..4
  Link 4..10
    Label 4..7
      LabelLink 4..5
        LabelMarker 4..5
      LabelText 5..6
        Data 5..6
      LabelEnd 6..7
        LabelMarker 6..7
    Resource 7..10
      ResourceMarker 7..8
      ResourceDestination 8..9
        ResourceDestinationRaw 8..9
          ResourceDestinationString 8..9
            Data 8..9
      ResourceMarker 9..10
"""


def inline_event_cases():
    """Events with inline content."""
    lines, values, opened = [], [], []

    def leave(depth):
        while len(opened) > depth:
            event("-", *opened.pop())

    def event(sign, depth, name, at, end):
        at = at if sign == "+" else end
        lines.append(f"{'  ' * depth}{sign} {name} 1 {at + 1} {at} 0\n")
        values.append({"kind": "enter" if sign == "+" else "exit", "name": name,
                       "place": {"line": 1, "column": at + 1, "offset": at}, "virtual_spaces": 0})

    for line in INLINE_PARTS.splitlines():
        indent, name, start, end = re.fullmatch(r"( *)(\w+) (\d+)\.\.(\d+)", line).groups()
        leave(len(indent) // 2)
        opened.append((len(indent) // 2, name, int(start), int(end)))
        event("+", *opened[-1])
    leave(0)
    yield Case(["events", "--inlines"], "".join(lines).encode(), stdin=b"*a* [b](c)")
    yield Case(["events", "--inlines", "-fjson"], f"[{as_json('-', {'events': values}, b'*a* [b](c)')}]\n".encode(), stdin=b"*a* [b](c)")


def place(line, column, offset, byte):
    return f'{{"line":{line},"column":{column},"offset":{offset},"byte_column":{byte},"utf16_column":{byte}}}'


def cut_tab_cases():
    """The code of a quote whose prefix takes one column of a tab (CommonMark 2.2): two of the six columns are left of the
    first tab, four are the second, and four of the six are the indent. The code begins at the byte of the cut tab."""
    end = place(1, 12, 6, 7)
    code = f'{{"type":"code","lang":null,"meta":null,"value":"  foo","position":{{"start":{place(1, 3, 1, 2)},"end":{end}}}}}'
    quote = f'{{"type":"blockquote","position":{{"start":{place(1, 1, 0, 1)},"end":{end}}},"children":[{code}]}}'
    root = f'{{"type":"root","position":{{"start":{place(1, 1, 0, 1)},"end":{place(2, 1, 7, 1)}}},"children":[{quote}]}}'
    yield Case(["tree", "-c", "commonmark"], f"{root}\n".encode(), stdin=b">\t\tfoo\n")


def command_cases(folder):
    """All cases; files are written to the folder."""
    files = Files(folder)
    return [*help_cases(), *argument_cases(folder), *file_cases(files), *frontmatter_cases(),
            *failure_cases(files), *finding_cases(folder), *link_report_cases(folder), *table_report_cases(folder),
            *tree_report_cases(folder), *inline_event_cases(), *cut_tab_cases(), *page_cases(folder)]
