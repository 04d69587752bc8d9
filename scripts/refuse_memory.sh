#!/usr/bin/env bash
# Refuses requests for memory of built programs (`rt ci` or `rt run` builds them: `out`; where PROGRAMS is set, they are
# in that folder). Each request is refused twice: alone, and with all that follow it. The number of the first that is
# refused rises until a run meets no refusal (`scripts/refuse.c`).
#
# - Of `test_library`, those of one call of the library: `parse`, `parse_with`, `outline`, `outline_part`, `wrap::quote`,
#   `wrap::item`, `wrap::footnote`, and the `run` of `blocks`, all on one text, those of `Parts` on another, its text
#   parts read or not, those of `parse_with` with the inline layer and of `html` on one with each inline construct of
#   GitHub, and those of `parse_into` and `html_of` on one of several parts. What the program asks for before and after
#   the call is counted apart. A refused run ends with status 3 and prints nothing, and the last run prints what is given
#   here. The states that take no memory answer while each request is refused.
# - Of `blocks`, `events`, `plain_blocks`, `plain_inlines` and `examples_references`, those of the whole program: on the
#   texts of their stored runs, and the first two with the argument `alerts` on each begin of a text with a byte order
#   mark, frontmatter, headings of both kinds, quotes, a break, nested lists, an alert with a fence, HTML, definitions, in
#   a quote and before an underline, a table and a footnote definition; the third on that text; `plain_inlines` on a text
#   with each inline construct. The last parses its text with an inline layer, wraps it in a quote and in an item, and
#   parses both; a reference in it goes over two lines of a quote, and is defined after it. A refused run ends with status
#   3, says so on its standard error and prints nothing.
# - Of `hoxalgurre`, those of each of its reports in both formats. What a refused run prints at most is how a JSON report
#   begins.
#
# No refused run ends as if nothing had been refused. How many refused runs there are at least is given for each program.
set -euo pipefail
cd "$(dirname "$0")/.."
work=$(mktemp -d)
trap 'rm -rf "$work"' EXIT
kit=$(dirname "$(rt doc)")
"$kit/toolchain/bin/clang" --target=x86_64-unknown-linux-gnu --sysroot="$kit/toolchain" -O2 -shared -fPIC -nostdlib -fuse-ld=lld \
    -o "$work/refuse.so" scripts/refuse.c
python3 - "$work/refuse.so" <<'PYTHON'
import concurrent.futures, os, subprocess, sys

library = sys.argv[1]

# The folder of the programs, if it is one for all.
FOLDER = os.environ.get("PROGRAMS")

# The refused runs of each program that there are at least.
PROGRAMS = {"blocks": 4000, "events": 4000, "plain_blocks": 100, "plain_inlines": 300, "examples_references": 300}
LEAST_REPORTS = 600

# The sizes of the requests of `test_library` before and after its call.
MARKS = {"BEFORE": "42421", "AFTER": "42423"}

TEXT = b"> [a\n> b]: c\n\n- x | y\n  --|--\n  1 | 2\n\n# h\n\ni\n=\n\n[^f]: g\n\n[A\nB] j"
TEXT_OUTLINE = b"""quote
  definition
    label | a
    label | b
    destination | c
list -
  item
    table 2
      row
        cell | x
        cell | y
      delimiter | --|--
      row
        cell | 1
        cell | 2
heading 1
  | h
heading 1
  | i
footnote
  label | f
  paragraph
    | g
paragraph
  | [A
  | B] j

definitions 1
= a b
footnotes 1
= f
"""

# The outline of the text that is read by parts.
PARTS_OUTLINE = b"""definition
  label | k
  destination | l
paragraph
  | m
quote
  paragraph
    | n
paragraph
  | o
footnote
  label | f
  paragraph
    | g
paragraph
  | p

definitions 1
= k
footnotes 1
= f
"""

# The outline of the text with inline constructs.
MARKED_OUTLINE = b"""list -
  item
    paragraph
      | [x] *a **b*** ~~c~~ `d` <ab:c> <a@b.c> <b c> \\* &amp; www.a.co a@b.co\x20\x20
      | [e *f*](<g> 'h\\*') ![i](j)\\
      | [k][l] [^m] [n
table 2
  row
    cell | o
    cell | \\|p
  delimiter | -|-
definition
  label | L
  destination | q
  title | r&lt;
footnote
  label | m
  paragraph
    | s

definitions 1
= l
footnotes 1
= m
"""

MARKED_PAGE = """<ul>
<li><input type="checkbox" disabled="" checked="" /> <em>a <strong>b</strong></em> <del>c</del> <code>d</code> \
<a href="">ab:c</a> <a href="mailto:a@b.c">a@b.c</a> &lt;b c&gt; * &amp; <a href="http://www.a.co">www.a.co</a> \
<a href="mailto:a@b.co">a@b.co</a><br />
<a href="g" title="h*">e <em>f</em></a> <img src="j" alt="i" /><br />
<a href="q" title="r&lt;">k</a> <sup><a href="#user-content-fn-m" id="user-content-fnref-m" data-footnote-ref="" \
aria-describedby="footnote-label">1</a></sup> [n</li>
</ul>
<table>
<thead>
<tr>
<th>o</th>
<th>|p</th>
</tr>
</thead>
</table>
<section data-footnotes="" class="footnotes"><h2 id="footnote-label" class="sr-only">Footnotes</h2>
<ol>
<li id="user-content-fn-m">
<p>s <a href="#user-content-fnref-m" data-footnote-backref="" aria-label="Back to content" \
class="data-footnote-backref">\u21a9</a></p>
</li>
</ol>
</section>
""".encode()

# The outline and the HTML of the text that is handed over in parts.
LINKED_OUTLINE = b"""paragraph
  | [a] ![b *c*][d]
quote
  list -
    item
      paragraph
        | e
      paragraph
        | [f](g "h")
heading 1
  | i
list -
  item
    paragraph
      | j
  item
    paragraph
      | k
paragraph
  | l
definition
  label | A
  destination | m
  title | n&amp;
definition
  label | d
  destination | o

definitions 2
= a
= d
footnotes 0
"""

LINKED_PAGE = b"""<p><a href="m" title="n&amp;">a</a> <img src="o" alt="b c" /></p>
<blockquote>
<ul>
<li>
<p>e</p>
<p><a href="g" title="h">f</a></p>
</li>
</ul>
</blockquote>
<h1>i</h1>
<ul>
<li>j</li>
<li>k</li>
</ul>
<p>l</p>
"""

# The refused runs of the call with the inline layer that there are at least.
LEAST_INLINES = 100

# What each call prints, and what it says where it is refused.
CALLS = {
    "parse": (TEXT_OUTLINE, b""),
    "parse_with": (TEXT_OUTLINE, b""),
    "inlines": (MARKED_OUTLINE, b""),
    "html": (MARKED_PAGE, b""),
    "into": (LINKED_OUTLINE, b""),
    "html_of": (LINKED_PAGE, b""),
    "parts": (PARTS_OUTLINE, b""),
    "blocks": (PARTS_OUTLINE, b""),
    "outline": (TEXT_OUTLINE, b""),
    "outline_part": (TEXT_OUTLINE, b""),
    "quote": (b"\n".join(b"> " + line for line in TEXT.split(b"\n")), b""),
    "item": (b"+ " + TEXT.replace(b"\n", b"\n  "), b""),
    "footnote": (b"[^x]: " + TEXT.replace(b"\n", b"\n    "), b""),
    "run": (TEXT_OUTLINE, b"blocks: out of memory\n"),
}

# What the states answer that take no memory, and that an event finds no place.
STATES = b"ok\nok\nnext\nnext\nretry\nok\nno event\n"

WHOLE = b"\xef\xbb\xbf+++\nt\n+++\n# # a #\nb\n> > c\n> d\ne\n### ##\n***\n- f\n\n  1. g\n     > h\n- i\n> [!note]\t\n> ~~~ j k\n>  l\n>\nm\n<p\nn\n\no\n=\n\n> [P\n> Q]: r 's'\n\n[P]: u\nv\n=\nw|x\n-|-\n|y\n\n[^Z]: z\n"
OUTLINE = b"""frontmatter +
  | t
heading 1
  | # a
paragraph
  | b
quote
  quote
    paragraph
      | c
      | d
      | e
heading 3
break
list -
  item
    paragraph
      | f
    list .
      item
        paragraph
          | g
        quote
          paragraph
            | h
  item
    paragraph
      | i
alert note
  fence ~ open
    info | j
    meta | k
    |  l
    |\x20
paragraph
  | m
html
  | <p
  | n
heading 1
  | o
quote
  definition
    label | P
    label | Q
    destination | r
    title | s
definition
  label | P
  destination | u
heading 1
  | v
table 2
  row
    cell | w
    cell | x
  delimiter | -|-
  row
    cell | y
footnote
  label | Z
  paragraph
    | z

definitions 2
= p q
= p
footnotes 1
= z
"""


# Each inline construct, in the first paragraph of an item.
INLINE = (b"[x] *a **b** _c_* ~~d~~ `e` $f$ <g:h> <i@j.k> <l m='n'> \\* &amp; &#35; &#x22; www.o.p q@r.s mailto:t@u.v\n"
          b"w  \nx\\\n[y *z*](<a> 'b\\c') ![d](e) [f][ G\nh ] [i][] [i] [j][k] [^l] [m [n](o) p](q) [r\n\n"
          b"=g h\n=i\n^l\n-\n")


def program(name):
    return f"{FOLDER}/{name}" if FOLDER else f"crates/{name}/out/{name}"


def run(command, text, refused, marks={}):
    """The status of a run, what it printed and what it complained of; how many requests it was refused, and how many did not count."""
    readable, writable = os.pipe()
    named = {"LD_PRELOAD": library, "REFUSE": str(refused), "REFUSED_TO": str(writable), **marks}
    ran = subprocess.run(command, input=text, capture_output=True, env=named, pass_fds=[writable], timeout=60)
    os.close(writable)
    with open(readable, "rb") as requests:
        said = requests.read()
    return (ran.returncode, ran.stdout, ran.stderr), said.count(b"r"), said.count(b"o")


def each_refused(command, text, right, begins, complaints, marks={}):
    """Refuses each request in turn, alone and with all that follow. Answers how many refused runs there are, and what is wrong."""
    runs = 0
    for following in ("", "+"):
        number = 1
        while True:
            ended, count, _ = run(command, text, f"{number}{following}", marks)
            if count == 0:
                break
            if ended[0] != 3 or ended[1] not in begins or ended[2] not in complaints:
                return runs, f"{command}, text {text}, request {number}{following} refused: status, output and complaint {ended}"
            number, runs = number + 1, runs + 1
        if ended != right:
            return runs, f"{command}, text {text}, nothing left to refuse: status, output and complaint {ended}"
    return runs, ""


def refuse_call(word):
    """Refuses the requests of one call."""
    given, complaint = CALLS[word]
    return each_refused([program("test_library"), word], TEXT, (0, given, b""), [b""], [complaint], MARKS)


def refuse_text(name, text, given):
    """Refuses the requests of a program on a text, of which it prints what is given, if that is given."""
    folder = f"crates/{name}"
    stored = text == open(f"{folder}/stdin", "rb").read()
    command = [program(name), *([] if stored else ["alerts"])]
    right = run(command, text, 0)[0]
    if right[0] != 0 or right[2] or not right[1] or given not in (None, right[1]):
        return 0, f"{command}, text {text}, nothing refused: status, output and complaint {right}"
    return each_refused(command, text, right, [b""], [f"{name}: out of memory\n".encode()])


def refuse_report(report, form):
    """Refuses the requests of `hoxalgurre` on a text that it also has labels to complain of."""
    text = WHOLE + b"\n[1][] [^2] `[3]` [*4* &amp;](#5 '6') <http://7> ![8][1]\n\n[1]: /9\n"
    command = [program("hoxalgurre"), *report.split(), "-c", "alerts", "-f", form]
    right = run(command, text, 0)[0]
    if right[0] != (report in ("labels", "links")) or right[2] or not right[1]:
        return 0, f"{command}, nothing refused: status, output and complaint {right}"
    begins = [b"", b"[", b"[]\n"] if form == "json" else [b""]
    return each_refused(command, text, right, begins, [b"hoxalgurre: out of memory\n", b"hoxalgurre: -: out of memory\n"])


def texts_of(name):
    """The texts that a program is tried on, each with what it prints, if that is given."""
    stored = [(open(f"crates/{name}/stdin", "rb").read(), open(f"crates/{name}/stdout", "rb").read())]
    begins = [(WHOLE[:length], None) for length in range(3, len(WHOLE))]
    whole = (WHOLE, None if name == "events" else OUTLINE)
    tried = {"blocks": [*begins, whole], "events": [*begins, whole], "plain_blocks": [whole], "plain_inlines": [(INLINE, None)]}
    return stored + tried.get(name, [])


# Each task: what it belongs to, and the call that does it.
tasks = [(word, lambda word=word: refuse_call(word)) for word in CALLS]
tasks += [(name, lambda name=name, it=it: refuse_text(name, *it)) for name in PROGRAMS for it in texts_of(name)]
for report in ("outline", "events", "html", "headings", "labels", "links", "tree", "outline --inlines", "headings --toc",
               "html --page --anchors"):
    for form in ("text", "json"):
        tasks.append(("hoxalgurre", lambda report=report, form=form: refuse_report(report, form)))
with concurrent.futures.ThreadPoolExecutor(os.cpu_count()) as pool:
    done = [(name, pool.submit(task)) for name, task in tasks]
runs = dict.fromkeys((name for name, _ in tasks), 0)
for name, task in done:
    count, wrong = task.result()
    runs[name] += count
    if wrong:
        sys.exit(wrong)
for name, least in {**dict.fromkeys(CALLS, 1), "inlines": LEAST_INLINES, **PROGRAMS, "hoxalgurre": LEAST_REPORTS}.items():
    print(f"refused memory: {name}, {runs[name]} runs refused, none of which went on")
    if runs[name] < least:
        sys.exit(f"not at least {least}")
ended, count, _ = run([program("test_library"), "states"], b"", "1+", MARKS)
if ended != (0, STATES, b"") or count == 0:
    sys.exit(f"states, each request refused: status, output and complaint {ended}, {count} refused")
PYTHON
