#!/usr/bin/env bash
# site.sh FOLDER: writes README.md and the other pages (*.md, docs/*.md, examples/*.md) as HTML into a folder that is
# empty or was written by this script, each with a list of its headings and of all pages. `hoxalgurre` makes all HTML:
# `html` the pages, `headings --toc` and `html` the lists. It checks the links with `hoxalgurre links`: an anchor has to
# be that of a heading, also of another page, and a file has to be there. A link to a page leads to its HTML, one to
# another file into this repository.
#
# It takes the program that `rt ci` has built, or that of the folder PROGRAMS, where that is set.
set -euo pipefail
cd "$(dirname "$0")/.."
[ $# -eq 1 ] || { echo "usage: site.sh FOLDER"; exit 1; }
exec python3 - "$(realpath -m "$1")" <<'PYTHON'
import glob, html, json, os, re, shutil, subprocess, sys

PROGRAM = os.path.join(os.environ.get("PROGRAMS", "crates/hoxalgurre/out"), "hoxalgurre")
FOLDER = sys.argv[1]
PAGES = sorted(glob.glob("*.md"), key=lambda page: page != "README.md")
PAGES += sorted(glob.glob("docs/*.md") + glob.glob("examples/*.md"))
WRITTEN = "Written by scripts/site.sh."

STYLE = """
:root { color-scheme: light dark; --text: #1f2328; --back: #fff; --faint: #59636e }
:root { --line: #d1d9e0; --code: #f6f8fa; --link: #0969da }
@media (prefers-color-scheme: dark) {
  :root { --text: #e6edf3; --back: #0d1117; --faint: #9198a1; --line: #3d444d; --code: #161b22; --link: #4493f8 }
}
* { box-sizing: border-box }
body { margin: 0; color: var(--text); background: var(--back); font: 16px/1.55 system-ui, sans-serif }
a { color: var(--link) }
main { max-width: 50rem; padding: 0 1.25rem 4rem; margin: 0 auto; overflow-wrap: break-word }
nav { padding: 0.5rem 1.25rem; border-bottom: 1px solid var(--line); font-size: 0.875rem }
nav ul { list-style: none; padding-left: 0.875rem; margin: 0.25rem 0 }
nav > details > ul { padding-left: 0 }
nav a { text-decoration: none }
nav summary { color: var(--faint); cursor: pointer; padding: 0.25rem 0 }
h1, h2, h3 { line-height: 1.25; margin: 1.75em 0 0.6em; scroll-margin-top: 1rem }
h1 { font-size: 1.9rem }
h2 { font-size: 1.4rem; border-bottom: 1px solid var(--line); padding-bottom: 0.2em }
h3 { font-size: 1.15rem }
pre, code { font-family: ui-monospace, monospace; font-size: 0.875em; background: var(--code); border-radius: 4px }
code { padding: 0.1em 0.3em }
pre { padding: 0.75rem 1rem; overflow-x: auto }
pre code { padding: 0; font-size: 1em; background: none }
table { display: block; overflow-x: auto; border-collapse: collapse; margin: 1rem 0 }
th, td { border: 1px solid var(--line); padding: 0.35rem 0.7rem; text-align: left; vertical-align: top }
img { max-width: 100% }
@media (min-width: 64rem) {
  body { display: grid; grid-template-columns: 19rem minmax(0, 1fr) }
  nav { position: sticky; top: 0; height: 100vh; overflow-y: auto; border-bottom: 0; border-right: 1px solid var(--line) }
  main { margin: 0; padding-left: 2.5rem }
}
"""

PAGE = """<!DOCTYPE html>
<!-- {written} -->
<html lang="en">
<head>
<meta charset="utf-8" />
<meta name="viewport" content="width=device-width, initial-scale=1" />
<title>{title}</title>
<style>{style}</style>
</head>
<body>
<nav>
<details{open}>
<summary>Pages</summary>
{pages}</details>
<details open>
<summary>On this page</summary>
{headings}</details>
</nav>
<main>
{body}</main>
</body>
</html>
"""


def run(*words, text=b""):
    ran = subprocess.run([PROGRAM, *words], input=text, capture_output=True, timeout=60)
    if ran.returncode > 1:
        sys.exit(ran.stderr.decode())
    return ran.stdout.decode()


def reported(page, task, *words):
    return json.loads(run(task, *words, "-f", "json", page))[0]


def read(page):
    """The headings of a page: text and anchor."""
    return [(entry["text"], entry["anchor"]) for entry in reported(page, "headings", "--toc")["toc"]]


def where(page, destination):
    """The file that a destination in a page leads to, and the anchor in it; no file where it has a protocol."""
    path, _, anchor = destination.partition("#")
    if re.match(r"[A-Za-z][A-Za-z0-9+.-]*:", path):
        return None, anchor
    return os.path.normpath(os.path.join(os.path.dirname(page), path)) if path else page, anchor


def faults(page, headings):
    """What is wrong with the links of a page."""
    for link in reported(page, "links")["links"]:
        file, anchor = where(page, link["destination"])
        place = f"{page}:{link['position']['start']['line']}: {link['destination']}"
        if link["has_heading"] is False:
            yield f"{place}: no such heading"
        elif file and not os.path.exists(file):
            yield f"{place}: no such file"
        elif file in headings and file != page and anchor and anchor not in dict(map(reversed, headings[file])):
            yield f"{place}: no such heading"


def led(page, destination):
    """Where a destination in a page leads to from its HTML."""
    file, _ = where(page, destination)
    at = os.path.dirname(os.path.join(FOLDER, page))
    if file is None or destination.startswith("#"):
        return destination
    if file in PAGES:
        return re.sub(r"\.md(?=#|$)", ".html", destination)
    if file.endswith(".svg"):
        return destination
    return os.path.relpath(file, at)


def write(page, headings):
    body = run("html", "--unsafe", "--anchors", page)
    body = re.sub(r'(<(?:a href|img src)=")([^"]*)', lambda it: it[1] + html.escape(led(page, html.unescape(it[2]))), body)
    items = "".join(f"- [{titles[0][0] if titles else other}](<{os.path.relpath(other, os.path.dirname(page) or '.')}>)\n"
                    for other, titles in headings.items())
    pages = run("html", text=items.encode()).replace('.md">', '.html">')
    lists = run("html", text=run("headings", "--toc", page).encode())
    title = html.escape(headings[page][0][0] if headings[page] else page)
    target = os.path.join(FOLDER, page[:-3] + ".html")
    os.makedirs(os.path.dirname(target), exist_ok=True)
    with open(target, "w", encoding="utf-8") as file:
        file.write(PAGE.format(written=WRITTEN, title=title, style=STYLE, open=" open" if page == "README.md" else "", pages=pages,
                               headings=lists, body=body))


if not os.path.isfile(PROGRAM):
    sys.exit(f"site: {PROGRAM} is not built")
index = os.path.join(FOLDER, "README.html")
if os.path.isdir(FOLDER) and os.listdir(FOLDER):
    if not os.path.isfile(index) or WRITTEN not in open(index, encoding="utf-8").read():
        sys.exit(f"site: {FOLDER} is not empty")
headings = {page: read(page) for page in PAGES}
wrong = [fault for page in PAGES for fault in faults(page, headings)]
if wrong:
    sys.exit("\n".join(wrong))
for page in PAGES:
    write(page, headings)
for picture in glob.glob("docs/*.svg"):
    shutil.copy(picture, os.path.join(FOLDER, "docs"))
shutil.copy(index, os.path.join(FOLDER, "index.html"))
print(f"site: {len(PAGES)} pages in {FOLDER}")
PYTHON
