#!/usr/bin/env python3
"""Compares another parser of CommonMark with this one, as trees.

    scripts/oracle.py [--blocks] [--random N] [--seed N] [--files FILE..] -- COMMAND..

COMMAND reads a text from its standard input and writes XML in the form of `cmark -t xml`. The texts are N random short
ones (1,000), or the files. A text on which the trees differ is made as short as it gets, and both trees are printed; the
status is then 1. --blocks leaves out what is in paragraphs and headings.

This parser is `hoxalgurre tree -c commonmark --no-frontmatter`: the program that `rt ci` has built, or that of the folder
PROGRAMS, or else the one on the path."""
import argparse
import json
import os
import random
import shutil
import subprocess
import sys
import xml.etree.ElementTree

TOP = os.path.dirname(os.path.dirname(os.path.abspath(__file__)))
# What random texts are made of.
PIECES = ["a", "b", "\n", "\n\n", " ", "  ", "    ", "\t", "*", "**", "_", "`", "``", "[", "]", "(", ")", "[a]", "[a]: b\n", "![",
          "](c)", "<", ">", "<d>", "</d>", "<!--", "-->", "<e@f.g>", "&amp;", "&#97;", "\\", "# ", "=", "===", "-", "- ", "---",
          "+ ", "1. ", "2) ", "> ", "```", "~~~", "'", '"', "!", "."]


def built():
    given = os.path.join(os.environ.get("PROGRAMS", os.path.join(TOP, "crates/hoxalgurre/out")), "hoxalgurre")
    return given if os.path.isfile(given) else shutil.which("hoxalgurre") or sys.exit("oracle: hoxalgurre is not built")


def joined(parts):
    """Parts in a row, with texts side by side as one."""
    made = []
    for part in parts:
        if part[0] == "text" and made and made[-1][0] == "text":
            made[-1] = ["text", made[-1][1] + part[1]]
        elif part != ["text", ""]:
            made.append(part)
    return made


def plain(parts):
    """The text of parts: what an image has in place of itself."""
    return "".join(part[-1] if isinstance(part[-1], str) else plain(part[-1]) for part in parts if part[0] != "html")


def normal(info):
    """The words of an info string, which mdast has in two fields."""
    return " ".join(info.split())


class Ours:
    """The tree of mdast in lists: a kind, what it says of itself, and what is in it."""

    def __init__(self, root):
        self.targets = {}
        self.collect(root)
        self.tree = self.of(root)

    def collect(self, node):
        if node["type"] == "definition":
            self.targets.setdefault(node["identifier"], node)
        for inner in node.get("children", []):
            self.collect(inner)

    def inner(self, node):
        return joined(self.of(child) for child in node.get("children", []) if child["type"] != "definition")

    def of(self, node):
        kind = node["type"]
        target = self.targets.get(node.get("identifier"), node)
        if kind == "text":
            return ["text", node["value"]]
        if kind == "heading":
            return ["heading", node["depth"], self.inner(node)]
        if kind == "code":
            return ["code_block", normal(f"{node.get('lang') or ''} {node.get('meta') or ''}"), node["value"]]
        if kind == "html":
            return ["html", node["value"].rstrip("\n")]
        if kind == "inlineCode":
            return ["code", node["value"]]
        if kind == "list":
            is_loose = node.get("spread") or any(item.get("spread") for item in node["children"])
            first = node.get("start") if node.get("ordered") else None
            return ["list", first, not is_loose, self.inner(node)]
        # An attribute of XML has a space for each line ending.
        title = (target.get("title") or "").replace("\n", " ")
        if kind in ("link", "linkReference"):
            return ["link", target["url"], title, self.inner(node)]
        if kind in ("image", "imageReference"):
            return ["image", target["url"], title, node.get("alt") or ""]
        named = {"root": "document", "blockquote": "block_quote", "listItem": "item", "thematicBreak": "thematic_break",
                 "emphasis": "emph", "break": "linebreak"}
        return [named.get(kind, kind), self.inner(node)]


def theirs(node):
    """The same of the XML of cmark."""
    kind = node.tag.rpartition("}")[2]
    text, inner = node.text or "", joined(map(theirs, node)) if len(node) else []
    if kind in ("text", "code"):
        return [kind, text]
    if kind == "softbreak":
        return ["text", "\n"]
    if kind == "heading":
        return ["heading", int(node.get("level")), inner]
    if kind == "code_block":
        return ["code_block", normal(node.get("info") or ""), text[:-1] if text.endswith("\n") else text]
    if kind in ("html_block", "html_inline"):
        return ["html", text.rstrip("\n")]
    if kind == "list":
        first = int(node.get("start")) if node.get("type") == "ordered" else None
        return ["list", first, node.get("tight") == "true", inner]
    if kind == "link":
        return ["link", node.get("destination"), node.get("title") or "", inner]
    if kind == "image":
        return ["image", node.get("destination"), node.get("title") or "", plain(inner)]
    return [kind, inner]


def blocks(tree):
    """A tree without what is in paragraphs and headings."""
    if tree[0] in ("paragraph", "heading"):
        return tree[:-1]
    return [*tree[:-1], [blocks(part) for part in tree[-1]]] if isinstance(tree[-1], list) else tree


def trees(text, command, has_blocks):
    """The trees of a text by both parsers."""
    ours = subprocess.run([built(), "tree", "-c", "commonmark", "--no-frontmatter"], input=text, capture_output=True, check=True)
    other = subprocess.run(command, input=text, capture_output=True, check=True)
    pair = Ours(json.loads(ours.stdout)).tree, theirs(xml.etree.ElementTree.fromstring(other.stdout))
    return tuple(map(blocks, pair)) if has_blocks else pair


def shortest(text, differs):
    """A shorter text that differs too, if one is left when bytes are left out, from halves to single bytes, with an `a`
    for each byte that may be one."""
    size = max(len(text) // 2, 1)
    while size:
        at = 0
        while at < len(text):
            shorter = text[:at] + text[at + size:]
            if differs(shorter):
                text = shorter
            else:
                at += size
        size //= 2
    for at in range(len(text)):
        plainer = text[:at] + b"a" + text[at + 1:]
        text = plainer if plainer != text and differs(plainer) else text
    return text


def texts(chosen):
    for file in chosen.files or []:
        yield file, open(file, "rb").read()
    made = random.Random(chosen.seed)
    for number in range(0 if chosen.files else chosen.random):
        yield f"text {number}", "".join(made.choice(PIECES) for _ in range(made.randint(1, 14))).encode()


def main():
    parser = argparse.ArgumentParser(usage="oracle.py [--blocks] [--random N] [--seed N] [--files FILE..] -- COMMAND..")
    parser.add_argument("--blocks", action="store_true")
    parser.add_argument("--random", type=int, default=1000)
    parser.add_argument("--seed", type=int, default=0)
    parser.add_argument("--files", nargs="+")
    at = sys.argv.index("--") if "--" in sys.argv else parser.error("no COMMAND")
    chosen, command = parser.parse_args(sys.argv[1:at]), sys.argv[at + 1:]

    def differs(text):
        try:
            ours, other = trees(text, command, chosen.blocks)
        except (UnicodeDecodeError, subprocess.CalledProcessError, xml.etree.ElementTree.ParseError):
            return False
        return ours != other

    count, found = 0, {}
    for name, text in texts(chosen):
        count += 1
        if differs(text):
            short = shortest(text, differs)
            found.setdefault(short, name)
    for short, name in found.items():
        ours, other = trees(short, command, chosen.blocks)
        print(f"{name}: {short.decode()!r}\n  here  {json.dumps(ours)}\n  there {json.dumps(other)}")
    print(f"oracle: {count} texts, {len(found)} differences")
    sys.exit(bool(found))


if __name__ == "__main__":
    main()
