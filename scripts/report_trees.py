"""Trees of texts, from the lines of examples/cases/tree.txt, and what `hoxalgurre tree` and `outline --inlines` have to print
of them. The source of each node is looked for in that of the node around it, after the node in front."""
import json
import re

from report_model import TEXT, as_json, line_starts, located, outline_json, place_of_byte, shown

NODE = re.compile(r'((?:  )*)(\w+) ("(?:[^"\\]|\\.)*")(.*)')
FIELD = re.compile(r" (\w+)=")
# The fields of each type that a case may leave out, and those that it leaves out as they are always the same.
NULLS = {"link": ["title"], "image": ["title"], "definition": ["title"], "code": ["lang", "meta"], "math": ["meta"],
         "list": ["start"], "listItem": ["checked"]}
FALSES = {"list": ["ordered", "spread"], "listItem": ["spread"]}
ORDER = ("type depth ordered start spread checked align referenceType identifier label title url lang meta value alt position "
         "children").split()
PARENTS = ("root paragraph heading blockquote list listItem footnoteDefinition table tableRow tableCell emphasis strong "
           "delete link linkReference").split()
HOLDERS = ("root", "blockquote", "list", "listItem", "footnoteDefinition", "table")
# What `outline --inlines` shows of a node.
TEXTS = {**dict.fromkeys(("text", "inlineCode", "inlineMath", "html"), "value"), "link": "url", "image": "url",
         "linkReference": "label", "imageReference": "label", "footnoteReference": "label"}


def fields_of(written):
    found, at = {}, 0
    while at < len(written):
        key = FIELD.match(written, at)
        found[key[1]], at = json.JSONDecoder().raw_decode(written, key.end())
    return found


def place(source, offset):
    line, column = place_of_byte(source, offset)
    return {"line": line, "column": column, "offset": offset}


def node_of(source, kind, start, end, given):
    """A node, with the fields in the order in which they are printed."""
    made = {"type": kind, "position": {"start": place(source, start), "end": place(source, end)}, **given}
    made = {**dict.fromkeys(NULLS.get(kind, [])), **dict.fromkeys(FALSES.get(kind, []), False), **made}
    if kind in ("text", "html"):
        made.setdefault("value", source[start:end].decode())
    if kind in PARENTS:
        made["children"] = []
    return {key: made[key] for key in ORDER if key in made}


def tree(source, wanted):
    """The tree that the lines of a case write."""
    root = node_of(source, "root", 0, len(source), {})
    opened = [[root, 0]]
    for line in wanted.split("\n")[:-1]:
        indent, kind, written, rest = NODE.fullmatch(line).groups()
        del opened[len(indent) // 2 + 1:]
        text = json.loads(written).encode()
        start = source.index(text, opened[-1][1])
        node = node_of(source, kind, start, start + len(text), fields_of(rest))
        opened[-1][0]["children"].append(node)
        opened[-1][1] = start + len(text)
        opened.append([node, start])
    return root


def tree_text(root, source):
    return json.dumps(located(root, line_starts(source), source), ensure_ascii=False, separators=(",", ":"))


def spans(root):
    """Each node that is in a block, with the place of the block and how many nodes are around it."""
    found, blocks, left = [], -1, [(root, 0, child) for child in reversed(root["children"])]
    while left:
        parent, depth, node = left.pop()
        if parent["type"] in HOLDERS:
            blocks += 1
        else:
            found.append((blocks, depth, node))
        left += [(node, depth + 1, child) for child in reversed(node.get("children", []))]
    return found


def spans_text(model, root):
    """The outline, with what is in a block before the line of the next one."""
    left, blocks, made = spans(root), iter(model.blocks), []
    count = 0
    for line in model.lines + [None]:
        if line is None or not TEXT.fullmatch(line):
            while left and left[0][0] < count:
                made.append(span_line(*left.pop(0)))
            count += 1
        if line is not None:
            made.append(line + ("" if TEXT.fullmatch(line) else shown(next(blocks))))
    return "".join(line + "\n" for line in made)


def span_line(_block, depth, node):
    start, end = node["position"]["start"], node["position"]["end"]
    text = TEXTS.get(node["type"])
    said = " " + json.dumps(node[text], ensure_ascii=False) if text else ""
    return f"{'  ' * depth}{node['type']} ({start['line']}:{start['column']} {start['offset']}..{end['offset']}){said}"


def spans_json(file, model, root):
    made = [{"inline": node["type"], "block": block, "depth": depth, "position": node["position"],
             "text": node[TEXTS[node["type"]]] if node["type"] in TEXTS else None} for block, depth, node in spans(root)]
    return as_json(file, {**outline_json(model), "inlines": made}, model.source)
