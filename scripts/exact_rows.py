#!/usr/bin/env python3
"""exact_rows.py: tries wrong definitions in the place of those of the exact list. Each must change the list of a small
text."""
import os
import re
import sys

sys.dont_write_bytecode = True
import antt
import wrong_definitions

CRATES = os.path.join(os.path.dirname(os.path.dirname(os.path.abspath(__file__))), "crates")
# the constructs of the two settings that the texts have, but alerts
FIELDS = open(os.path.join(CRATES, "md_engine/src/configuration.rt"), encoding="utf8").read()
CONSTRUCTS = re.findall(r"^    pub (?!mdx_|alerts)(\w+): bool,$", FIELDS, re.M)
ROWS = "Leaf Text Container List Nested Meeting Alert".split()

# what it does, the row that refuses it, its file, what is there, and what is put in its place
WRONG = [
    ("a blank line ends a list", "two_lists", "Rows",
     "else is_blank_role row.role && list_continued depth marker rows", "else false"),
    ("a list continues with any container", "items", "Rows",
     "then begin_with_item marker (drop depth row.held)", "then true"),
    ("the outermost container ends first", "alert_in_item", "Rows",
     "ends_from (suc depth) cs p below ++ exit (container_name c) p ∷ list_ends depth c p below",
     "exit (container_name c) p ∷ list_ends depth c p below ++ ends_from (suc depth) cs p below"),
    ("a blank line after code belongs to it", "white_after_code", "Rows",
     "if is_blank r.bytes then AfterCode else Further (OpenCode lines)", "Further (OpenCode lines)"),
    ("a lazy line ends containers", "lazy_head", "Rows", "stays = if lazy then length (containers p) else length on;",
     "stays = length on;"),
    ("an underline of nothing is one", "setext_refused", "Rows",
     "then Underline else FurtherText", "then Underline else Underline"),
    ("no line is a head", "one_pipe", "Rows",
     "role_before Delimiter r role = Head", "role_before Delimiter r role = role"),
    ("no virtual spaces", "cut_html", "Places",
     "vs = r.column - columns_from line.column (take before line.bytes);", "vs = 0;"),
    ("columns count from 0", "blank", "Places", "column = r.column + 1;", "column = r.column;"),
    ("no line after the last ending", "open_fence", "Places", "if is_end line.ending then [] else lines_from",
     "if is_end line.ending then [] else if length more == 0 then [] else lines_from"),
    ("items take no indent of further lines", "cut_chunk", "Prefixes",
     "further_prefix line container r s = white line r s",
     "further_prefix line container r s = []"),
    ("each item begins a list", "ordered", "Prefixes", "if end_in_item marker (blocks_before depth after) then [] else",
     "if false then [] else"),
    ("any item interrupts a paragraph", "interrupts", "Prefixes",
     "else opened options (all && is_open_text (spot p).leaf)",
     "else opened options false"),
    ("the marker of an alert is whitespace", "indented_alert", "Prefixes",
     "++ piece line n.BlockQuoteMarker bracket after",
     "++ white line bracket after"),
    ("no whitespace after the marker of an alert", "alert", "Prefixes", "bracket after ++ white line after s",
     "bracket after"),
    ("a further line of an alert has its marker", "alert", "Prefixes",
     "further_prefix line (InQuote kind) r s = quote_prefix line None r s",
     "further_prefix line (InQuote kind) r s = quote_prefix line kind r s"),
    ("whitespace around an alert's marker in one piece", "blank_quote", "Prefixes",
     "let after_column = lose 1 after in",
     "let after_column = after_indent after in"),
    ("content keeps its indent", "tabs", "Leaves",
     "white line r (lose columns r) ++ piece line name (lose columns r) (line_end line)",
     "piece line name r (line_end line)"),
    ("the last pipe is outside of its cell", "table_after_text", "Leaves",
     "++ piece line n.GfmTableCellDivider bar end)", "++ [])"),
    ("no pipe is the last", "table_after_text", "Leaves",
     "let is_last = is_blank after.bytes in", "let is_last = is_blank bar.bytes in"),
    ("a table has no body", "one_pipe", "Leaves", "++ leaf n.GfmTableBody text_row body)", "++ joined text_row body)"),
    ("whitespace after a definition is outside", "indented_definitions", "Texts",
     "    ++ gap end (first_end end))", "    )"),
    ("chunks have no endings", "alert_off", "Texts", "else chunk c (start (row ∷ rows)) (next_line row.line) ++",
     "else chunk c (start (row ∷ rows)) (start (first_end (row ∷ rows))) ++"),
    ("definitions have no indent", "indented_definitions", "Texts",
     "then gap rows first ++ definition first", "then definition first"),
    ("an empty line of a leaf is not blank", "left_fence", "Blocks", "is_blank_role row.role || is_end row.line.bytes",
     "is_blank_role row.role"),
    ("each line is a paragraph", "alert_off", "Blocks",
     "is_continued FurtherText = true", "is_continued FurtherText = false"),
    ("no mark", "mark_columns", "Blocks", "    mark_events source\n", "    []\n"),
    ("whitespace after code in one piece", "white_after_code", "Blocks",
     "rows = joined (content_line n.SpaceOrTab 4) rows",
     "rows = joined (content_line n.SpaceOrTab 0) rows"),
]


def options(setting):
    on = {name: True for name in CONSTRUCTS}
    return {"constructs": {**on, "alerts": setting == "ALERTS"}}


def rows(library):
    """By its name, each small text with its setting and its list."""
    for group in ROWS:
        path = f"Rattle.proof_exact_pieces.proofs.{group}Rows"
        text, module = open(library.file(path), encoding="utf8").read(), library.module(path)
        for name, setting in re.findall(r"^  (\w+) : exact given\.(\w+) ", text, re.M):
            yield name, (options(setting), module.value(name + "_text"), module.value(name + "_events"))


def holds(library, setting, text, events):
    exact = library.module("Rattle.md_events.specs.Exact.Blocks").value("exact")
    return antt.call(exact, setting, text) == events


LIBRARY = antt.Library(CRATES)
wrong_definitions.run(
    "exact_rows", wrong_definitions.Rows(LIBRARY, "Rattle.md_events.specs.Exact.{}".format, dict(rows(LIBRARY)), holds), WRONG,
    "small texts of the exact list", "wrong definitions of the exact list")
