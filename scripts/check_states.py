#!/usr/bin/env python3
"""Whether a program can call each state function and each resolver by its path in `markdown_blocks::construct`.

Writes a program that calls all of them with a tokenizer, in a copy of the crates, and has `rt try` lower it: no proof
is needed, since only names and signatures are looked at, and nothing is run. Prints what is missing and ends with 'N of M
can be called'; status 1 where one cannot.
"""
import os
import re
import shutil
import sys
import tempfile

sys.dont_write_bytecode = True
import counts
from unproved import lowering

STATES = {
    "blank_line": "start after",
    "block_quote": (
        "start open_start open_before open_after alert_try alert_start alert_before alert_mark alert_letter alert_name "
        "prefix_end cont_start cont_before cont_after"
    ),
    "code_indented": "start at_break inside after further_start further_begin further_after",
    "content": "chunk_start chunk_inside definition_before definition_after",
    "definition": (
        "start before label_after label_nok marker_after destination_before destination_after "
        "destination_missing after after_whitespace title_before title_before_marker title_after "
        "title_after_optional_whitespace"
    ),
    "document": (
        "start before_frontmatter container_existing_before container_existing_after container_new_before "
        "container_new_before_not_block_quote container_new_before_not_list "
        "container_new_before_not_footnote_definition container_new_after containers_after flow_inside "
        "flow_end"
    ),
    "flow": (
        "start blank_line_before before_code_indented before_raw before_html before_heading_atx "
        "before_heading_setext before_thematic_break before_gfm_table before_content blank_line_after after"
    ),
    "frontmatter": (
        "start open_sequence open_after close_start close_sequence close_after content_start content_inside "
        "content_end after"
    ),
    "gfm_footnote_definition": (
        "start label_before label_at_marker label_inside label_escape label_after whitespace_after cont_start "
        "cont_blank cont_filled"
    ),
    "gfm_table": (
        "start head_row_before head_row_start head_row_break head_row_data head_row_escape "
        "head_delimiter_start head_delimiter_before head_delimiter_cell_before head_delimiter_value_before "
        "head_delimiter_left_alignment_after head_delimiter_filler head_delimiter_right_alignment_after "
        "head_delimiter_cell_after head_delimiter_nok body_row_start body_row_break body_row_data "
        "body_row_escape"
    ),
    "heading_atx": "start before sequence_open at_break sequence_further data",
    "heading_setext": "start before inside after",
    "html_flow": (
        "start before open declaration_open comment_open_inside cdata_open_inside tag_close_start tag_name "
        "basic_self_closing complete_closing_tag_after complete_attribute_name_before complete_attribute_name "
        "complete_attribute_name_after complete_attribute_value_before complete_attribute_value_quoted "
        "complete_attribute_value_unquoted complete_attribute_value_quoted_after complete_end complete_after "
        "continuation continuation_start continuation_start_non_lazy continuation_before "
        "continuation_comment_inside continuation_raw_tag_open continuation_raw_end_tag "
        "continuation_cdata_inside continuation_declaration_inside continuation_close continuation_after "
        "blank_line_before"
    ),
    "list_item": (
        "start before before_unordered before_ordered value marker marker_after marker_after_filled "
        "whitespace whitespace_after prefix_other after cont_start cont_blank cont_filled"
    ),
    "paragraph": "start line_start inside",
    "partial_bom": "start inside",
    "partial_non_lazy_continuation": "start after",
    "raw_flow": (
        "start before_sequence_open sequence_open info_before info meta_before meta at_non_lazy_break "
        "close_start before_sequence_close sequence_close sequence_close_after content_before content_start "
        "before_content_chunk content_chunk after"
    ),
    "thematic_break": "start before at_break sequence",
}
RESOLVERS = ["heading_atx", "heading_setext", "list_item", "gfm_table", "content"]
HEAD = """#![tactic(auto)]
use markdown_blocks::construct;
use markdown_blocks::message::Message;
use markdown_blocks::state::State;
use markdown_blocks::subtokenize::Subresult;
use markdown_blocks::tokenizer::Tokenizer;
use std::io;
"""
MAIN = """
fn main(rt: HostRuntime) -> io::Result<()> {
    println!(rt; "all")
}
"""


def calls():
    """The functions of the program, each with the path that it calls."""
    for module, names in STATES.items():
        for name in names.split():
            path = f"{module}::{name}"
            yield path, f"fn {module}_{name}(tokenizer: &mut Tokenizer) -> State {{ construct::{path}(tokenizer) }}"
    for module in RESOLVERS:
        answer = "Result<Option<Subresult>, Message>"
        path = f"{module}::resolve"
        yield path, f"fn {module}_resolve(tokenizer: &mut Tokenizer) -> {answer} {{ construct::{path}(tokenizer) }}"


def main():
    top = os.path.dirname(os.path.dirname(os.path.abspath(__file__)))
    wanted = list(calls())
    missing = {}
    with tempfile.TemporaryDirectory() as work:
        shutil.copytree(os.path.join(top, "crates"), os.path.join(work, "crates"), ignore=shutil.ignore_patterns("out"))
        source = os.path.join(work, "crates/states/src")
        os.makedirs(source)
        with open(os.path.join(top, "crates.txt"), encoding="utf-8") as crates:
            listed = crates.read()
        with open(os.path.join(work, "crates.txt"), "w", encoding="utf-8") as crates:
            crates.write(listed.rstrip("\n") + "\nstates: markdown_blocks\n")
        shutil.copy(os.path.join(top, "HANDLES"), work)
        first = HEAD.count("\n") + 1
        while True:
            # The compiler reports some errors at once: what it refused is left out, and it looks again.
            lines = ["" if path in missing else line for path, line in wanted]
            with open(os.path.join(source, "main.rt"), "w", encoding="utf-8") as program:
                program.write(HEAD + "\n".join(lines) + "\n" + MAIN)
            with tempfile.TemporaryDirectory(prefix="hoxalgurre-") as folder:
                said = lowering(folder, os.path.dirname(source))
                is_lowered = os.path.isfile(os.path.join(folder, "module.bc"))
            found = {}
            for error in re.finditer(r"^src/main\.rt:(\d+):\d+: error\[[\w-]+\]: (.*)$", said, re.M):
                at = int(error.group(1)) - first
                if 0 <= at < len(wanted):
                    found[wanted[at][0]] = error.group(2)
            if not set(found) - set(missing):
                break
            missing.update(found)
    for path, why in missing.items():
        print(f"{path}: {why}")
    if not is_lowered:
        sys.exit("the program is not lowered:\n" + said[-1500:])
    is_other = counts.wrong_count("states and resolvers", len(wanted))
    print(f"states: {len(wanted) - len(missing)} of {len(wanted)} can be called")
    sys.exit(bool(missing) or is_other)


main()
