"""The functions through which every parse goes that meets what they are named for: the first state of each construct, the
states before leaves, and `pass`. scripts/wrong_bodies.sh gives each a wrong answer as its first statement, and a row has
to change. `docs/DIFFERENCES.md` has the states through which no parse goes."""
import glob
import os
import re
from collections import namedtuple

State = namedtuple("State", "file function answer")

CRATES = os.path.join(os.path.dirname(os.path.dirname(os.path.abspath(__file__))), "crates")
# the states that are attempted, and those before leaves
ATTEMPTED = re.compile(r"^pub fn (start|before_(?!content)\w+)\(tokenizer: &mut Tokenizer\) -> State$", re.M)
UNUSED = "md_leaves/src/partial_non_lazy_continuation.rt"


def attempted():
    """The first state of each module that has one, and each state of flow before a leaf."""
    for path in sorted(glob.glob(os.path.join(CRATES, "md_*/src/*.rt"))):
        file = os.path.relpath(path, CRATES)
        with open(path, encoding="utf-8") as text:
            functions = ATTEMPTED.findall(text.read())
        for function in functions if file != UNUSED else ():
            if function == "start" or file == "md_flow/src/flow.rt":
                yield State(file, function, "State::Nok")


FIRST = [
    *attempted(),
    State("md_content/src/content.rt", "chunk_start", "State::Nok"),
    State("md_resolve/src/pass.rt", "pass", "Ok(None)"),
]


def begun(text, state, is_wrong):
    """The text of a file where the function gives this answer at once if this holds."""
    found = re.search(rf"^pub fn {state.function}\(.*?^\{{\n", text, re.M | re.S)
    if not found:
        raise SystemExit(f"{state.file} has no function {state.function}")
    return text[:found.end()] + f"    if {is_wrong} {{ return {state.answer}; }}\n" + text[found.end():]
