#!/usr/bin/env bash
# Tries that a program which drops the text and then uses a line of its outline does not compile: these lines are lent
# from the text. No must-fail edit can say so, since what the borrow checker refuses does not reach the prover.
#
# Two copies of `crates/examples_api` keep the text in a `String` of their own. One drops it after the last use of a line, and
# prints what `crates/examples_api` does. The other drops it before that, which the borrow checker must refuse.
set -euo pipefail
cd "$(dirname "$0")/.."
top=$PWD
work=$(mktemp -d)
trap 'rm -rf "$work"' EXIT
mkdir "$work/crates"
cp crates.txt HANDLES "$work/"
tar -C crates --exclude=out -cf - . | tar -C "$work/crates" -xf -

# Writes the copy that drops the text `early` or `late`.
write() {
    python3 - crates/examples_api/src/usage.rt "$work/crates/examples_api/src/usage.rt" "$1" <<'PYTHON'
import sys

source, target, when = sys.argv[1:]
early, late = ("drop(state); drop(kept); ", "") if when == "early" else ("", "drop(lines); drop(state); drop(kept); ")
edits = [
    ("    let (events, state) = parse(alloc, text, &BUILT)?;\n",
     "    let Ok(kept) = String::from_str(alloc, text) else { return Err(Message) };\n"
     "    let (events, state) = parse(alloc, kept.as_str(), &BUILT)?;\n"),
    ("    for line in outline(alloc, &events, &state)?.iter() {\n",
     f"    let lines = outline(alloc, &events, &state)?;\n    {early}for line in lines.iter() {{\n"),
    ("    Ok(plain)\n", f"    {late}Ok(plain)\n"),
]
text = open(source, encoding="utf-8").read()
for old, new in edits:
    if text.count(old) != 1:
        sys.exit(f"does not compile: `{old.strip()}` is {text.count(old)} times in {source}")
    text = text.replace(old, new)
open(target, "w", encoding="utf-8").write(text)
PYTHON
}

# Runs the copy without proof; what it prints goes to `said`, and what is said of it to `errors`.
try() {
    (cd "$work/crates/examples_api" && timeout 300 "$top/scripts/rt.py" try --steps 1 >"$work/said" 2>"$work/errors" </dev/null) || true
}

write late
try
if ! cmp -s "$work/said" crates/examples_api/stdout; then
    echo "does not compile: the text is dropped after the last use of a line, and the program prints something else:"
    head -n 20 "$work/said" "$work/errors"
    exit 1
fi
write early
try
refusal='error\[borrow-e0505\]: cannot move out of `kept` because it is borrowed'
if ! grep -q "$refusal" "$work/said" "$work/errors"; then
    echo "does not compile: the text is dropped before a line is used, and the compiler does not refuse it for that:"
    head -n 20 "$work/said" "$work/errors"
    exit 1
fi
echo "does not compile: 2 passed, 0 failed"
