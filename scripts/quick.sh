#!/usr/bin/env bash
# The inner loop: tries what changed since a revision, in minutes where the gate takes an hour.
#
#     scripts/quick.sh [REV]        since REV, by default the last commit; work that is not committed counts too
#
# A crate changed if a file of it or its line in `crates.txt` did.
#
# - It proves, tests and runs the crates that changed, and above them each library that is short to prove (`rt ci
#   NAME..`, which keeps what passes for the gate; where the kit has no such call, `rt check` and `rt test`).
# - Without proof it runs the programs above that have a file `stdout`, and compares what they print, the tests above,
#   the rows of the bench on the parser and on the plain program, and the limits of steps (`scripts/steps.py`).
# - It runs `scripts/counts.py`, and each script that changed, or whose examples or pages did, if it needs no long
#   build: those of built programs take what is in `crates/NAME/out`, and are left out where nothing is.
#
# At the end it says what it left out; only `.ci/run` tries everything.
set -euo pipefail
cd "$(dirname "$0")/.."
top=$PWD
since=${1:-HEAD}
git rev-parse --verify --quiet "$since^{commit}" >/dev/null || { echo "usage: scripts/quick.sh [REV]" >&2; exit 2; }
work=$(mktemp -d)
trap 'rm -rf "$work"' EXIT
{
    git diff --name-only "$since"
    git ls-files --others --exclude-standard
} | sort -u >"$work/changed"
git show "$since:crates.txt" >"$work/crates.txt"

python3 - "$work" <<'PYTHON'
import os, re, sys

# A crate above what changed is proved too if it has at most so many lines of code and of proofs: some two minutes each.
SHORT = 20_000
work = sys.argv[1]


def named(path):
    found = {}
    for line in open(path, encoding="utf-8"):
        name, colon, crates = line.split("#")[0].partition(":")
        if colon:
            found[name.split()[0]] = (name.split()[1:], crates.split())
    return found


below, before = named("crates.txt"), named(f"{work}/crates.txt")
files = open(f"{work}/changed", encoding="utf-8").read().split("\n")
changed = {path.split("/")[1] for path in files if path.startswith("crates/")} & set(below)
changed |= {name for name in below if below[name] != before.get(name)}
above = set(changed)
while True:
    more = {name for name in below if name not in above and above & set(below[name][1])}
    if not more:
        break
    above |= more


def texts(name, *ends):
    for folder, _, names in os.walk(f"crates/{name}"):
        if "/out" not in folder:
            for file in names:
                if file.endswith(ends):
                    yield open(f"{folder}/{file}", encoding="utf-8").read()


def is_short(name):
    is_library = os.path.exists(f"crates/{name}/src/lib.rt")
    return is_library and sum(text.count("\n") for text in texts(name, ".rt", ".antt")) <= SHORT


proved = [name for name in below if name in changed or name in above and is_short(name)]
rest = [name for name in below if name in above and name not in proved]
programs = [name for name in rest if os.path.exists(f"crates/{name}/stdout") and name != "test_bench"]
tests = [name for name in rest if any(re.search(r"#\[test\]", text) for text in texts(name, ".rt"))]
left = [name for name in rest if name not in programs and name not in tests]
for what, names in (("proved", proved), ("programs", programs), ("tests", tests), ("left", left)):
    with open(f"{work}/{what}", "w", encoding="utf-8") as file:
        file.write(" ".join(names))
PYTHON
left=$(cat "$work/left")

# Runs a step, and shows what it says where it fails.
step() {
    echo "quick: $*"
    "$@" >"$work/said" 2>&1 || {
        tail -n 40 "$work/said"
        exit 1
    }
    tail -n 1 "$work/said"
}

# Runs a program without proof, on its stored input.
try_program() {
    local crate=crates/$1 words=() data=() wanted=0 status=0 input=/dev/null file
    [ ! -f "$crate/args" ] || mapfile -t words <"$crate/args"
    [ ! -f "$crate/status" ] || wanted=$(cat "$crate/status")
    [ ! -f "$crate/stdin" ] || input=$PWD/$crate/stdin
    if [ -d "$crate/data" ]; then
        for file in "$crate"/data/*; do
            data+=(--data "${file##*/}=data/${file##*/}")
        done
    fi
    (cd "$crate" && "$top/scripts/rt.py" try --steps 1 "${data[@]}" -- "${words[@]}" <"$input" >"$work/printed") || status=$?
    [ "$status" -eq "$wanted" ] && cmp "$work/printed" "$crate/stdout"
}

# Runs the rows of the bench without proof.
try_rows() {
    mkdir "$work/cases"
    for body in blocks plain; do
        : >"$work/cases/$body"
        printf '%s\nrows\n' "$body" >"$work/cases/$body.args"
    done
    : >"$work/cases/references"
    echo references >"$work/cases/references.args"
    (cd crates/test_bench && "$top/scripts/rt.py" try --steps 1 --seconds 600 --cases "$work/cases") || true
}

step scripts/counts.py
if [ -s "$work/proved" ]; then
    echo "quick: proves $(cat "$work/proved")"
    if rt help 2>&1 | grep -q 'rt ci .*NAME'; then
        # shellcheck disable=SC2046 # names of crates
        rt ci $(cat "$work/proved")
    else
        for name in $(cat "$work/proved"); do
            step env -C "crates/$name" "$top/scripts/rt.py" check
            step env -C "crates/$name" "$top/scripts/rt.py" test
        done
    fi
    for name in $(cat "$work/programs"); do
        step try_program "$name"
    done
    for name in $(cat "$work/tests"); do
        step env -C "crates/$name" "$top/scripts/rt.py" try --test
    done
    step try_rows
    if [ "$(grep -cE '^[1-9][0-9]* tried, 0 wrong$' "$work/said")" -ne 3 ]; then
        echo "quick: rows:" && tail -n 20 "$work/said"
        exit 1
    fi
    step scripts/steps.py
fi

# Runs a command where a changed file matches a pattern.
where_changed() {
    if grep -qE "$1" "$work/changed"; then
        step "${@:2}"
    fi
}

# The same over built programs, or leaves it out where one of these is not built.
where_built() {
    local name
    grep -qE "$1" "$work/changed" || return 0
    for name in $2; do
        if [ ! -x "crates/$name/out/$name" ]; then
            left="$left $3"
            return 0
        fi
    done
    step "${@:3}"
}

while read -r file; do
    case $file in
        scripts/*.sh) [ ! -f "$file" ] || step bash -n "$file" ;;
        scripts/*.py) [ ! -f "$file" ] || step python3 -c 'import ast, sys; ast.parse(open(sys.argv[1]).read())' "$file" ;;
    esac
done <"$work/changed"
where_changed '^scripts/(exact_rows|antt|wrong_definitions)\.py|^crates/(md_events/specs/Exact|proof_exact_pieces)/' scripts/exact_rows.py
where_changed '^scripts/((inline_rows|antt|wrong_definitions)\.py|wrong_inlines)|^crates/md_inline' scripts/inline_rows.py
where_changed '^scripts/believed\.py|^crates/.*/specs/' scripts/believed.py
where_changed '^scripts/check_states\.py' scripts/check_states.py
where_changed '^scripts/does_not_compile\.sh|^crates/examples_api/' scripts/does_not_compile.sh
where_changed '^scripts/wrong_bodies\.sh|^scripts/wrong-bodies/' scripts/wrong_bodies.sh
where_changed '^scripts/(check_)?vendor\.sh' scripts/check_vendor.sh --copies
where_changed '^scripts/c_header\.py|^(include|c)/' scripts/c_header.py --check
where_built '^scripts/check_pages\.sh|\.md$' "blocks events hoxalgurre examples_references" scripts/check_pages.sh
where_built '^scripts/check_texts\.sh|^examples/texts/' "hoxalgurre" scripts/check_texts.sh
where_built '^scripts/(check_c\.sh|c_)|^(examples/c|include|c)/' "events blocks" scripts/check_c.sh
where_built '^scripts/refuse(_memory\.sh|\.c)' "blocks events test_library examples_references hoxalgurre" scripts/refuse_memory.sh
where_built '^scripts/man\.py|^docs/hoxalgurre\.1' "hoxalgurre" scripts/man.py --check
where_built '^scripts/pictures\.py|^docs/.*\.svg' "events" scripts/pictures.py --check
# (further scripts: here)
echo "quick: passed; left out where nothing above names it: wrong bodies, refused memory, pages, texts, C${left:+, and: $left}"
