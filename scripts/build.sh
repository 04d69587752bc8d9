#!/usr/bin/env bash
# Builds what users get: build.sh [--left|--unproved] FOLDER. FOLDER gets the program `hoxalgurre`, the static library of
# the crate hoxalgurre_c, libhoxalgurre.a and libhoxalgurre.so for C (c_library.sh), and the file HOW, which says
# `proved` or `unproved`.
#
# `rt ci` proves and builds both in a copy of the crates below them; some kits keep what they proved before on this
# machine. --left takes what `rt ci` has just left in this repository, and so does a call without it where the gate has
# passed on the same commit (out/gate). --unproved builds without proof (unproved.py).
set -euo pipefail
cd "$(dirname "$0")/.."
how=
case ${1:-} in
    --left | --unproved)
        how=${1#--}
        shift
        ;;
esac
if [ $# -ne 1 ]; then
    echo "usage: scripts/build.sh [--left|--unproved] FOLDER" >&2
    exit 2
fi
if [ -z "$how" ] && [ -f out/gate ] && [ "$(cat out/gate)" = "$(git rev-parse HEAD)" ] && \
    [ -z "$(git status --porcelain -- crates crates.txt HANDLES)" ]; then
    how=left
fi
mkdir -p "$1"
out=$(cd "$1" && pwd)
work=$(mktemp -d)
trap 'rm -rf "$work"' EXIT

# The crates below some, and those, in the order of crates.txt.
below() {
    python3 - crates.txt "$@" <<'PYTHON'
import sys
lines = [line.split("#")[0].partition(":") for line in open(sys.argv[1], encoding="utf-8")]
own = {name.split()[0]: crates.split() for name, colon, crates in lines if colon}
needed, left = set(), sys.argv[2:]
while left:
    name = left.pop()
    if name in own and name not in needed:
        needed.add(name)
        left += own[name]
print(" ".join(name for name in own if name in needed))
PYTHON
}

# Proves and builds a program and the static library over a copy of the crates.
proved() {
    mkdir "$work/crates"
    cp HANDLES "$work/"
    for crate in $(below hoxalgurre hoxalgurre_c); do
        tar -C crates --exclude=out --exclude=must-fail -cf - "$crate" | tar -C "$work/crates" -xf -
        grep -E "^$crate( |:)" crates.txt >>"$work/crates.txt"
    done
    (cd "$work" && RT_JOBS=${RT_JOBS:-$(nproc)} "$OLDPWD/scripts/rt.py" ci) >"$work/said" 2>&1 || {
        tail -n 30 "$work/said"
        exit 1
    }
    cp "$work/crates/hoxalgurre/out/hoxalgurre" "$out/"
    (cd "$work" && cp -r "$OLDPWD/scripts" . && scripts/over_libraries.sh hoxalgurre_c crates/hoxalgurre_c "$used" \
        "$out/libhoxalgurre_c.a")
}

used=$(sed -n 's/^hoxalgurre_c[^:]*: *//p' crates.txt)
case $how in
    unproved)
        scripts/unproved.py hoxalgurre "$out/hoxalgurre" &
        program=$!
        scripts/unproved.py hoxalgurre_c "$out/libhoxalgurre_c.a"
        wait "$program"
        ;;
    left)
        cp crates/hoxalgurre/out/hoxalgurre "$out/"
        scripts/over_libraries.sh hoxalgurre_c crates/hoxalgurre_c "$used" "$out/libhoxalgurre_c.a"
        ;;
    *) proved ;;
esac
if [ "$how" = unproved ]; then echo unproved; else echo proved; fi >"$out/HOW"
scripts/c_library.sh "$out/libhoxalgurre_c.a" "$out"
