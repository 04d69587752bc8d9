#!/usr/bin/env bash
# over_libraries.sh NAME FOLDER LIBRARIES OUT: proves and builds a crate over libraries that `rt ci` has built.
#
# The crate NAME is in FOLDER, and uses LIBRARIES (one word, names with spaces); those of this repository are in
# crates/*/out, where the last `rt ci` has left them. With src/main.rt it is a program, linked as `rt` does, otherwise a
# static library. The end status is 3 where `rt ci` has left no library. A static library is not proved again where
# `rt.py ci` has left in its out/checked what it proved of the same files.
set -euo pipefail
[ $# -eq 4 ] || { echo "usage: scripts/over_libraries.sh NAME FOLDER LIBRARIES OUT" >&2; exit 2; }
name=$1
folder=$2
read -ra used <<<"$3"
out=$(realpath "$4")
cd "$(dirname "$0")/.."
folder=$(realpath "$folder")
kit=$(dirname "$(rt doc)")
work=$(mktemp -d)
trap 'rm -rf "$work"' EXIT

libraries=(-L "dependency=$kit/rlibs" --extern "std=$kit/rlibs/std.rlib")
for crate in crates/*/out/rlib/*.rlib; do
    [ ! -f "$crate/format" ] || libraries+=(-L "dependency=$PWD/$(dirname "$crate")")
done
for crate in "${used[@]}"; do
    rlib=$PWD/crates/$crate/out/rlib/$crate.rlib
    [ -d "crates/$crate" ] || rlib=$kit/rlibs/$crate.rlib
    [ -f "$rlib/format" ] || exit 3
    libraries+=(--extern "$crate=$rlib")
done
words=(--crate-name "$name" "${libraries[@]}" --antt-project "$kit/rattle/logic/antt-project.json"
    --toolchain "$kit/toolchain")
anew=(--logic-built "$kit/logic_built")
status=0
if [ -f "$folder/src/main.rt" ]; then
    (cd "$folder" && "$kit/bin/rattle" build "${words[@]}" "${anew[@]}" src/main.rt --backend llvm -o "$work/made.o") \
        >"$work/said" 2>&1 || status=$?
    [ "$status" -ne 0 ] || "$kit/bin/rattle-link" --target x86_64-unknown-linux-gnu --toolchain "$kit/toolchain" -o "$out" \
        "$work/made.o" "$kit/c/libos_c.a" "$kit/c/liblibc_c.a" >"$work/said" 2>&1 || status=$?
else
    as=(src/lib.rt --crate-type staticlib -o "$work/lib$name.a")
    cd "$folder"
    { [ -d out/checked ] && "$kit/bin/rattle" build "${words[@]}" --crate-checked out/checked "${as[@]}"; } \
        >"$work/said" 2>&1 || "$kit/bin/rattle" build "${words[@]}" "${anew[@]}" "${as[@]}" >"$work/said" 2>&1 || status=$?
    [ "$status" -ne 0 ] || cp "$work/lib$name.a" "$out"
fi
[ "$status" -eq 0 ] || { tail -n 30 "$work/said"; exit 1; }
