#!/usr/bin/env bash
# Tests the library for C (`c_library.sh`), static and shared, by the programs of `c/tests` and `examples/c`:
#
# - the header has the names, numbers and constructs of the library, and the libraries have its functions and no other;
# - calls with what CommonMark and the header say of them, and each request for memory refused in turn;
# - on the texts of `examples/texts` under each set the events and outlines that `events` and `blocks` print; there and
#   on random texts all calls agree, in eight threads, with the sanitizers of clang where it has them;
# - two shared libraries of different versions in one process, beside a static one;
# - the link checker of `examples/c` on the text with planted faults.
#
# It takes what `rt ci` has built (build.sh), or a static library LIBRARY and the programs of the folder PROGRAMS, where
# these are set. With `--fuzz SECONDS SEED` it tries random texts alone.
set -euo pipefail
cd "$(dirname "$0")/.."
seconds=5
seed=1
if [ "${1:-}" = --fuzz ]; then
    seconds=$2
    seed=$3
fi
scripts/c_header.py --check
events=${PROGRAMS:-crates/events/out}/events
blocks=${PROGRAMS:-crates/blocks/out}/blocks
work=$(mktemp -d)
trap 'rm -rf "$work"' EXIT

library=${LIBRARY:-$work/libhoxalgurre_c.a}
if [ ! -f "$library" ]; then
    scripts/build.sh --left "$work" || scripts/build.sh "$work"
fi
scripts/c_library.sh "$library" "$work"

# The same with a version 1.9.1, as another library.
mkdir "$work/other"
cp -r include c scripts "$work/other/"
sed -i 's/\(VERSION_MINOR\) 0/\1 9/; s/\(VERSION_PATCH\) 0/\1 1/' "$work/other/include/hoxalgurre.h"
"$work/other/scripts/c_library.sh" "$library" "$work/other"

# Builds a program of `c/tests` or `examples/c` over the static library: compile FILE.c [FLAGS].
compile() {
    local name
    name=$(basename "$1" .c)
    gcc -std=c11 -O2 -Wall -Wextra -Werror -Iinclude "$1" "$work/libhoxalgurre.a" -o "$work/$name" "${@:2}"
}
# The threads and random texts, with the sanitizers of clang where it has them.
sanitizers=(-fsanitize=address,undefined)
echo 'int main(void) { return 0; }' >"$work/none.c"
clang "${sanitizers[@]}" "$work/none.c" -o "$work/none" 2>/dev/null || sanitizers=()
for name in threads fuzz; do
    if [ ${#sanitizers[@]} -gt 0 ]; then
        clang -std=c11 -O1 -g "${sanitizers[@]}" -Iinclude "c/tests/$name.c" "$work/libhoxalgurre.a" -pthread \
            -o "$work/$name"
    else
        compile "c/tests/$name.c" -pthread
    fi
done

if [ "${1:-}" = --fuzz ]; then
    "$work/fuzz" "$seconds" "$seed"
    exit
fi

# The examples by their Makefile, over the shared library as it is installed.
cp -r examples/c "$work/examples"
mkdir -p "$work/prefix/lib" "$work/prefix/include"
cp include/hoxalgurre.h "$work/prefix/include/"
cp "$work/libhoxalgurre.so" "$work/prefix/lib/"
ln -s libhoxalgurre.so "$work/prefix/lib/$(objdump -p "$work/libhoxalgurre.so" | awk '$1 == "SONAME" { print $2 }')"
make -s -C "$work/examples" PREFIX="$work/prefix" CFLAGS="-O2 -Wall -Wextra -Werror"
compile c/tests/calls.c
compile c/tests/outline.c
compile c/tests/versions.c -ldl
compile c/tests/memory.c -Wl,--wrap=malloc,--wrap=realloc,--wrap=free
passed=0
failed=0
compare() {
    if cmp -s "$work/wanted" "$work/printed"; then
        passed=$((passed + 1))
    else
        echo "$1: prints something else than is wanted"
        diff "$work/wanted" "$work/printed" | head -n 20 || true
        failed=$((failed + 1))
    fi
}
succeeds() {
    if "$@"; then
        passed=$((passed + 1))
    else
        echo "$*: status $?"
        failed=$((failed + 1))
    fi
}

# The functions of the header, and what each library has for others.
grep -oE '\bhoxalgurre_[a-z0-9_]+\(' include/hoxalgurre.h | tr -d '(' | sort -u >"$work/wanted"
nm -g --defined-only "$work/libhoxalgurre.a" | awk 'NF == 3 { print $3 }' | sort >"$work/printed"
compare "the symbols of the static library"
nm -D --defined-only "$work/libhoxalgurre.so" | awk '$2 == "T" { print $3 }' | sed 's/@.*//' | sort >"$work/printed"
compare "the symbols of the shared library"

for text in examples/texts/*.md docs/events.md; do
    for set in commonmark gfm all alerts; do
        "$events" "$set" <"$text" >"$work/wanted"
        "$work/examples/events" "$set" <"$text" >"$work/printed" || true
        compare "examples/c $set $text"
        "$blocks" "$set" <"$text" >"$work/wanted"
        "$work/outline" "$set" <"$text" >"$work/printed" || true
        compare "c/tests/outline $set $text"
    done
done

# Calls that are refused.
refused() {
    printf 'ab\xffc' | "$@" >"$work/printed" 2>&1 || echo "status $?" >>"$work/printed"
    compare "$*"
}
printf 'events: not UTF-8 at byte 2\nstatus 1\n' >"$work/wanted"
refused "$work/examples/events" gfm
printf 'usage: events commonmark|gfm|all|alerts < TEXT\nstatus 2\n' >"$work/wanted"
refused "$work/examples/events" none

{
    sed 's|^|examples/texts/planted.md:|' examples/cases/planted.txt
    echo "status 1"
} >"$work/wanted"
refused "$work/examples/links" examples/texts/planted.md
[ "$(wc -l <examples/c/links.c)" -le 60 ] || { echo "examples/c/links.c: more than 60 lines"; failed=$((failed + 1)); }

succeeds "$work/calls"
succeeds "$work/memory"
succeeds "$work/versions" "$work/libhoxalgurre.so" "$work/other/libhoxalgurre.so"
succeeds "$work/threads" examples/texts/*.md docs/*.md
succeeds "$work/fuzz" "$seconds" "$seed"
echo "c: $passed passed, $failed failed"
[ "$failed" -eq 0 ]
