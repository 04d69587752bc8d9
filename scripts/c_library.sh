#!/usr/bin/env bash
# c_library.sh STATIC FOLDER: makes libhoxalgurre.a and libhoxalgurre.so of the static library of the crate
# hoxalgurre_c, as rattle builds it. To it come `c/hoxalgurre.c`, and the heap of the kit over malloc, realloc and free.
#
# All of it becomes one object file whose only global symbols are the functions of the header. So nothing of the
# toolchain clashes with a program's own symbols, or with those of another version in the same process.
set -euo pipefail
[ $# -eq 2 ] || { echo "usage: scripts/c_library.sh STATIC FOLDER" >&2; exit 2; }
static=$(realpath "$1")
to=$(realpath "$2")
cd "$(dirname "$0")/.."
heap=$(dirname "$(rt doc)")/c/liblibc_c.a
major=$(sed -n 's/^#define HOXALGURRE_VERSION_MAJOR //p' include/hoxalgurre.h)
work=$(mktemp -d)
trap 'rm -rf "$work"' EXIT
grep -oE '\bhoxalgurre_[a-z0-9_]+\(' include/hoxalgurre.h | tr -d '(' | sort -u >"$work/functions"
gcc -std=c11 -O2 -fPIC -Wall -Wextra -Werror -Iinclude -c c/hoxalgurre.c -o "$work/c.o"
ld -r -o "$work/all.o" "$work/c.o" --whole-archive "$static" "$heap"
objcopy --strip-debug --keep-global-symbols="$work/functions" "$work/all.o"
rm -f "$to/libhoxalgurre.a"
ar rcsD "$to/libhoxalgurre.a" "$work/all.o"
{
    echo "HOXALGURRE_$major { global:"
    sed 's/$/;/' "$work/functions"
    echo "local: *; };"
} >"$work/exports"
gcc -shared -o "$to/libhoxalgurre.so" "$work/all.o" -Wl,-soname,"libhoxalgurre.so.$major" -Wl,-Bsymbolic -Wl,-z,defs \
    -Wl,--version-script="$work/exports"
