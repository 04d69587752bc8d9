#!/usr/bin/env bash
# Installs the program `hoxalgurre` and the library for C below a folder: install.sh [--unproved] PREFIX
#
#     PREFIX/bin/hoxalgurre                     the program
#     PREFIX/lib/libhoxalgurre.a, .so           the library for C, with pkgconfig/hoxalgurre.pc
#     PREFIX/include/hoxalgurre.h               its header
#     PREFIX/share/man/man1/hoxalgurre.1        the manual page
#     PREFIX/share/                             completions for bash, zsh and fish
#     PREFIX/share/doc/hoxalgurre/BUILT         the commit, and what was proved
#
# It needs the kit, gcc and Python 3. Only proved crates are built, quickly where the gate has passed on this commit
# (build.sh). --unproved builds without proof, with checks that stop the program where a proof would have to rule
# something out.
# The folder may be moved. Where BUILT is set, that folder has what build.sh makes.
set -euo pipefail
cd "$(dirname "$0")/.."
how=()
if [ "${1:-}" = --unproved ]; then
    how=(--unproved)
    shift
fi
if [ $# -ne 1 ] || [ -z "$1" ]; then
    echo "usage: scripts/install.sh [--unproved] PREFIX" >&2
    exit 2
fi
mkdir -p "$1"
prefix=$(cd "$1" && pwd)
work=$(mktemp -d)
trap 'rm -rf "$work"' EXIT
if [ -n "${BUILT:-}" ]; then
    cp "$BUILT/hoxalgurre" "$BUILT/libhoxalgurre.a" "$BUILT/libhoxalgurre.so" "$BUILT/HOW" "$work/"
else
    scripts/build.sh "${how[@]}" "$work"
fi
version=$("$work/hoxalgurre" --version | cut -d ' ' -f 2)
place() {
    install -D -m "$1" "$2" "$prefix/$3"
}
place 755 "$work/hoxalgurre" bin/hoxalgurre
place 644 "$work/libhoxalgurre.a" lib/libhoxalgurre.a
place 755 "$work/libhoxalgurre.so" lib/libhoxalgurre.so.1
ln -sf libhoxalgurre.so.1 "$prefix/lib/libhoxalgurre.so"
place 644 include/hoxalgurre.h include/hoxalgurre.h
sed -n 's/^#define HOXALGURRE_VERSION_\(MAJOR\|MINOR\|PATCH\) \([0-9]*\)$/\2/p' include/hoxalgurre.h | paste -sd . >"$work/version"
cat >"$work/hoxalgurre.pc" <<PC
prefix=\${pcfiledir}/../..
libdir=\${prefix}/lib
includedir=\${prefix}/include

Name: hoxalgurre
Description: Markdown to events, labels, an outline and HTML, by a parser with proofs
Version: $(cat "$work/version")
Libs: -L\${libdir} -lhoxalgurre
Cflags: -I\${includedir}
PC
place 644 "$work/hoxalgurre.pc" lib/pkgconfig/hoxalgurre.pc
place 644 docs/hoxalgurre.1 share/man/man1/hoxalgurre.1
for shell in bash zsh fish; do
    PROGRAMS=$work scripts/completions.py "$shell" >"$work/$shell"
done
place 644 "$work/bash" share/bash-completion/completions/hoxalgurre
place 644 "$work/zsh" share/zsh/site-functions/_hoxalgurre
place 644 "$work/fish" share/fish/vendor_completions.d/hoxalgurre.fish
commit=$(git rev-parse HEAD 2>/dev/null || echo unknown)
[ -z "$(git status --porcelain -- crates crates.txt c include docs scripts 2>/dev/null)" ] || commit="$commit and changes"
{
    echo "hoxalgurre $version, library for C $(cat "$work/version")"
    echo "commit $commit"
    rt version
    if [ "$(cat "$work/HOW")" != proved ]; then
        echo "It was built without proof."
    else
        echo "Proved when it was built: every crate below the program and the library for C, by \`rt ci\`. What that means:"
        echo
        sed -n '/^## What is proved$/,/^## /{/^## /d;p}' README.md
    fi
} >"$work/BUILT"
place 644 "$work/BUILT" share/doc/hoxalgurre/BUILT
place 644 LICENSE share/doc/hoxalgurre/LICENSE
echo "installed: hoxalgurre $version in $prefix"
