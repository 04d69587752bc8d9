#!/usr/bin/env bash
# Tries install.sh and release.sh: what is installed, also after its folder was moved, and what is unpacked from an archive;
# the completions, by each shell that is on the machine; a program in C by pkg-config; and Rust and Python over it
# (check_bindings.py).
#
# It builds all (build.sh), or takes what the folder BUILT has.
set -euo pipefail
cd "$(dirname "$0")/.."
work=$(mktemp -d)
trap 'rm -rf "$work"' EXIT
passed=0
fail() {
    echo "install: $*"
    exit 1
}
pass() {
    passed=$((passed + 1))
}
export BUILT=${BUILT:-$work/built}
[ -d "$BUILT" ] || scripts/build.sh "$BUILT"

# What a folder has that everything was installed to.
check_installed() {
    local prefix=$1 text
    text=$(printf '# a\n' | "$prefix/bin/hoxalgurre" headings)
    [ "$text" = "1:1 0..4 a" ] || fail "the program prints $text"
    cmp -s docs/hoxalgurre.1 "$prefix/share/man/man1/hoxalgurre.1" || fail "the manual page is another"
    ! command -v man >/dev/null || man -l "$prefix/share/man/man1/hoxalgurre.1" | grep -q '^EXAMPLES$' || fail "man shows no examples"
    grep -qx "commit $(git rev-parse HEAD).*" "$prefix/share/doc/hoxalgurre/BUILT" || fail "BUILT has no commit"
    [ "$(cat "$BUILT/HOW")" != proved ] || grep -q 'syntax errors' "$prefix/share/doc/hoxalgurre/BUILT" \
        || fail "BUILT does not say what is proved"
    [ "$(readlink "$prefix/lib/libhoxalgurre.so")" = libhoxalgurre.so.1 ] || fail "the link of the shared library"
    cat >"$work/a.c" <<'C'
#include <hoxalgurre.h>
#include <stdio.h>
int main(void) {
    struct hoxalgurre_document document;
    const uint64_t github = HOXALGURRE_GFM | HOXALGURRE_GFM_INLINES;
    uint32_t status = hoxalgurre_parse((const uint8_t *)"*a*", 3, github, HOXALGURRE_WANT_HTML, &document);
    printf("%u %s %s", status, hoxalgurre_version() == HOXALGURRE_VERSION ? "same" : "other", document.html);
    hoxalgurre_free(&document);
    return 0;
}
C
    local flags=()
    export PKG_CONFIG_PATH="$prefix/lib/pkgconfig"
    eval "flags=($(pkg-config --cflags --libs hoxalgurre))"
    for how in shared static; do
        [ "$how" = shared ] || flags=("-I$prefix/include" "$prefix/lib/libhoxalgurre.a")
        gcc -std=c11 -Wall -Wextra -Werror "$work/a.c" "${flags[@]}" -o "$work/a"
        text=$(LD_LIBRARY_PATH=$prefix/lib "$work/a")
        [ "$text" = "0 same <p><em>a</em></p>" ] || fail "the $how library gives $text"
        pass
    done
    unset PKG_CONFIG_PATH
    pass
}
scripts/install.sh "$work/one two" >"$work/said"
check_installed "$work/one two"
mv "$work/one two" "$work/moved"
check_installed "$work/moved"

# Refused calls.
for words in "" "--unproved" "a b"; do
    # shellcheck disable=SC2086
    ! scripts/install.sh $words >"$work/said" 2>&1 || fail "install.sh $words is taken"
    grep -q usage "$work/said" || fail "install.sh $words is refused for another reason"
    pass
done

# Completions: commands where a line begins, options of one, the values of an option.
share=$work/moved/share
complete_in_bash() {
    bash -c 'source "$1"; shift; COMP_WORDS=("$@"); COMP_CWORD=$(($# - 1)); _hoxalgurre; echo "${COMPREPLY[*]}"' bash \
        "$share/bash-completion/completions/hoxalgurre" hoxalgurre "$@"
}
compare() {
    [ "$2" = "$3" ] || fail "$1 completes $2, and not $3"
    pass
}
compare bash "$(complete_in_bash he)" "headings"
compare bash "$(complete_in_bash headings --t)" "--toc"
compare bash "$(complete_in_bash links --constructs a)" "all alerts"
if command -v fish >/dev/null; then
    complete_in_fish() {
        fish -N -c "source $share/fish/vendor_completions.d/hoxalgurre.fish; complete -C '$1'" | cut -f 1 | paste -sd ' '
    }
    compare fish "$(complete_in_fish 'hoxalgurre he')" "headings"
    compare fish "$(complete_in_fish 'hoxalgurre headings --t')" "--toc"
    compare fish "$(complete_in_fish 'hoxalgurre links --constructs a')" "alerts all"
else
    echo "install: without fish its completions are left out"
fi
if command -v zsh >/dev/null; then
    zsh -n "$share/zsh/site-functions/_hoxalgurre" || fail "zsh does not read its completions"
    pass
else
    echo "install: without zsh its completions are left out"
fi

# The archive, where all is committed.
if [ -z "$(git status --porcelain)" ]; then
    mkdir "$work/unpacked"
    scripts/release.sh "$work" >"$work/said"
    tar -C "$work/unpacked" --strip-components=1 -xf "$work"/hoxalgurre-*.tar.gz
    check_installed "$work/unpacked"
else
    echo "install: with changes that are not committed no archive is made"
fi
echo "install: $passed passed, 0 failed"
INSTALLED=$work/moved scripts/check_bindings.py
