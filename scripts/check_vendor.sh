#!/usr/bin/env bash
# Tries `scripts/vendor.sh`, and what docs/api.md says of how to depend on the library.
#
# In a copy of this repository: a call into itself, also by a symbolic link, or onto a crate of the user's is refused and
# changes nothing; a call brings the crates, the pages and the commit; a second call brings what is new, and removes a
# crate that went, and no crate of the user's; a library over `markdown_blocks` comes where it is named, and goes where it
# no longer is. Then, in a folder that `scripts/vendor.sh` has made, the program of docs/api.md is proved and prints what
# is said there: by `rt ci`, where the kit keeps what it has proved of the library in this repository, otherwise over the
# libraries that `rt ci` has left here, whose files those of the folder are. `--copies` leaves the program out.
set -euo pipefail
cd "$(dirname "$0")/.."
work=$(mktemp -d)
trap 'rm -rf "$work"' EXIT
passed=0
fail() {
    echo "vendor: $*"
    exit 1
}
sum_of() {
    (cd "$1" && find . -path ./.git -prune -o -type f -print0 | sort -z | xargs -0 sha256sum | sha256sum)
}

# A copy of this repository with one crate more below the library.
own=$work/own
mkdir -p "$own/crates"
cp -r scripts docs crates.txt HANDLES LICENSE README.md CHANGELOG.md "$own/"
tar -C crates --exclude=out -cf - . | tar -C "$own/crates" -xf -
mkdir -p "$own/crates/md_gone/src"
echo '// A crate that goes.' >"$own/crates/md_gone/src/lib.rt"
sed -i 's/^markdown_blocks:/markdown_blocks: md_gone/' "$own/crates.txt"
echo 'md_gone:' >>"$own/crates.txt"
commit() {
    git -C "$own" add -A
    git -C "$own" -c user.name=check -c user.email=check@localhost commit -q -m "$1"
}
git -C "$own" init -q
commit begin

# Refused: the repository itself, and onto a crate that no call has brought.
before=$(sum_of "$own")
ln -s "$own" "$work/link"
mkdir -p "$work/linked"
ln -s "$own/crates" "$work/linked/crates"
for target in "$own" "$own/crates/new" "$own/../own/docs" "$work/link" "$work/link/new" "$work/linked"; do
    ! "$own/scripts/vendor.sh" "$target" >"$work/said" 2>&1 || fail "$target is not refused"
    grep -q 'is in this repository' "$work/said" || fail "$target is refused for another reason: $(cat "$work/said")"
    [ "$(sum_of "$own")" = "$before" ] || fail "$target changes the repository"
    passed=$((passed + 1))
done
user=$work/user
mkdir -p "$user/crates/mine/src" "$user/crates/md_leaves/src"
echo '// A crate of the user.' | tee "$user/crates/mine/src/lib.rt" >"$user/crates/md_leaves/src/lib.rt"
printf '# mine\nmine:' >"$user/crates.txt"
before=$(sum_of "$user")
! "$own/scripts/vendor.sh" "$user" >"$work/said" 2>&1 || fail "a crate of the user is replaced"
[ "$(sum_of "$user")" = "$before" ] || fail "a refused call changes the folder"
passed=$((passed + 1))

# The first call.
rm -r "$user/crates/md_leaves"
"$own/scripts/vendor.sh" "$user" >"$work/said"
copy=$user/docs/hoxalgurre
grep -qx "commit $(git -C "$own" rev-parse HEAD)" "$copy/VENDORED" || fail "the commit is not in VENDORED"
for page in README.md LICENSE CHANGELOG.md api.md events.md events.svg definitions.md; do
    [ -s "$copy/$page" ] || fail "$page is not there"
done
for crate in markdown_blocks md_leaves md_gone; do
    [ -s "$user/crates/$crate/src/lib.rt" ] || fail "$crate is not there"
    [ "$(grep -c "^$crate:" "$user/crates.txt")" -eq 1 ] || fail "$crate is not once in crates.txt"
done
[ ! -e "$user/crates/test_bench" ] || fail "bench is there"
[ "$(find "$user/crates" -name must-fail | wc -l)" -eq 0 ] || fail "must-fail is there"
passed=$((passed + 1))

# The second call: a crate went, one file is new, and not all is committed.
rm -r "$own/crates/md_gone"
sed -i -e '/^md_gone:/d' -e 's/^markdown_blocks: md_gone/markdown_blocks:/' "$own/crates.txt"
echo '// A comment.' >>"$own/crates/md_leaves/src/lib.rt"
"$own/scripts/vendor.sh" "$user" >"$work/said"
[ ! -e "$user/crates/md_gone" ] || fail "a crate that went is there"
! grep -q md_gone "$user/crates.txt" "$copy/VENDORED" || fail "a crate that went is in a list"
cmp -s "$own/crates/md_leaves/src/lib.rt" "$user/crates/md_leaves/src/lib.rt" || fail "a file is not updated"
grep -qx "commit $(git -C "$own" rev-parse HEAD) and changes that are not committed" "$copy/VENDORED" || fail "changes are not in VENDORED"
[ -s "$user/crates/mine/src/lib.rt" ] || fail "the user's crate went"
[ "$(grep -cx -e 'mine:' -e '# mine' "$user/crates.txt")" -eq 2 ] || fail "a line of the user went"
passed=$((passed + 1))

# A library more, which stays until others are named.
for names in 'markdown_blocks markdown_inlines' ''; do
    # shellcheck disable=SC2086
    "$own/scripts/vendor.sh" "$user" $names >"$work/said"
    [ -s "$user/crates/markdown_inlines/LICENSE" ] || fail "markdown_inlines is not there"
    [ -s "$user/crates/md_inlines/src/lib.rt" ] || fail "md_inlines is not there"
    [ "$(grep -c '^library markdown_' "$copy/VENDORED")" -eq 2 ] || fail "there are not two libraries"
done
"$own/scripts/vendor.sh" "$user" markdown_blocks >"$work/said"
[ ! -e "$user/crates/md_inlines" ] || fail "a crate of a library that went is there"
for name in md_leaves hoxalgurre markdown_none; do
    ! "$own/scripts/vendor.sh" "$user" "$name" >"$work/said" 2>&1 || fail "$name is taken for a library"
done
passed=$((passed + 1))
rm -rf "$own" "$user"
if [ "${1:-}" = --copies ]; then
    echo "vendored copies: $passed passed, 0 failed"
    exit 0
fi

# The program of docs/api.md.
mine=$work/mine
scripts/vendor.sh "$mine"
mkdir -p "$mine/crates/words/src"
echo "words: markdown_blocks" >>"$mine/crates.txt"
python3 - docs/api.md "$mine/crates/words" <<'PYTHON'
import re, sys
page, crate = sys.argv[1:]
text = open(page, encoding="utf-8").read()
for path in ("src/main.rt", "stdin", "stdout"):
    mark = f"<!-- crates/words/{path} -->"
    found = re.findall(re.escape(mark) + r"\n```\w*\n(.*?\n)```\n", text, re.S)
    if len(found) != 1:
        sys.exit(f"{page}: {mark} is there {len(found)} times")
    open(f"{crate}/{path}", "w", encoding="utf-8").write(found[0])
PYTHON
if rt help 2>&1 | grep -q 'rt ci .*NAME'; then
    (cd "$mine" && rt ci) >"$work/said" || {
        tail -n 30 "$work/said"
        exit 1
    }
    tail -n 3 "$work/said"
else
    for crate in "$mine"/crates/*/; do
        crate=$(basename "$crate")
        [ "$crate" = words ] || diff -rq -x out -x must-fail -x LICENSE "crates/$crate" "$mine/crates/$crate" \
            || fail "$crate is another"
        [ "$(grep "^$crate:" "$mine/crates.txt")" = "$(grep "^$crate:" crates.txt || echo "words: markdown_blocks")" ] \
            || fail "$crate is over others"
    done
    scripts/over_libraries.sh words "$mine/crates/words" markdown_blocks "$work/words"
    "$work/words" <"$mine/crates/words/stdin" >"$work/said"
    cmp "$work/said" "$mine/crates/words/stdout" || fail "the program of docs/api.md prints something else"
fi
echo "vendored library: $((passed + 1)) passed, 0 failed"
