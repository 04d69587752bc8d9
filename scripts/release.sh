#!/usr/bin/env bash
# Makes an archive of what install.sh installs, for machines without the kit: release.sh [FOLDER], by default the folder that
# it is called in. Its file share/doc/hoxalgurre/BUILT has the commit and what was proved. It is unpacked anywhere:
#
#     tar -C PREFIX --strip-components=1 -xf hoxalgurre-VERSION-x86_64-linux.tar.gz
set -euo pipefail
to=$(realpath "${1:-.}")
cd "$(dirname "$0")/.."
if [ -n "$(git status --porcelain)" ]; then
    echo "release: there are changes that are not committed" >&2
    exit 2
fi
work=$(mktemp -d)
trap 'rm -rf "$work"' EXIT
scripts/install.sh "$work/new"
name=hoxalgurre-$("$work/new/bin/hoxalgurre" --version | cut -d ' ' -f 2)-$(uname -m)-linux
mv "$work/new" "$work/$name"
tar -C "$work" --sort=name --owner=0 --group=0 --numeric-owner --mtime="$(git log -1 --format=%cI)" -czf "$to/$name.tar.gz" "$name"
echo "release: $to/$name.tar.gz"
