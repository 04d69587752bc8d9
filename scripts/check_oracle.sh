#!/usr/bin/env bash
# Runs the command of docs/oracle.md, and compares what it prints with what the page shows. The page is about one version of
# cmark: with another one, or none, it is left out.
#
# It takes the program that `rt ci` has built, or that of the folder PROGRAMS, where that is set.
set -euo pipefail
cd "$(dirname "$0")/.."
page=docs/oracle.md
version=$(sed -n 's/.*with cmark \([0-9.]*[0-9]\).*/\1/p' "$page" | head -n 1)
if ! cmark --version 2>/dev/null | grep -q "^cmark $version "; then
    echo "oracle: left out without cmark $version"
    exit 0
fi
command=$(sed -n 's/^    \(scripts\/oracle\.py .*\)$/\1/p' "$page")
wanted=$(python3 - "$page" <<'PYTHON'
import re, sys
text = open(sys.argv[1], encoding="utf-8").read()
print(re.search(r"<!-- oracle -->\n```\n(.*?)\n```\n", text, re.S)[1])
PYTHON
)
# shellcheck disable=SC2086
printed=$($command) || [ $? -eq 1 ]
if [ "$printed" != "$wanted" ]; then
    printf '%s prints\n%s\nand not\n%s\n' "$command" "$printed" "$wanted"
    exit 1
fi
echo "oracle: 1 passed, 0 failed"
