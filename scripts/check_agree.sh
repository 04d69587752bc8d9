#!/usr/bin/env bash
# Tries the parser against the plain program on all short texts of some alphabets, of more letters than `test_bench`
# does without an argument: a program that `rt ci` runs has a limited time. It takes the program that `rt ci` has built,
# or that of the folder PROGRAMS.
set -euo pipefail
cd "$(dirname "$0")/.."
said=$("${PROGRAMS:-crates/test_bench/out}/test_bench" agree 7)
tail -n 1 <<<"agreement: $said"
[ "$said" = "8046576 tried, 0 wrong" ] || {
    echo "not 8046576 tried, 0 wrong"
    exit 1
}
