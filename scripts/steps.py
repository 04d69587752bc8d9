#!/usr/bin/env python3
"""Tries whether a parse has become dearer, in numbers that are the same on each machine, without proof.

`rt try` runs the program `test_cost` by an interpreter too, which counts steps. Of each text, so many parts must be
read within STEPS steps, and so many within REQUESTS requests for memory. Of a text that grows, with references that an
inline layer looks up, a size must be read within GROWN_STEPS steps, and twice that within GROWTH times as many. With
`--measure` it prints how many parts there can be now, in steps of a twentieth, and the largest size.
"""

import re
import subprocess
import sys
import tempfile
from collections.abc import Callable
from pathlib import Path

sys.dont_write_bytecode = True
import counts
import speed

ROOT = Path(__file__).resolve().parent.parent
STEPS = 1_000_000
REQUESTS = 60

# How many parts of a text must be read within the steps, and how many within the requests.
MOST: dict[str, tuple[int, int]] = {
    "paragraphs of long lines": (8, 27),
    "one long line": (82, 438),
    "headings of some words": (48, 211),
    "setext headings": (35, 60),
    "quotes of long lines": (42, 1_152),
    "quotes in quotes in quotes": (46, 1_074),
    "fences of some words": (37, 12_357),
    "lines of an open fence": (73, 18_535),
    "lines of indented code": (77, 18_535),
    "HTML": (21, 12_357),
    "definitions": (14, 5),
    "blank lines": (686, 18_535),
    "one line of tabs": (1_350, 12_357),
    "one line of spaces": (4_668, 12_357),
    "one line of `*`": (1_950, 12_357),
}

# Twice the size of a text that grows takes at most 2.05 times its steps: the size is the largest within GROWN_STEPS, or
# one less, so it takes at least 98.5 percent of these.
GROWN_STEPS = 10_000_000
GROWTH = 2.018


def looked_up(size: int) -> str:
    """So many definitions, and a reference to each of them, which `test_cost` reads by a layer that looks labels up."""
    definitions = [f"[{at}]: b\n" for at in range(size)]
    references = [f"a [{at}]\n" for at in range(size)]
    return "".join(["[references]: /\n", *definitions, "\n", *references])


# The largest size that must be read within GROWN_STEPS.
GROWN: dict[str, tuple[Callable[[int], str], int]] = {
    "references to as many definitions": (looked_up, 129),
}


def ended(texts: list[str], *limits: str) -> list[tuple[bool, bool]]:
    """Of each text, whether a run on it ends within the steps, and whether it is refused nothing."""
    with tempfile.TemporaryDirectory() as folder:
        for at, text in enumerate(texts):
            Path(folder, str(at)).write_text(text)
        done = subprocess.run(
            [ROOT / "scripts/rt.py", "try", "--cases", folder, *limits],
            cwd=ROOT / "crates/test_cost", stdin=subprocess.DEVNULL, capture_output=True, text=True,
        )
    pattern = r"^case=(\d+) run=ended status=(\d+) runners=(\d)"
    lines = re.findall(pattern, done.stdout + done.stderr, re.M)
    found = {int(at): (runners == "2", status == "0") for at, status, runners in lines}
    if len(found) != len(texts):
        sys.exit(f"not every run ended\n{done.stderr[-2000:]}")
    return [found[at] for at in range(len(texts))]


def tried(counts: dict[str, list[int]]) -> dict[str, dict[int, tuple[bool, bool]]]:
    """Of so many parts of each text: whether they are read within the steps, and whether within the requests."""
    cases = [(name, count) for name in counts for count in sorted({*counts[name]})]
    found: dict[str, dict[int, tuple[bool, bool]]] = {name: {} for name in counts}
    texts = [speed.PARTS[name] * count for name, count in cases]
    for (name, count), is_within in zip(cases, ended(texts, "--steps", str(STEPS), "--fail-alloc", str(REQUESTS + 1))):
        found[name][count] = is_within
    return found


def grown(steps: int, texts: list[str]) -> list[bool]:
    """Of each text, whether it is read within so many steps."""
    return [by_steps and is_read for by_steps, is_read in ended(texts, "--steps", str(steps))]


def measure() -> None:
    """Prints how many parts there can be, from four fifths to one and a half of what must be read now."""
    found = tried({name: sorted({count * at // 20 for count in most for at in range(16, 31)}) for name, most in MOST.items()})
    for name, within in found.items():
        best = [max((count for count, is_within in within.items() if is_within[at]), default=0) for at in (0, 1)]
        print(f'    "{name}": ({best[0]:_}, {best[1]:_}),')
    for name, (make, most) in GROWN.items():
        sizes = range(most - most // 20, most + most // 20 + 1)
        is_within = grown(GROWN_STEPS, [make(size) for size in sizes])
        print(f"    {name}: {max((size for size, it in zip(sizes, is_within) if it), default=0):_}")


def main() -> None:
    if sys.argv[1:] == ["--measure"]:
        return measure()
    if sys.argv[1:]:
        sys.exit(__doc__)
    found = tried({name: [*most] for name, most in MOST.items()})
    failed = 0
    for name, (by_steps, by_requests) in MOST.items():
        if not found[name][by_steps][0]:
            print(f"{by_steps} of {name}: more than {STEPS} steps")
            failed += 1
        if not found[name][by_requests][1]:
            print(f"{by_requests} of {name}: more than {REQUESTS} requests for memory")
            failed += 1
    for times, steps in ((1, GROWN_STEPS), (2, int(GROWTH * GROWN_STEPS))):
        is_within = grown(steps, [make(times * size) for make, size in GROWN.values()])
        for (name, (_, size)), it in zip(GROWN.items(), is_within):
            if not it:
                print(f"{times * size} {name}: more than {steps} steps")
                failed += 1
    failed += counts.wrong_count("texts of steps and requests", len(MOST) + len(GROWN))
    print(f"steps and requests: {2 * (len(MOST) + len(GROWN)) - failed} passed, {failed} failed")
    sys.exit(failed > 0)


if __name__ == "__main__":
    main()
