"""python3 -m hoxalgurre [SET] < TEXT: prints the events of the blocks of a text, as the program `events` does."""
import sys

from . import INLINES, SETS, Events, Refused


def main(chosen: str = "gfm") -> int:
    if chosen not in SETS:
        print(f"hoxalgurre: no set {chosen}", file=sys.stderr)
        return 2
    depth = 0
    try:
        for event in Events(sys.stdin.buffer.read(), SETS[chosen] & ~INLINES):
            depth -= event.is_exit
            sign = "-" if event.is_exit else "+"
            print("  " * depth + sign, event.name, event.line, event.column, event.index, event.vs)
            depth += not event.is_exit
    except Refused as refused:
        print(f"hoxalgurre: {refused}", file=sys.stderr)
        return 2
    return 0


if __name__ == "__main__":
    sys.exit(main(*sys.argv[1:2]))
