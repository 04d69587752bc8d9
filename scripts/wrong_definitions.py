"""Tries wrong definitions in the place of others. Each must change what a row says."""
import multiprocessing
import os
import sys

import antt
import counts


class Rows:
    """Rows by their names, and what says whether one holds in a library.

    `path_of` gives the module of a definition by the name that wrong definitions have for it."""

    def __init__(self, library, path_of, rows, holds):
        self.library, self.path_of, self.rows, self.holds = library, path_of, rows, holds

    def is_refused_by(self, name):
        try:
            return not self.holds(self.library, *self.rows[name])
        except (ValueError, RecursionError):
            return True

    def refusing(self, names):
        """The first of these rows that does not hold, or None."""
        return next(filter(self.is_refused_by, names), None)

    def faults(self, wrong):
        """What is wrong with a wrong definition, or with the definition itself where there is none: a list of lines."""
        if wrong is None:
            return [f"the definition itself is refused by {name}" for name in self.rows if self.is_refused_by(name)]
        what, by, name, old, new = wrong
        path = self.path_of(name)
        text = open(self.library.file(path), encoding="utf8").read()
        if text.count(old) != 1:
            return [f"{name} has {text.count(old)} times: {old}"]
        if by is not None and by not in self.rows:
            return [f"there is no row {by}"]
        with self.library.instead(path, text.replace(old, new)):
            if by is not None and self.is_refused_by(by):
                return []
            other = self.refusing(self.rows)
        if other is None:
            return [f"no row refuses: {what}"]
        return [] if by is None else [f"{by} does not refuse, but {other}: {what}"]


def faults(wrong):
    return TRIED.faults(wrong)


def run(said, tried, all_wrong, rows_name, wrong_name):
    """Tries the definition and all wrong ones, each with the row that it names, and says how many there are."""
    global TRIED
    TRIED = tried
    # one process a processor, each with one definition at a time
    with multiprocessing.get_context("fork").Pool(len(os.sched_getaffinity(0))) as pool:
        found = [line for lines in pool.imap(faults, [None, *all_wrong]) for line in lines]
    for line in found:
        print(f"{said}: {line}")
    failed = len(found)
    failed += counts.wrong_count(rows_name, len(tried.rows))
    failed += counts.wrong_count(wrong_name, len(all_wrong))
    print(f"{said}: {len(tried.rows)} {rows_name}, {len(all_wrong)} {wrong_name}, {failed} failed")
    sys.exit(failed > 0)
