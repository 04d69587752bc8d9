#!/usr/bin/env python3
"""Runs `rt` with these arguments, and finds what is below a crate once: `scripts/rt.py ci`, or `check` in a crate.

`rt` lists the libraries below a crate anew for each path in crates.txt that leads to them, of which there are millions in
this repository. Kits whose `rt ci` takes no names of crates also take the sum of a crate's files anew for each, by which
`rt` knows whether the build of a library is that of its files. Beside `rt try`, `rt` starts a check that proves nothing,
for a hint where it ends first: `scripts/rt.py try` starts none. No proof depends on any of this. With another kit `rt`
runs as it is.

A must-fail edit may name functions by lines `function: PATH`. Then it is refused where the proof of one of them fails with
the edit, and those of all are found without it. Edits of the bodies of single functions are tried at once, each of another
function: no proof of a function sees the body of another. An edit that is not refused so is tried by itself, and then over
the whole crate.

Kits differ in how `rt ci` tries edits: one after another (`must_fail_all`), or each in a task of its own over what one
more proof of the crate has left (`add_edits`). With these there is one task here and no such proof: the build of a library
that has edits holds the modules that were proved of it, with which the tries begin. No verdict rests on them.
"""
import contextlib
import importlib.machinery
import importlib.util
import inspect
import os
import re
import shutil
import sys
import tempfile


def loaded(path):
    """The program `rt` as a module, or None where it is no program in Python."""
    loader = importlib.machinery.SourceFileLoader("rt", path)
    module = importlib.util.module_from_spec(importlib.util.spec_from_loader("rt", loader))
    try:
        loader.exec_module(module)
    except (SyntaxError, UnicodeDecodeError, ValueError):
        return None
    return module


def list_once(crate):
    """Has each crate keep the list of those below it, which does not change once the crate is made."""
    listed = crate.below

    def below(self):
        if "kept_below" not in vars(self):
            self.kept_below = listed(self)
        return [*self.kept_below]

    crate.below = below


def take_sums_once(crate):
    """Has each crate keep its sum."""
    taken = crate.stamp

    def stamp(self):
        if "kept_sum" not in vars(self):
            self.kept_sum = taken(self)
        return self.kept_sum

    crate.stamp = stamp


def functions_of(edit):
    """The functions that a must-fail edit names."""
    with open(edit, encoding="utf-8") as file:
        return re.findall(r"^function: (\S+)$", file.read(), re.M)


def only(names):
    """The words for a check of these functions alone, and of what they call."""
    return [word for name in dict.fromkeys(names) for word in ("--only", name)]


def body_of(edit, text, old):
    """The function that a must-fail edit names, where it names one and this text is in its body; None where it is not."""
    names = functions_of(edit)
    heads = [*re.finditer(r"^( *)(?:pub(?:\([a-z]+\))? )?(?:const )?fn (\w+)", text[: text.find(old)], re.M)]
    if len(names) != 1 or not heads or heads[-1][2] != names[0].split("::")[-1]:
        return None
    before = text[heads[-1].start() : text.find(old)]
    return names[0] if re.search(rf"^(?:{heads[-1][1]}|{heads[-1][1]}fn .*)\{{$", before, re.M) else None


def bodies_together(rt, crate, edits):
    """Texts with the edits of several bodies, each of another function, and for each edit its function."""
    texts, named = {}, {}
    for edit in edits:
        with open(edit, encoding="utf-8") as file:
            said = file.read()
        said = re.sub(r"^function: .*\n", "", said, flags=re.M)
        pairs = re.findall(r"^file: (src/\S+)\nold: (.*)\nnew: ?(.*)\n?\Z", said, re.M)
        if len(pairs) != 1 or rt.read_edit(edit, crate.folder)[1]:
            continue
        path, old, new = pairs[0]
        if path not in texts:
            with open(f"{crate.folder}/{path}", encoding="utf-8") as file:
                texts[path] = file.read()
        name = body_of(edit, texts[path], old)
        if name and name not in named.values() and texts[path].count(old) == 1:
            texts[path], named[edit] = texts[path].replace(old, new), name
    return texts, named


def refuse_by_function(rt):
    """Has a check of named functions end as one of a whole crate, where one of them is not proved."""
    checked = rt.checked

    def checked_functions(crate, texts, flags, kept):
        """As `checked`, which ends in `only=N proved=M` where functions are named: a refused one refuses the crate."""
        ran = checked(crate, texts, flags, kept)
        found = re.search(r"^only=(\d+) proved=(\d+)\n*\Z", ran.stdout, re.M)
        if ran.returncode == 1 and found and int(found[2]) < int(found[1]):
            ran.stdout += "\nlogic=not-proved"
        return ran

    rt.checked = checked_functions


def refused_together(rt, crate, edits, flags, kept):
    """The edits that are refused where they are tried at once, each with what is said of it. One whose function calls
    that of another is tried again without the other."""
    texts, named = bodies_together(rt, crate, edits)
    if len(named) < 2:
        return {}
    ran = rt.checked(crate, texts, [*flags, *only(named.values())], kept)
    if ran.returncode != 1 or any(rt.unread(line, texts) for line in ran.stdout.split("\n")):
        return {}
    alone = r"(?!.*(?:it calls|it passes|a call of))"
    failed = re.findall(rf"^fn (\S+): (?:not proved|no proof){alone}", ran.stdout, re.M)
    said = "refused, as it must be, beside others: the proof of {} fails"
    refused = {
        edit: (getattr(rt, "REFUSED", True), f"must-fail {crate.name}/{os.path.basename(edit)}: {said.format(name)}")
        for edit, name in named.items()
        if f"{crate.name}::{name}" in failed
    }
    left = [edit for edit in edits if edit not in refused] if refused else []
    return {**refused, **(refused_together(rt, crate, left, flags, kept) if left else {})}


def refused_by_function(rt, crate, edits, flags, kept):
    """The edits that the functions that they name refuse, each with what is said of it; none where those are not proved
    without them. Checks begin with what the folder `kept` has."""
    named = [edit for edit in edits if functions_of(edit)]
    every = [name for edit in named for name in functions_of(edit)]
    tried = refused_together(rt, crate, named, flags, kept)
    for edit in named:
        if edit not in tried:
            tried[edit] = rt.must_fail(crate, edit, [*flags, *only(functions_of(edit))], kept)
    if named and rt.checked(crate, {}, [*flags, *only(every)], kept).returncode:
        return {}
    return {edit: it for edit, it in tried.items() if it[0] in (True, getattr(rt, "REFUSED", True), getattr(rt, "AT_LIMIT", True))}


def try_edits_by_function(rt):
    """Has the edits of a crate be tried over the functions that they name, before the whole crate."""
    over_the_crate = rt.must_fail_all

    def must_fail_all(crate, edits, flags):
        with tempfile.TemporaryDirectory(prefix="rt-edits-") as kept:
            tried = refused_by_function(rt, crate, edits, flags, kept)
        left = [edit for edit in edits if edit not in tried]
        tried.update(zip(left, over_the_crate(crate, left, flags)))
        return [tried[edit] for edit in edits]

    refuse_by_function(rt)
    rt.must_fail_all = must_fail_all


def unpack(archive, folder):
    """Writes the files of an `ar` archive below a folder."""
    with open(archive, "rb") as file:
        if file.read(8) != b"!<arch>\n":
            raise ValueError(archive)
        names = b""
        while head := file.read(60):
            name, size = head[:16].decode().strip(), int(head[48:58])
            body = file.read(size + size % 2)[:size]
            if name == "//":
                names = body
                continue
            if re.fullmatch(r"/\d+", name):
                name = names[int(name[1:]) :].split(b"/\n")[0].decode()
            path = f"{folder}/{name.removesuffix('/')}"
            os.makedirs(os.path.dirname(path), exist_ok=True)
            with open(path, "wb") as to:
                to.write(body)


def take_modules(crate, folder):
    """Gives a folder that checks begin with the modules that are proved of a library, as its build has them."""
    archive = f"{crate.rlib}/toolchain/checked.a"
    try:
        with open(archive, "rb") as file:
            found = re.search(rb"^--@ kernel (\S+)$", file.read(1 << 20), re.M)
        if found:
            unpack(archive, f"{folder}/{found[1].decode().replace('/', '_')}")
    except (OSError, ValueError):
        # Without them they are proved once more.
        shutil.rmtree(folder, ignore_errors=True)
        os.makedirs(folder)


def keep_modules(rt):
    """Has the library of a crate with edits hold the modules that are proved of it, and not its statements alone."""
    built = rt.Crate.build_rlib

    def build_rlib(crate, flags, anew):
        if not anew or not crate.cuts_libraries or not rt.edits_of(crate)[0]:
            return built(crate, flags, anew)
        crate.cuts_libraries = False
        try:
            return built(crate, flags, anew)
        finally:
            del crate.cuts_libraries
            # It fits only the libraries below as `rt ci` builds them, so no other command is to take it.
            with contextlib.suppress(OSError):
                os.remove(f"{crate.folder}/out/rlib/stamp")

    rt.Crate.build_rlib = build_rlib


def try_edits_in_one_task(rt):
    """Has `rt ci` try the edits of a crate in one task, over the functions that they name and what is proved of it."""
    added = rt.add_edits

    def must_fail_all(crate, edits, flags):
        with tempfile.TemporaryDirectory(prefix="rt-edits-") as room:
            os.mkdir(f"{room}/kept")
            take_modules(crate, f"{room}/kept")
            tried = refused_by_function(rt, crate, edits, flags, f"{room}/kept")
        tried.update({edit: rt.must_fail(crate, edit, flags) for edit in edits if edit not in tried})
        return tried

    def add_edits(tasks, crate, edits, first, waits, is_well, kept, start=None, in_ci=True):
        if start or not in_ci or not edits:
            return added(tasks, crate, edits, first, waits, is_well, kept, start, in_ci)
        known, tried = {}, {}

        def names():
            """The names under which is kept what the edits came to."""
            return dict(zip(edits, [kept.of_edit(edit, kept.key(crate)) for edit in edits]))

        def call(given, jobs):
            at_first = names()
            known.update({edit: told for edit, name in at_first.items() if (told := kept.tried(name))})
            tried.update(known)
            left = [edit for edit in edits if edit not in known]
            if not left or not is_well(given, len(left)):
                return
            tried.update(must_fail_all(crate, left, ["--jobs", str(jobs)]))
            if kept.is_untouched(crate) and names() == at_first:
                for edit in left:
                    if tried[edit][0] in rt.SETTLED:
                        kept.keep_tried(at_first[edit], *tried[edit])

        tasks[crate.name, "edits", 0] = (waits, crate.count(rb"\n"), rt.OVER * rt.need(crate), call)
        return lambda given: [tried[edit] for edit in edits], lambda: known

    keep_modules(rt)
    refuse_by_function(rt)
    rt.add_edits = add_edits


# The crates beside which few others are proved: those above the first one, or above most, wait for them.
ALMOST_ALONE = ("md_engine", "markdown_blocks", "hoxalgurre")


def hasten_some(crate):
    """Has three processes share the proof of each of these crates, while others have no processor to take. Should they be
    killed, for memory most likely, `rt` proves it once more, with one."""
    proved, tried = crate.ci, set()

    def ci(self, flags, tests):
        if self.name in ALMOST_ALONE and not tests and flags == ["--jobs", "1"] and self.name not in tried:
            tried.add(self.name)
            flags = ["--jobs", str(min(3, os.cpu_count() or 1))]
        return proved(self, flags, tests)

    crate.ci = ci


def keep_checked(crate):
    """Has the proof of a static library leave what it checked in out/checked, over which `over_libraries.sh` builds."""
    proved = crate.ci

    def ci(self, flags, tests):
        if tests or not self.is_static:
            return proved(self, flags, tests)
        shutil.rmtree(f"{self.folder}/out/checked", ignore_errors=True)
        os.makedirs(f"{self.folder}/out", exist_ok=True)
        return self.prove(["check", *self.words(flags, keeps=False), "-o", "out/checked"])

    crate.ci = ci


def has_parts(rt, parts):
    """Whether `rt` has these functions, with these parameters."""
    found = {name: getattr(rt, name, None) for name in parts}
    return all(callable(it) and [*inspect.signature(it).parameters] == parts[name] for name, it in found.items())


# What of `rt` is called or replaced, by the kits that have it.
TRIES = {"checked": ["crate", "texts", "flags", "kept"], "read_edit": ["edit", "folder"], "unread": ["line", "changed"]}
TRIES["must_fail"] = ["crate", "edit", "flags", "kept"]
IN_TURN = {**TRIES, "must_fail_all": ["crate", "edits", "flags"]}
BY_TASKS = {**TRIES, "need": ["crate"], "edits_of": ["crate"]}
BY_TASKS["add_edits"] = ["tasks", "crate", "edits", "first", "waits", "is_well", "kept", "start", "in_ci"]


def main():
    path = os.path.realpath(shutil.which("rt") or sys.exit("rt is not on the path"))
    plants = sys.argv[1:2] == ["plant"] and os.path.exists(f"{path}-plant")
    rt = loaded(f"{path}-plant" if plants else path)
    library = getattr(rt, "rt" if plants else "rtlib", None)
    crate = getattr(library, "Crate", None)
    if not hasattr(crate, "stamp") or not hasattr(crate, "below") or not hasattr(rt, "main"):
        os.execvp("rt", ["rt", *sys.argv[1:]])
    # Memory that a check gives back and takes again costs it a twelfth of its time, so its allocator keeps what it has.
    os.environ.setdefault("MIMALLOC_PURGE_DELAY", "-1")
    list_once(crate)
    if plants:
        take_sums_once(crate)
        return rt.main(*sys.argv[2:])
    if not re.search(r"rt ci .*NAME", rt.__doc__ or ""):
        take_sums_once(crate)
    if hasattr(getattr(rt, "Crate", None), "ci"):
        hasten_some(rt.Crate)
        keep_checked(rt.Crate)
    if has_parts(rt, IN_TURN):
        try_edits_by_function(rt)
    elif has_parts(rt, BY_TASKS):
        try_edits_in_one_task(rt)
    if sys.argv[1:2] == ["try"] and hasattr(library, "RATTLE"):
        library.RATTLE = shutil.which("true")
    return rt.main(sys.argv[1:])


if __name__ == "__main__":
    sys.exit(main())
