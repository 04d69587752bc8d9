#!/usr/bin/env python3
"""Tests examples/rust and examples/python over an installed library, each by what its page says, without a network:

- their names are those of the header (bindings.py);
- the commands of both pages, in a copy: `cargo test`, `pip install`, calls; the tests of the package in its folder, and
  installed;
- the events that both print of examples/texts under each set, which are those of `events`;
- the link checkers of both: on the planted text what is written there, on the other texts the same;
- that no checker has more than 60 lines.

It takes the library of the folder INSTALLED (install.sh PREFIX) or else installs one, and the program `events` that `rt ci`
has built, or that of the folder PROGRAMS. Without cargo on the path Rust is left out, and it says so."""
import glob
import os
import re
import shlex
import shutil
import subprocess
import sys
import tempfile

sys.dont_write_bytecode = True
import counts

os.chdir(os.path.join(os.path.dirname(os.path.abspath(__file__)), ".."))
EVENTS = os.path.join(os.environ.get("PROGRAMS", "crates/events/out"), "events")
SETS = ("commonmark", "gfm", "all", "alerts")
PLANTED = "examples/texts/planted.md"
passed = failed = 0


def compare(place, printed, wanted):
    global passed, failed
    if printed == wanted:
        passed += 1
    else:
        at = len(os.path.commonprefix([repr(printed), repr(wanted)]))
        shown = [repr(it)[max(at - 100, 0):at + 500] for it in (printed, wanted)]
        print(f"{place}: {shown[0]}\nand not\n{shown[1]}")
        failed += 1


def run(*words, stdin=None, cwd=".", **environment):
    ran = subprocess.run(words, input=stdin, capture_output=True, cwd=cwd, env={**os.environ, "PYTHONDONTWRITEBYTECODE": "1", **environment}, timeout=600)
    return ran.returncode, ran.stdout.decode(), ran.stderr.decode()


def succeeds(place, *words, **how):
    status, printed, said = run(*words, **how)
    compare(place, (status, (printed + said)[-3000:] if status else ""), (0, ""))
    return printed


def commands(page, prefix):
    """The commands of the code blocks of a page, but those that install."""
    lines = [line[4:] for line in open(page, encoding="utf-8").read().split("\n") if line.startswith("    ")]
    return [line.replace("PREFIX", shlex.quote(prefix)) for line in lines if not line.startswith("scripts/install.sh")]


def rust(folder, prefix, planted):
    """Tests the crate by its page, in a copy. Returns where its examples are built."""
    how = {"cwd": folder, "CARGO_TARGET_DIR": f"{folder}/target", "CARGO_TERM_QUIET": "true"}
    *tests, links = commands("examples/rust/README.md", prefix)
    succeeds("the page of Rust", "bash", "-ec", "\n".join(tests), **how)
    found = run("bash", "-c", "\n".join([tests[0], links]), **how)
    compare("the link checker of the page of Rust", found[:2], (1, planted.replace("examples/", "../")))
    succeeds("cargo build", "cargo", "build", "--offline", "--examples", **{**how, "cwd": f"{folder}/examples/rust"},
             HOXALGURRE_LIB=f"{prefix}/lib")
    return f"{folder}/target/debug/examples"


def python(folder, prefix):
    """Tests the package in its folder, and installed by its page. Returns the environment in which it is."""
    tests = os.path.abspath("examples/python/tests/test_hoxalgurre.py")
    source = {"PYTHONPATH": os.path.abspath("examples/python/src"), "HOXALGURRE_LIB": f"{prefix}/lib"}
    succeeds("the tests of the package", sys.executable, tests, **source)
    *install, call = commands("examples/python/README.md", prefix)
    succeeds("the page of Python", "bash", "-ec", "\n".join(install), cwd=folder, PIP_TARGET=f"{folder}/site",
             PIP_NO_INDEX="1", PIP_QUIET="1", PIP_DISABLE_PIP_VERSION_CHECK="1")
    installed = {"PYTHONPATH": f"{folder}/site", "HOXALGURRE_LIB": "/none"}
    wanted = re.search(r"^prints `(.*?)`", open("examples/python/README.md", encoding="utf-8").read(), re.M)[1]
    compare("the call of the page of Python", succeeds("its status", "bash", "-ec", call, **installed), wanted + "\n")
    succeeds("the tests over the installed package", sys.executable, tests, **installed)
    return installed


def main():
    if not os.path.isfile(EVENTS):
        sys.exit(f"bindings: {EVENTS} is not built")
    with tempfile.TemporaryDirectory() as work:
        prefix = os.environ.get("INSTALLED") or f"{work}/installed"
        if "INSTALLED" not in os.environ:
            succeeds("install.sh", "scripts/install.sh", prefix)
        succeeds("bindings.py", "scripts/bindings.py", "--check")
        for name in ("rust", "python", "texts"):
            shutil.copytree(f"examples/{name}", f"{work}/examples/{name}", ignore=shutil.ignore_patterns("target"))
        planted = "".join(f"{PLANTED}:{line}" for line in open("examples/cases/planted.txt", encoding="utf-8"))
        installed = python(work, prefix)
        calls = {"python": ([sys.executable, "-m", "hoxalgurre"], [sys.executable, "examples/python/links.py"])}
        if shutil.which("cargo"):
            built = rust(work, prefix, planted)
            calls["rust"] = ([f"{built}/events"], [f"{built}/links"])
        else:
            print("bindings: without cargo Rust is left out")
        for path in sorted(glob.glob("examples/texts/*.md")):
            text = open(path, "rb").read()
            for constructs in SETS:
                wanted = run(EVENTS, constructs, stdin=text)
                for name, (events, _) in calls.items():
                    compare(f"{name} {constructs} {path}", run(*events, constructs, stdin=text, **installed), wanted)
            wanted = [run(*links, path, **installed) for _, links in calls.values()]
            for name, found in zip(calls, wanted):
                compare(f"the links of {path} in {name}", found, wanted[0])
        for name, (_, links) in calls.items():
            compare(f"planted links in {name}", run(*links, PLANTED, **installed), (1, planted, ""))
    for path in ("examples/rust/examples/links.rs", "examples/python/links.py"):
        compare(f"{path}: at most 60 lines", len(open(path, encoding="utf-8").readlines()) <= 60, True)
    if "rust" in calls:
        counts.wrong_count("checks of Rust and Python", passed + failed) and sys.exit("bindings: another number of checks")
    print(f"bindings: {passed} passed, {failed} failed")
    sys.exit(failed != 0)


if __name__ == "__main__":
    main()
