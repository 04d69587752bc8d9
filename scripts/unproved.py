#!/usr/bin/env python3
"""unproved.py [--unchecked] CRATE OUT: builds a program, or the static library hoxalgurre_c, without proof: a first look.

The kit builds proved crates alone. Its `rt try` compiles a program that is not proved, with checks that stop it at an
index out of bounds, an overflow, a failed unwrap and the like, and keeps no file. So this starts `rt try` with a clang
that keeps the module, and compiles that module as `rt` does proved ones. Of the library it makes a program first, in a
copy of the crates, whose `main` calls each of its exports, and gives these their names for C in the module. With another
kit it may find no module, and says so.

With --unchecked those checks are left out, and functions are in line where the sources mark them so, as in proved
programs: what a change costs is known in minutes, before it is proved. Such a program takes some 7 % more instructions
than the proved one, so compare it with another of its kind. Nothing stops it where it goes wrong: it is for that alone."""
import glob
import os
import re
import shutil
import stat
import subprocess
import sys
import tempfile

sys.dont_write_bytecode = True
from rt import list_once, loaded

TOP = os.path.dirname(os.path.dirname(os.path.abspath(__file__)))
CLANG = """#!/bin/bash
case " $* " in
*' -fsanitize=address '*)
    cp module.bc '{0}/module.bc'
    exit 1
    ;;
*' --defined-only '*) exec -a llvm-nm '{1}/toolchain/bin/clang' "$@" ;;
esac
exec '{1}/toolchain/bin/clang' "$@"
"""
# As the kit compiles a proved program.
FLAGS = ["--target=x86_64-unknown-linux-gnu", "-march=x86-64", "-mllvm", "-no-trap-after-noreturn", "-ffunction-sections",
         "-fdata-sections", "-mllvm", "-trap-unreachable", "-mllvm", "-no-x86-call-frame-opt", "-mllvm",
         "-disable-machine-licm", "-mllvm", "-disable-postra-machine-licm", "-mllvm", "-sink-common-insts=false",
         "--no-default-config", "-no-canonical-prefixes", "-fintegrated-cc1", "-fno-crash-diagnostics"]
# What makes a program of `rt try` small, so that it compiles and runs at little cost.
PASSES = "globaldce,function(sroa,instcombine<no-verify-fixpoint>,simplifycfg)"


def kit_with(kit, folder):
    """A kit as `kit`, whose clang keeps the module in a folder."""
    copy = os.path.join(folder, "kit")
    tools = os.path.join(copy, "toolchain", "bin")
    os.makedirs(tools)
    for name in os.listdir(kit):
        if name != "toolchain":
            os.symlink(os.path.join(kit, name), os.path.join(copy, name))
    for name in os.listdir(os.path.join(kit, "toolchain")):
        if name != "bin":
            os.symlink(os.path.join(kit, "toolchain", name), os.path.join(copy, "toolchain", name))
    for name in os.listdir(os.path.join(kit, "toolchain/bin")):
        if name != "clang":
            os.symlink(os.path.join(kit, "toolchain/bin", name), os.path.join(tools, name))
    clang = os.path.join(tools, "clang")
    with open(clang, "w", encoding="utf-8") as file:
        file.write(CLANG.format(folder, kit))
    os.chmod(clang, os.stat(clang).st_mode | stat.S_IXUSR)
    return copy


def lowered(folder, crate):
    """Has `rt try` lower the program in the folder of a crate, and leaves the module in a folder."""
    rt = loaded(os.path.realpath(shutil.which("rt") or sys.exit("rt is not on the path")))
    library = rt.rtlib
    list_once(library.Crate)
    library.KIT = kit_with(library.KIT, folder)
    library.RATTLE = shutil.which("true")
    os.chdir(crate)
    return rt.main(["try", "--steps", "1"])


# What a `main` that is never called calls an export with, by the types of its parameters.
ARGUMENTS = {"Global": "rt.alloc()", "&mut HoxalgurreDocument": "&mut HoxalgurreDocument::empty(0)",
             "&mut HoxalgurrePlace": "&mut HoxalgurrePlace { index: 0, lines: 0 }", "&mut usize": "&mut 0"}


def as_program(folder, crate):
    """A copy of the crates below a static library and of that, as a program. Returns its folder."""
    lines = [line.split("#")[0].partition(":") for line in open(os.path.join(TOP, "crates.txt"), encoding="utf-8")]
    own = {name.split()[0]: crates.split() for name, colon, crates in lines if colon}
    needed, left = set(), [crate]
    while left:
        name = left.pop()
        if name in own and name not in needed:
            needed.add(name)
            left += own[name]
    for name in needed:
        leave = shutil.ignore_patterns("out", "must-fail")
        shutil.copytree(os.path.join(TOP, "crates", name), os.path.join(folder, "crates", name), ignore=leave)
    with open(os.path.join(folder, "crates.txt"), "w", encoding="utf-8") as file:
        file.write("".join(f"{name}: {' '.join(own[name])}\n" for name in own if name in needed))
    shutil.copy(os.path.join(TOP, "HANDLES"), folder)
    source = os.path.join(folder, "crates", crate, "src")
    text = open(os.path.join(source, "lib.rt"), encoding="utf-8").read()
    os.remove(os.path.join(source, "lib.rt"))
    calls = []
    for name, given in re.findall(r'pub extern "C" fn (\w+)\(\s*(.*?),?\s*\)', text, re.S):
        types = [part.partition(":")[2].strip() for part in re.split(r",\s*", given)]
        empty = lambda kind: "&[]" if kind.startswith("&[") else "&mut []" if kind.startswith("&mut [") else "0"
        calls.append(f"    let _ = {name}({', '.join(ARGUMENTS.get(kind, empty(kind)) for kind in types)});\n")
    with open(os.path.join(source, "main.rt"), "w", encoding="utf-8") as file:
        file.write(text + f"\nfn main(rt: HostRuntime) {{\n{''.join(calls)}}}\n")
    return os.path.join(folder, "crates", crate)


def name_exports(kit, crate, module):
    """Gives the exports of a crate their names for C. Returns the changed module, as text."""
    text = subprocess.run([f"{kit}/toolchain/bin/clang", "-S", "-emit-llvm", "-Xclang", "-disable-llvm-passes", "-x", "ir", module,
                           "-o", "-"], capture_output=True, check=True).stdout.decode()
    text = re.sub(rf'^define internal (.*@)"{crate}::(hoxalgurre_\w+)"\(', r"define \1\2(", text, flags=re.M)
    text = re.sub(rf'@"{crate}::(hoxalgurre_\w+)"', r"@\1", text)
    with open(module + ".ll", "w", encoding="utf-8") as file:
        file.write(text)
    return module + ".ll"


def lowering(folder, place):
    """What `rt try` says where it lowers the program in the folder of a crate, whose module it leaves in a folder."""
    said = os.path.join(folder, "said")
    child = os.fork()
    if child == 0:
        with open(said, "wb") as file:
            os.dup2(file.fileno(), 1)
            os.dup2(file.fileno(), 2)
        try:
            lowered(folder, place)
        except SystemExit as stopped:
            print(stopped)
        finally:
            sys.stdout.flush()
            sys.stderr.flush()
            os._exit(0)
    os.waitpid(child, 0)
    with open(said, encoding="utf-8", errors="replace") as file:
        return file.read()


def module_of(folder, place):
    """The module of the program in the folder of a crate."""
    said, module = lowering(folder, place), os.path.join(folder, "module.bc")
    if not os.path.isfile(module):
        sys.stderr.write(said[-6000:])
        sys.exit(f"unproved: rt try has lowered nothing of {os.path.basename(place)}")
    return module


# A function that is marked, in the sources: the kind of its mark, and its name.
MARKED = re.compile(r"#\[inline(\(always\)|\(never\))?\]\s*(?:#\[[^\n]*\]\s*)*"
                    r"(?:pub(?:\([a-z]+\))? )?(?:const )?(?:unsafe )?fn (\w+)")
TOPS = ("lib", "main", "mod")
ATTRIBUTES = {None: "inlinehint", "(always)": "alwaysinline", "(never)": "noinline"}
# What `rt try` adds: calls of checks, traps, and bytes that fill what nothing was written to.
ADDED = re.compile(r'call void (?:@"rattle-llvm-checks::|@llvm\.trap\(\)|@llvm\.memset\.p0\.i64\(ptr %r\d+, i8 -86,)')


def marks(kit):
    """The attribute of each function that is marked in the crates and in those of the kit, by module and name."""
    found = {}
    for source in [*glob.glob(f"{TOP}/crates/*/src"), *glob.glob(f"{kit}/rattle/*/src")]:
        for path in glob.glob(f"{source}/**/*.rt", recursive=True):
            steps = [step for step in os.path.relpath(path, source)[:-3].split("/") if step not in TOPS]
            module = "::".join([os.path.basename(os.path.dirname(source)), *steps])
            for kind, name in MARKED.findall(open(path, encoding="utf-8").read()):
                found[module, name] = ATTRIBUTES[kind or None]
    return found


def without_checks(kit, module):
    """A module without what `rt try` adds, as text."""
    marked = marks(kit)
    lower = ["-S", "-emit-llvm", "-Xclang", "-disable-llvm-passes", "-x", "ir", module, "-o", f"{module}.checked"]
    subprocess.run([f"{kit}/toolchain/bin/clang", *lower], check=True)
    with open(f"{module}.checked", encoding="utf-8") as given, open(f"{module}.ll", "w", encoding="utf-8") as out:
        for line in given:
            if ADDED.match(line.strip()):
                continue
            defined = re.match(r'define .*@"([^"]+)"\(.*\) (#\d+ \{)$', line)
            if defined:
                *path, name = re.sub(r"::<.*", "", defined[1]).split("::")
                modules = ["::".join(path[:at]) for at in range(1, len(path) + 1)]
                known = [marked[module, name] for module in modules if (module, name) in marked]
                line = f"{line[:defined.start(2)]}{' '.join(known[-1:])} {defined[2]}\n"
            out.write(line.replace("sanitize_address", "") if line.startswith("attributes ") else line)
    return f"{module}.ll"


def compile_module(kit, module, part, level):
    sysroot = f"--sysroot={kit}/toolchain"
    subprocess.run([f"{kit}/toolchain/bin/clang", *FLAGS, sysroot, "-c", "-x", "ir", module, "-o", part, "-fPIC", level],
                   check=True)


def link(kit, parts, out):
    libraries = [f"{kit}/c/libos_c.a", f"{kit}/c/liblibc_c.a"]
    ran = subprocess.run([f"{kit}/bin/rattle-link", "--target", "x86_64-unknown-linux-gnu", "--toolchain", f"{kit}/toolchain",
                          "-o", out, *parts, *libraries], capture_output=True, text=True)
    if ran.returncode:
        sys.exit(f"unproved: {ran.stderr}")


def build(folder, kit, crate, out, is_checked):
    is_library = not os.path.isfile(os.path.join(TOP, "crates", crate, "src/main.rt"))
    place = as_program(folder, crate) if is_library else os.path.join(TOP, "crates", crate)
    module, part = module_of(folder, place), os.path.join(folder, "program.o")
    module = name_exports(kit, crate, module) if is_library else module
    module = module if is_checked else without_checks(kit, module)
    compile_module(kit, module, part, "-O2")
    if is_library:
        subprocess.run(["objcopy", "--localize-symbol=main", part], check=True)
        subprocess.run(["ar", "rcs", out, part], check=True)
    else:
        link(kit, [part], out)


def build_for_tests(place, out, c_file):
    """Builds the program in the folder of a crate, with the file in C of a crate below it, at the least cost for some
    thousand short runs: without what is never called, with few passes, and without a sanitizer."""
    kit = kit_folder()
    with tempfile.TemporaryDirectory(prefix="hoxalgurre-") as folder:
        module, small, part, of_c = (os.path.join(folder, name) for name in ("module.bc", "small.bc", "program.o", "c.o"))
        os.environ["RT_ALLOW_C"] = os.path.basename(os.path.dirname(os.path.dirname(c_file)))
        subprocess.run(["cc", "-O2", "-fPIC", "-c", c_file, "-o", of_c], check=True)
        subprocess.run([f"{kit}/toolchain/bin/ld.lld", "-r", f"--lto-newpm-passes={PASSES}", "--lto-emit-llvm",
                        module_of(folder, place), "-o", small], check=True)
        compile_module(kit, small, part, "-O0")
        link(kit, [part, of_c], out)


def kit_folder():
    return os.path.dirname(os.path.dirname(os.path.realpath(shutil.which("rt") or sys.exit("rt is not on the path"))))


def main():
    words = [word for word in sys.argv[1:] if word != "--unchecked"]
    if len(words) != 2:
        sys.exit("usage: unproved.py [--unchecked] CRATE OUT")
    kit = kit_folder()
    with tempfile.TemporaryDirectory(prefix="hoxalgurre-") as folder:
        build(folder, kit, words[0], os.path.abspath(words[1]), "--unchecked" not in sys.argv)


if __name__ == "__main__":
    main()
