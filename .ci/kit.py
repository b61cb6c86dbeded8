"""What the programs of this repository take of the toolchain's inside. This file alone loads the toolchain's command `rt`, calls its functions, replaces some,
and lays programs before the toolchain's; so what another kit has otherwise is mended here. Of a crate the others use `name`, `folder`, `below()`, and `rlib`,
the folder where its library is looked for.
"""

import functools
import importlib.machinery
import importlib.util
import os
import shutil
import subprocess
import sys


def module_of(path, name):
    """Loads a program that is written in Python, for its functions."""
    loader = importlib.machinery.SourceFileLoader(name, path)
    module = importlib.util.module_from_spec(importlib.util.spec_from_loader(name, loader))
    sys.modules[name] = module
    loader.exec_module(module)
    return module


RT = os.path.realpath(shutil.which("rt") or sys.exit(f"{os.path.basename(sys.argv[0])}: there is no rt in PATH"))
FOLDER = os.path.dirname(os.path.dirname(RT))
rt = module_of(RT, "rt_of_toolchain")
rtlib = rt.rtlib
# (some kits walk along each path that crates.txt has down from a crate, each time, and sum the files of each on the way; no file changes meanwhile)
rtlib.Crate.below, rtlib.Crate.stamp = map(functools.lru_cache(maxsize=None), (rtlib.Crate.below, rtlib.Crate.stamp))

# the folders of a crate that a check reads
PARTS = rtlib.PARTS
files_of, text_of, sum_of = rtlib.files_of, rtlib.text_of, rtlib.sum_of
processors, free, say = rt.processors, rt.free, rt.say

# a check among the processes, the copies of it that prove beside one another, and how the folder begins in which `rt` tries an edit
CHECK, COPY, EDIT = "rattle", "antt-kernel", "rt-edit-"


def crates(root):
    """The crates of a repository, lowest first, as `rt ci` takes them."""
    # its first call sets the handler of a signal, which only the main thread may
    rtlib.guarded()
    rtlib.Crate = rt.Crate
    rt.Crate.allowed = rt.handles_of(root)
    return rtlib.crates_below(root)


def ci(told):
    """`rt ci`, whole and as it is, which calls `told` once all is proved, or not."""
    in_lanes = rt.in_lanes

    def then_told(tasks):
        given = in_lanes(tasks)
        told()
        return given

    rt.in_lanes = then_told
    return rt.main(["ci"])


def check_words(crate):
    """The command that checks the crate in the folder where it is run, over the libraries below, and that ends when this program does."""
    return [*rtlib.guarded(), rtlib.RATTLE, "check", *crate.words(["--jobs", "1"], keeps=False)]


def is_library(rlib):
    """Whether a library stands in this folder."""
    return os.path.isfile(f"{rlib}/format")


def library_sum(rlib):
    """A sum of the library in this folder, whose format holds that of its files."""
    return sum_of(f"{rlib}/format")


def own_sum(crate):
    """A sum of what a check of the crate rests on beside its libraries: the toolchain, what HANDLES and crates.txt say of it, and its files."""
    return rt.own_sum(crate)


def touched(crate):
    """What tells whether a file that a check of the crate reads was changed meanwhile, also where it was changed back."""
    return rt.touched(crate)


def store(name):
    """A folder of this name where `rt ci` keeps what it proved: beside the toolchain, on this machine, for this user alone. None where it can keep nothing."""
    at = rt.Kept([]).at if hasattr(rt, "Kept") else None
    return at and f"{at}/{name}"


def build_static(crate):
    """Builds a static library over the libraries below it, and returns its status."""
    os.makedirs(f"{crate.folder}/out", exist_ok=True)
    return crate.build_static(["--jobs", "1"])


def check_of(words):
    """The crate that a check is of, by the words of its command, and whether it is of its tests; None for any other command."""
    return (words[words.index("--crate-name") + 1], "--test" in words) if "--crate-name" in words[:-1] else None


# ---- what is compiled without its proofs

# A try compiles a small module of its own first. To keep the other, and then to fail, ends the try: nothing is run.
KEEP = """#!/bin/sh
for it in "$@"; do
    case $it in
        *.bc) if grep -q '{crate}' "$it"; then cp "$it" '{kept}'; exit 1; fi ;;
    esac
done
exec '{clang}' "$@"
"""
# Beside a try runs a check that only gives hints, and takes as long.
NO_HINTS = """#!/bin/sh
case $* in *'--start no function'*) exit 0 ;; esac
exec '{rattle}' "$@"
"""
CLANG = [f"{FOLDER}/toolchain/bin/clang", "--target=x86_64-unknown-linux-gnu", "-march=x86-64", "--no-default-config", "-no-canonical-prefixes", f"--sysroot={FOLDER}/toolchain"]
AR = f"{FOLDER}/toolchain/bin/llvm-ar"
# what each program is linked with
ARCHIVES = [f"{FOLDER}/c/libos_c.a", f"{FOLDER}/c/liblibc_c.a"]
# As the kit compiles a program.
LOWERED = "-no-trap-after-noreturn -trap-unreachable -no-x86-call-frame-opt -disable-machine-licm -disable-postra-machine-licm -sink-common-insts=false"
COMPILED = [*[it for flag in LOWERED.split() for it in ("-mllvm", flag)], "-O3", "-fPIC", "-ffunction-sections", "-fdata-sections"]


def write_program(path, text):
    with open(path, "w", encoding="utf-8") as it:
        it.write(text)
    os.chmod(path, 0o755)


def link_kit(to, crate, kept):
    """A kit of links, but for `rt`, which finds the rest of the kit beside itself, and for clang, which keeps the crate's module in a file."""
    for folder, own in (("", ("bin", "toolchain")), ("bin", ("rt", "rtlib.py", "rattle")), ("toolchain", ("bin",)), ("toolchain/bin", ("clang",))):
        os.makedirs(f"{to}/{folder}")
        for name in os.listdir(f"{FOLDER}/{folder}"):
            if name not in own:
                os.symlink(f"{FOLDER}/{folder}/{name}", f"{to}/{folder}/{name}")
    for name in ("rt", "rtlib.py"):
        shutil.copy(f"{FOLDER}/bin/{name}", f"{to}/bin/{name}")
    write_program(f"{to}/bin/rattle", NO_HINTS.format(rattle=f"{FOLDER}/bin/rattle"))
    write_program(f"{to}/toolchain/bin/clang", KEEP.format(crate=crate, kept=kept, clang=CLANG[0]))


def module_of_try(folder, work):
    """The path of the module that `rt try` makes of the crate in this folder, none where it made none, and what it said."""
    module = f"{work}/module.bc"
    link_kit(f"{work}/kit", os.path.basename(folder), module)
    how = {"stdin": subprocess.DEVNULL, "stdout": subprocess.PIPE, "stderr": subprocess.STDOUT, "text": True}
    said = subprocess.run([f"{work}/kit/bin/rt", "try"], cwd=folder, check=False, **how).stdout
    return module if os.path.exists(module) else None, said


def without_checks(lines):
    """The lines of a module as text, without the try's checks and its fills of what is let go."""
    for line in lines:
        if 'call void @"rattle-llvm-checks::' in line or ("call void @llvm.memset" in line and "i8 -86" in line):
            continue
        if line.startswith("attributes #"):
            line = line.replace(" sanitize_address", "").replace('"frame-pointer"="all"', "nounwind")
        yield line
