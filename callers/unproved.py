#!/usr/bin/env python3
"""Builds a crate without its proofs, in a minute or two: unproved.py CRATE TO KIT. CRATE is im_capi, of which an archive is made, or a program.

`rt` builds nothing that is not proved, and `rt try` lowers an unproved program, runs it with checks, and throws it away. So `rt try` is run in a copy
of the crates, from a copy of the kit whose clang only keeps the module that it is handed; and the kit's own clang compiles that module. im_capi is a
program in that copy, whose `main` calls the functions that C sees; these are then to be seen from outside, in place of `main`.

A try puts checks into the module, of what a proof would have shown. They are taken out, so that the work takes as long as in a proved build: it is
the same program, and nothing shows that it is right. What is built says so: a library by the symbol `im_unproved`, which the Makefile looks for, and a
program by its --version, as the copy has `unproved` where the crates have `proved`.
"""
import itertools
import os
import re
import shutil
import subprocess
import sys
import tempfile

sys.dont_write_bytecode = True
if len(sys.argv) != 4:
    sys.exit("usage: unproved.py CRATE TO KIT")
TOP = os.path.dirname(os.path.dirname(os.path.abspath(__file__)))
# (it goes by the `rt` in PATH)
os.environ["PATH"] = f"{os.path.realpath(sys.argv[3])}/bin:{os.environ['PATH']}"
sys.path.insert(0, f"{TOP}/.ci")
import kit

LIBRARY = "im_capi"
# Where a program has what it says of itself, and the word of it that is no longer so.
VERSION, PROVED = "im_tool_user/src/version.rt", ' proved\\n'
SEEN = {"im_size", "im_belong", "im_left_log", "im_left_go_on", "im_left_take", "im_is_older", "im_log_cuts", "im_init", "im_open", "im_step", "im_may_begin", "im_oldest", "im_earliest", "im_has_own", "im_is_left_alone", "im_name_key", "im_long_part", "im_long_read", "im_long_key"}
MAIN = """
fn main(rt: HostRuntime) {
    let _size = im_size();
    let none = im_files_belonging::Front::NONE;
    let folder = im_files_belonging::Folder { log: none, log2: none, pages: im_files_belonging::PagesFront::NONE, has_part: false };
    let _word = im_belong(&folder);
    let mut left = im_files_belonging::LeftLog::begin(&folder);
    im_left_log(&folder, &mut left);
    im_left_take(&mut left, &[0]);
    im_left_go_on(&folder, &mut left);
    let _older = im_is_older(&left, 0, 0);
    let mut cuts = im_files_belonging::LogCuts::of(&folder);
    im_log_cuts(&folder, &mut cuts);
    let asker = Asker { ticket: 0, mine: 0, came: 0, thread: 0, tick: 0, patience: 0 };
    let going = [Going { number: 0, seen: 0, thread: 0, had: 0, agains: 0 }];
    let _may = im_may_begin(&going, 0, &asker) || im_has_own(&going, 0) || im_is_left_alone(0, 0, 0);
    let _least = (im_oldest(&going, &asker, 0), im_earliest(&going));
    let mut key = [0; 255];
    let mut rid = 0;
    let mut front = im_name_key(0, &[1], &[1], &mut key);
    let _part = im_long_part(1, &[0], 0, &mut key, &mut rid);
    let mut reading = im_names::Reading::begin();
    let _next = im_long_read(&mut reading, 1, &[0], rid);
    let mut to = [0; 255];
    let _key = im_long_key(&key, &mut to, &mut front);
    unsafe {
        im_init(rt.alloc(), std::ptr::null_mut());
        im_open(std::ptr::null_mut(), std::ptr::null_mut());
        im_step(std::ptr::null_mut(), std::ptr::null_mut());
    }
}
"""


def run(*words):
    if subprocess.run(words).returncode:
        sys.exit(f"unproved.py: {words[0]} failed")


def copy_crates(here, to):
    """The crates' sources, with the library as a program."""
    os.makedirs(f"{to}/crates")
    shutil.copy(f"{here}/HANDLES", to)
    with open(f"{here}/crates.txt", encoding="utf-8") as old, open(f"{to}/crates.txt", "w", encoding="utf-8") as new:
        new.write(re.sub(rf"^{LIBRARY} staticlib:", f"{LIBRARY}:", old.read(), flags=re.M))
    for name in os.listdir(f"{here}/crates"):
        for part in ("src", "specs"):
            if os.path.isdir(f"{here}/crates/{name}/{part}"):
                shutil.copytree(f"{here}/crates/{name}/{part}", f"{to}/crates/{name}/{part}")
    say_unproved(f"{to}/crates/{VERSION}")
    os.rename(f"{to}/crates/{LIBRARY}/src/lib.rt", f"{to}/crates/{LIBRARY}/src/main.rt")
    with open(f"{to}/crates/{LIBRARY}/src/main.rt", "a", encoding="utf-8") as it:
        it.write(MAIN)


def say_unproved(path):
    with open(path, encoding="utf-8") as it:
        text = it.read()
    if text.count(PROVED) != 1:
        sys.exit(f"unproved.py: {path} does not say once what is to be said of a program without proofs")
    with open(path, "w", encoding="utf-8") as it:
        it.write(text.replace(PROVED, PROVED.replace("proved", "unproved")))


def lower(crate, work):
    """Returns the path of the crate's module, as a try lowers it."""
    copy_crates(TOP, f"{work}/copy")
    module, said = kit.module_of_try(f"{work}/copy/crates/{crate}", work)
    return module or sys.exit(f"{said}unproved.py: the try above gave no module")


def as_library(lines):
    """The lines of a module in which the functions that C sees are to be seen, and `main` is not."""
    found = set()
    for line in lines:
        line = re.sub(rf'@"{LIBRARY}::({"|".join(SEEN)})"', r"@\1", line)
        begins = re.match(r"define (internal )?[^@]*@(\w+)\(", line)
        if begins and begins[2] in SEEN:
            line = line.replace("define internal", "define", 1)
            found.add(begins[2])
        elif begins and begins[2] == "main":
            line = line.replace("define", "define internal", 1)
        yield line
    if found != SEEN:
        sys.exit(f"unproved.py: the module lacks {', '.join(SEEN - found)}")


def build(crate, to):
    with tempfile.TemporaryDirectory(prefix="unproved-") as work:
        text, compiled = f"{work}/text.ll", f"{work}/{crate}.o"
        module = lower(crate, work)
        run(*kit.CLANG, "-S", "-emit-llvm", "-Xclang", "-disable-llvm-passes", "-x", "ir", module, "-o", text)
        with open(text, encoding="utf-8") as old, open(f"{work}/turned.ll", "w", encoding="utf-8") as new:
            lines = itertools.chain(kit.without_checks(old), ["@im_unproved = constant i8 1\n"])
            new.writelines(as_library(lines) if crate == LIBRARY else lines)
        run(*kit.CLANG, *kit.COMPILED, "-c", "-x", "ir", f"{work}/turned.ll", "-o", compiled)
        if crate == LIBRARY:
            run(kit.AR, "rcsD", f"{work}/built", compiled)
        else:
            run("cc", "-pie", "-Wl,--gc-sections,-z,relro,-z,now", "-o", f"{work}/built", compiled, *kit.ARCHIVES)
        shutil.copy(f"{work}/built", f"{to}.part")
        os.replace(f"{to}.part", to)


if __name__ == "__main__":
    build(sys.argv[1], os.path.abspath(sys.argv[2]))
