#!/usr/bin/env python3
"""Proves and builds a program over the libraries that `rt ci` left, and keeps the LLVM module of the proved program.

    proved.py PROGRAM MODULE.bc [CRATE]

Run it in a repository in which `rt ci` has ended, or has at least proved all libraries below the program (by default
multiscalar): their folders out/rlib are taken as they are, and none is proved again, as `rt run` would. PROGRAM and MODULE.bc
are where the linked program and its module go. It makes the calls of the toolchain that `rt ci` makes for a program. Takes
some four minutes.
"""
import importlib.machinery
import importlib.util
import os
import pathlib
import shutil
import subprocess
import sys
import tempfile

import capture

TOP, KIT = capture.TOP, capture.KIT


def toolchain_commands():
    """The module of the command rt."""
    loader = importlib.machinery.SourceFileLoader("rt_commands", str(KIT / "bin" / "rt"))
    made = importlib.util.module_from_spec(importlib.util.spec_from_loader("rt_commands", loader))
    sys.dont_write_bytecode = True
    loader.exec_module(made)
    return made


def crate_of(rt, name):
    rt.Crate.cuts_libraries = True
    rt.Crate.allowed = rt.handles_of(str(TOP))
    rt.rtlib.Crate = rt.Crate
    rt.rtlib.guarded()
    return next(it for it in rt.rtlib.crates_below(str(TOP)) if it.name == name)


def without(words, flag):
    at = words.index(flag)
    return [*words[:at], *words[at + 2:]]


def main():
    program, module = (os.path.abspath(it) for it in sys.argv[1:3])
    os.chdir(TOP)
    rt = toolchain_commands()
    crate = crate_of(rt, (sys.argv[3:] or ["multiscalar"])[0])
    missing = [it.name for it in crate.below() if not os.path.isdir(it.rlib)]
    if missing:
        raise SystemExit(f"not proved yet: {' '.join(missing)}")
    words = crate.words(["--jobs", "4"], keeps=False)
    with tempfile.TemporaryDirectory() as name:
        folder = pathlib.Path(name)
        copy, kept = capture.keeping(folder)
        if crate.prove(["check", *words, "-o", f"{folder}/checked"]):
            raise SystemExit("not proved")
        words = without(without(words, "--logic-built"), "--jobs")
        build = [rt.rtlib.RATTLE, "build", *words, "--crate-checked", f"{folder}/checked", "--toolchain", str(copy),
                 "--backend", "llvm", "-o", f"{folder}/program.o"]
        subprocess.run(build, cwd=crate.folder, check=True)
        link = [f"{KIT}/bin/rattle-link", "--target", "x86_64-unknown-linux-gnu", "--toolchain", f"{KIT}/toolchain", "-o", program,
                f"{folder}/program.o", f"{KIT}/c/libos_c.a", f"{KIT}/c/liblibc_c.a"]
        subprocess.run(link, cwd=crate.folder, check=True)
        shutil.copy(kept, module)
    subprocess.run(["sha256sum", program], check=True)


if __name__ == "__main__":
    main()
