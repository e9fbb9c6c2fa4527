#!/usr/bin/env python3
"""Compiles a static library over the libraries that `rt ci` left below it: `rt ci` proves such a crate and builds nothing.

    build_static.py CRATE       in the folder in which `rt ci` ran; it makes crates/CRATE/out/libCRATE.a

It makes the call of the toolchain that `rt lib` makes, which proves the crate once more; `rt lib` would also prove all
libraries below. The variable MULTISCALAR_TOOLCHAIN names another toolchain than that of rt (web/module/capture.py).
"""

import os
import shutil
import sys

sys.dont_write_bytecode = True
sys.path.insert(0, os.path.dirname(os.path.realpath(shutil.which("rt"))))
import rtlib


def main(name):
    crate = next(it for it in rtlib.crates_below(os.getcwd()) if it.name == name)
    toolchain = os.environ.get("MULTISCALAR_TOOLCHAIN") or f"{rtlib.KIT}/toolchain"
    words = [*crate.words([], keeps=False), "--toolchain", toolchain, "--backend", "llvm", "-o", f"out/lib{name}.a"]
    os.makedirs(f"{crate.folder}/out", exist_ok=True)
    return crate.call(rtlib.RATTLE, "build", *words)


if __name__ == "__main__":
    sys.exit(main(*sys.argv[1:]))
