#!/usr/bin/env python3
"""Keeps the LLVM module that the core is compiled from. release/build_program.py proves the core and builds it as it always
does (it builds only what is proved), with a copy of the toolchain, made of links, whose clang keeps the largest module it gets.

    capture.py CRATE_FOLDER CORE.bc
"""
import os, pathlib, shutil, subprocess, sys, tempfile

TOP = pathlib.Path(__file__).resolve().parent.parent.parent
KEEPS = '''#!/bin/bash
for word in "$@"; do
    case $word in *.bc) [ "$(stat -c %s "$word")" -lt "$(stat -c %s {room}/core.bc 2>/dev/null || echo 0)" ] || cp "$word" {room}/core.bc ;; esac
done
exec {tools}/"$(basename "$0")" "$@"
'''


def linked(toolchain, room):
    """The toolchain as links; clang, to which other names link, is a script that keeps what it compiles."""
    copy = room / 'toolchain'
    shutil.copytree(toolchain, copy, copy_function=os.symlink, symlinks=True)
    clang = copy / 'bin' / 'clang'
    clang.unlink()
    clang.write_text(KEEPS.format(room=room, tools=toolchain / 'bin'))
    clang.chmod(0o755)
    return copy


def main(crate, to):
    toolchain = pathlib.Path(shutil.which('rt')).resolve().parent.parent / 'toolchain'
    with tempfile.TemporaryDirectory() as folder:
        room = pathlib.Path(folder)
        settings = {**os.environ, 'MULTISCALAR_TOOLCHAIN': str(linked(toolchain, room))}
        words = [sys.executable, TOP / 'release' / 'build_program.py', os.devnull, pathlib.Path(crate).name]
        if subprocess.run(words, env=settings).returncode:
            sys.exit('capture.py: the core is not built, and nothing is kept')
        if not (room / 'core.bc').exists():
            sys.exit('capture.py: nothing was compiled')
        shutil.copy(room / 'core.bc', to)


if __name__ == '__main__':
    main(*sys.argv[1:])
