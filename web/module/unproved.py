#!/usr/bin/env python3
"""The LLVM module of the core without its proof, in three minutes, for who works on the page.

    unproved.py CORE.ll

`rt try` takes programs alone. So it tries a copy of the core that is one: its `main` has each call once. Of the module that clang
is given then, the calls get their names of C back, and what a try adds is taken away: its checks, and the bytes with which it
fills new memory.
"""
import importlib.util, pathlib, re, shutil, subprocess, sys, tempfile

TOP = pathlib.Path(__file__).resolve().parent.parent.parent
CORE = 'multiscalar_c'
sys.dont_write_bytecode = True
sys.path.insert(0, str(TOP / 'release'))
import build_program  # noqa: E402

TEXT, NONE, OUT = 'b"A:\\nhalt\\n"', 'b""', '&mut out, &mut len'
RUN = f'alloc, true, 2, 9, 0, &[], 0, {TEXT}, {NONE}, {OUT}'
CALLS = {
    'seq': f'alloc, 9, {TEXT}, {OUT}',
    'print': f'alloc, {TEXT}, {OUT}',
    'annotate': f'alloc, 0, {TEXT}, {OUT}',
    'check': f'alloc, true, {TEXT}, {NONE}, {OUT}',
    'explain': f'alloc, 0, true, false, b"a.s", {TEXT}, {NONE}, {NONE}, {OUT}',
    'replay': f'alloc, true, 2, 0, {TEXT}, {NONE}, {NONE}, {OUT}',
    'run_steps': RUN,
    'curve': RUN,
    'demonstrate': f'alloc, 2, 9, {TEXT}, {OUT}',
}
MAIN = f'''
use std::process::ExitCode;

fn main(rt: HostRuntime) -> ExitCode {{
    let alloc = rt.alloc();
    let mut out = [0u8; 4096];
    let mut len = 0;
    let mut all = 0u32;
    {'; '.join(f'all |= exports::{CORE}_{call}({words})' for call, words in CALLS.items())};
    ExitCode::from((all & 7) as u8)
}}
'''
FILL = re.compile(r'\s*call void @llvm\.memset\.p0\.i64\(ptr %r\d+, i8 -86,')
ADDED = re.compile(r'define internal void @"rattle-(llvm-checks|try)::')
NAMED = re.compile(rf'@"{CORE}::(?:\w+::)*({CORE}_(?:{"|".join(CALLS)}))"')


def program_of_core(copy):
    """The folder of the core as a program, in a copy of it and the crates below it."""
    crates = build_program.needed(CORE)
    copy.mkdir()
    build_program.copy_sources({**crates, CORE: crates[CORE].replace(' staticlib:', ':')}, copy)
    source = copy / 'crates' / CORE / 'src'
    (source / 'main.rt').write_text((source / 'lib.rt').read_text() + MAIN)
    (source / 'lib.rt').unlink()
    return source.parent


def kept(crate, to):
    """Has fuzz/entry/capture.py keep the module of a try."""
    of = importlib.util.spec_from_file_location('capture', TOP / 'fuzz' / 'entry' / 'capture.py')
    capture = importlib.util.module_from_spec(of)
    of.loader.exec_module(capture)
    capture.keep(to, crate)


def bare(lines):
    """The text of the module without what the try added."""
    is_left_out = False
    for line in lines:
        if is_left_out:
            is_left_out = not line.startswith('}')
        elif ADDED.match(line):
            is_left_out = True
            yield f'{line[:line.rindex(")") + 1]} alwaysinline {{\n  ret void\n}}\n'
        elif not FILL.match(line):
            if NAMED.search(line):
                line = NAMED.sub(r'@\1', line).replace('define internal', 'define', 1)
            yield line.replace('define i32 @main()', 'define internal i32 @unused_main()', 1).replace(' sanitize_address', '')


def main(to):
    clang = pathlib.Path(shutil.which('rt')).resolve().parent.parent / 'toolchain' / 'bin' / 'clang'
    with tempfile.TemporaryDirectory() as name:
        folder = pathlib.Path(name).resolve()
        kept(program_of_core(folder / 'copy'), folder / 'core.bc')
        as_text = ['-S', '-emit-llvm', '-O0', '-Xclang', '-disable-llvm-passes', '-o', folder / 'core.ll']
        subprocess.run([clang, '--target=x86_64-unknown-linux-gnu', '-Wno-override-module', '-x', 'ir', folder / 'core.bc', *as_text], check=True)
        with open(folder / 'core.ll') as source, open(to, 'w') as out:
            out.writelines(bare(source))


if __name__ == '__main__':
    main(*sys.argv[1:])
