#!/usr/bin/env bash
# Makes the page, one HTML file that opens without a server, from the proved core.
#
#     web/build.sh [--unproved] [FOLDER]      FOLDER: where multiscalar.html and multiscalar.wasm go, web/out if it is left out
#
# The WebAssembly module is compiled from the proved program and compared with it (web/compare); it is not proved:
# the core's LLVM module, which is one for x86-64, is compiled anew for wasm64, with a heap of its own.
# release/build_program.py proves and builds the core first, if it is not built. It needs rt and python3.
# With --unproved the core is compiled from the sources as they are, with no proof, in some minutes: for who works on the
# page, and never to hand out.
set -eu
here=$(cd "$(dirname "$(readlink -f "${BASH_SOURCE[0]}")")" && pwd)
top=$(dirname "$here")
unproved=
[ "${1:-}" != --unproved ] || { unproved=--unproved; shift; }
into=${1:-$here/out}
mkdir -p "$into" "$here/out"
into=$(readlink -f "$into")
core=$top/crates/multiscalar_c/out/libmultiscalar_c.a

if [ -z "$unproved" ]; then
    kept=$here/out/core.bc
    # This builds the core, too.
    [ -f "$core" ] && [ "$kept" -nt "$core" ] || python3 "$here/module/capture.py" "$top/crates/multiscalar_c" "$kept"
    touch "$kept"
else
    kept=$here/out/unproved.ll
    [ -f "$kept" ] && [ -z "$(find "$top"/crates/*/src -newer "$kept" -print -quit)" ] || python3 "$here/module/unproved.py" "$kept"
fi
"$here/module/retarget.sh" "$kept" "$into/multiscalar.wasm"
python3 "$here/bundle.py" "$into/multiscalar.wasm" "$into/multiscalar.html" $unproved
