#!/usr/bin/env bash
# Writes a program without its symbols, as it is shipped. The toolchain's own tool does it, so that it always gives the same bytes.
#
#     release/strip.sh PROGRAM TO
set -eu
clang=$(dirname "$(dirname "$(readlink -f "$(command -v rt)")")")/toolchain/bin/clang
exec -a llvm-strip "$clang" --strip-all -o "$2" -- "$1"
