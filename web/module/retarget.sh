#!/usr/bin/env bash
# Compiles the core's LLVM module, which is one for x86-64, for wasm64, with heap.c and allocation.ll instead of
# the C library. Both targets have little-endian pointers of 64 bits; the layout of data is replaced by text.
#
#     web/module/retarget.sh CORE.bc MODULE.wasm          (CORE may be text, CORE.ll)
#
# Nothing proves that the two modules mean the same: web/compare compares what they answer.
set -eu
core=$(readlink -f "$1")
module=$(realpath -m "$2")
here=$(cd "$(dirname "$(readlink -f "${BASH_SOURCE[0]}")")" && pwd)
tools=$(dirname "$(dirname "$(readlink -f "$(command -v rt)")")")/toolchain/bin
work=$(mktemp -d)
trap 'rm -rf "$work"' EXIT
cd "$work"

layout='e-m:e-p:64:64-p10:8:8-p20:8:8-i64:64-i128:128-n32:64-S128-ni:1:10:20'
flags=(--target=wasm64-unknown-unknown -mcpu=generic -mbulk-memory -msign-ext -mnontrapping-fptoint -ffunction-sections -fdata-sections -Os)
calls='seq print annotate check explain replay run_steps curve demonstrate'

"$tools/clang" --target=x86_64-unknown-linux-gnu -Wno-override-module -x ir "$core" -S -emit-llvm -O0 -Xclang -disable-llvm-passes -o core.ll
sed -i -e "s/^target datalayout = .*/target datalayout = \"$layout\"/" \
    -e 's/^target triple = .*/target triple = "wasm64-unknown-unknown"/' \
    -e 's/ "\(target-cpu\|target-features\|probe-stack\|stack-probe-size\|frame-pointer\)"="[^"]*"//g' \
    -e 's/^\(attributes #[0-9]* = {\) *}/\1 "none" }/' core.ll
"$tools/clang" "${flags[@]}" -x ir core.ll -c -o core.o
"$tools/clang" "${flags[@]}" -x ir "$here/allocation.ll" -c -o allocation.o
"$tools/clang" "${flags[@]}" -Wall -Wextra -ffreestanding -fno-builtin -std=c11 -x c "$here/heap.c" -c -o heap.o
ln -s "$tools/ld.lld" wasm-ld
./wasm-ld -mwasm64 --no-entry --stack-first -z stack-size=4194304 --gc-sections --strip-debug \
    $(printf -- '--export=multiscalar_c_%s ' $calls) --export=malloc --export=free -o "$module" core.o allocation.o heap.o
