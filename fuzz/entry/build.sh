#!/bin/bash
# usage: build.sh MODULE.bc FOLDER: makes FOLDER/fuzzer (libFuzzer), FOLDER/fuzzer_asan (the same under the
# address sanitizer) and FOLDER/cases (runs the cases of files). capture.py makes MODULE.bc. Needs Debian's
# clang with its libFuzzer, the clang of the toolchain, and objcopy.
set -eu
module=$(realpath "$1") to=$2 here=$(dirname "$(readlink -f "$0")")
kit=$(dirname "$(dirname "$(readlink -f "$(command -v rt)")")")
mkdir -p "$to"; cd "$to"
plain="--target=x86_64-unknown-linux-gnu --no-default-config -Wno-override-module -mllvm -trap-unreachable -mllvm -no-trap-after-noreturn -O2 -fPIE -ffunction-sections -fdata-sections -c -x ir"
covers="-fsanitize-coverage=inline-8bit-counters,pc-table -fsanitize-coverage-ignorelist=hot.txt"
echo 'fun:mips_plain::memory::padded' > hot.txt        # 131,072 turns for each machine that is made
renames=(--redefine-sym main=product_main)
for name in open read write close malloc free realloc abort pthread_create pthread_join pthread_detach; do renames+=(--redefine-sym $name=h_$name); done
renames+=(--redefine-sym _exit=h_exit)
ar x "$kit/c/liblibc_c.a" heap.pic.o
ar x "$kit/c/libos_c.a" errno.pic.o env.pic.o
objcopy "${renames[@]}" heap.pic.o heap.o
"$kit/toolchain/bin/clang" $plain $covers "$module" -o covered.o
objcopy "${renames[@]}" covered.o product.o
clang -O2 -g -Wall -Wextra -Wno-unused-parameter -DFUZZER -fPIE -c "$here/entry.c" -o entry.o
clang++ -fsanitize=fuzzer -pie entry.o product.o heap.o errno.pic.o env.pic.o -lpthread -o fuzzer
if [ "${ASAN:-}" ]; then
    "$kit/toolchain/bin/clang" $plain -O1 -fsanitize=address "$module" -o asan.o
    objcopy "${renames[@]}" asan.o product_asan.o
    clang -O1 -g -fsanitize=address -fPIE -c "$here/entry.c" -o entry_asan.o
    clang++ -fsanitize=address,fuzzer -pie entry_asan.o product_asan.o heap.o errno.pic.o env.pic.o -lpthread -o fuzzer_asan
fi
