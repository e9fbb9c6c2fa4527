#!/bin/bash
# usage: races.sh MODULE.bc FOLDER: makes FOLDER/multiscalar_tsan, the program under the thread sanitizer of
# Debian's clang, and with CONTROL=1 also FOLDER/multiscalar_control, in which each atomic access is relaxed: there
# the sanitizer must find races, or it would find none in the other. capture.py makes MODULE.bc.
set -eu
module=$(realpath "$1") to=$2
kit=$(dirname "$(dirname "$(readlink -f "$(command -v rt)")")")
mkdir -p "$to"; cd "$to"
ir="$kit/toolchain/bin/clang --target=x86_64-unknown-linux-gnu --no-default-config -Wno-override-module -x ir"
build() {
    $ir "$1" -O1 -fPIE -fsanitize=thread -mllvm -trap-unreachable -mllvm -no-trap-after-noreturn -c -o "$2.o"
    # The older runtime has no names of its own for these; it sees the calls of C.
    objcopy --redefine-sym __tsan_memset=memset --redefine-sym __tsan_memcpy=memcpy --redefine-sym __tsan_memmove=memmove "$2.o"
    clang -fsanitize=thread -pie "$2.o" "$kit/c/libos_c.a" "$kit/c/liblibc_c.a" -o "$2"
}
$ir "$module" -S -emit-llvm -O0 -Xclang -disable-llvm-passes -o threads.ll
sed -i 's/sanitize_address/sanitize_thread/g' threads.ll
build threads.ll multiscalar_tsan
if [ "${CONTROL:-}" ]; then
    sed -E '/ atomic |atomicrmw|cmpxchg/ s/ (acquire|release|acq_rel|seq_cst)\b/ monotonic/g' threads.ll > relaxed.ll
    build relaxed.ll multiscalar_control
fi
