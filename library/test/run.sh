#!/usr/bin/env bash
# Tries the C library and the Python module: the example, hostile bytes under AddressSanitizer, each allocation refused
# in turn, threads with small stacks, the stack of each call, sizes and times, and the bytes of the program over all
# examples and random texts.
#
#     library/test/run.sh LIBRARY PROGRAM [TEXTS]
#
# LIBRARY: the folder that library/build.sh wrote. PROGRAM: the program multiscalar. TEXTS: how many random texts, 2,000
# where it is left out. It needs gcc and python3.
set -eu
library=$(readlink -f "$1")
program=$(readlink -f "$2")
texts=${3:-2000}
failed=
here=$(cd "$(dirname "${BASH_SOURCE[0]}")" && pwd)
top=$(dirname "$(dirname "$here")")
work=$(mktemp -d)
trap 'rm -rf "$work"' EXIT
cd "$work"

count=$top/examples/count/program.s
diamond=$top/examples/diamond/program.s
# What multiscalar.h says that a call takes at most: 160 KiB.
most_stack=163840
flags=(-std=gnu11 -Wall -Wextra -O2 -I "$top/library")

build() { gcc "${flags[@]}" "$here/$1.c" "${@:2}" "$library/libmultiscalar.a" -lpthread -o "$1"; }

echo "== example"
gcc "${flags[@]}" "$top/library/example.c" "$library/libmultiscalar.a" -o example
sed 's/create=[^ ]*/create=-/' "$count" > wrong.s
./example wrong.s > said && exit 1
"$program" explain --no-warnings wrong.s | cmp - said
echo "== only multiscalar_* is exported"
! nm -D --defined-only "$library/libmultiscalar.so" | grep -v ' [A-Z] multiscalar_\| A MULTISCALAR_'
echo "== hostile bytes, under AddressSanitizer"
build hostile -fsanitize=address -g
for it in "$count" "$diamond"; do ./hostile "$it" 300; done
echo "== each allocation refused"
build refused_allocations -Wl,--wrap=malloc,--wrap=realloc,--wrap=free
./refused_allocations "$count"
echo "== the stack"
build stack
python3 "$here/largest.py" > largest.s
./stack largest.s "$most_stack" || failed=yes
for it in $(find "$top/examples" -name '*.s'); do ./stack "$it" "$most_stack" > /dev/null || failed=yes; done
echo "== threads with small stacks"
build threads
./threads "$count" 262144
echo "== sizes, in bytes"
stat -L -c '%n %s' "$library/libmultiscalar.a" "$library/libmultiscalar.so" example | sed 's|.*/||'
echo "== a check of 200 instructions"
build times
python3 "$here/middling.py" > middling.s
./times middling.s "$program"
echo "== Python"
(cd "$top/python" && MULTISCALAR_LIBRARY=$library/libmultiscalar.so.0 python3 -m unittest -q test_multiscalar)
echo "== the program's bytes"
MULTISCALAR_LIBRARY=$library/libmultiscalar.so.0 PYTHONPATH=$top/python python3 "$here/compare.py" "$program" "$texts"
[ -z "$failed" ] || { echo "a call takes more of the stack than multiscalar.h says" >&2; exit 1; }
echo "the library works"
