#!/usr/bin/env bash
# Makes the C library from the proved core: libmultiscalar.a, libmultiscalar.so and multiscalar.pc.
#
#     library/build.sh FOLDER          FOLDER: where they go
#
# The core is proved and built first, if it is not built. It needs rt and gcc.
set -eu
here=$(cd "$(dirname "$(readlink -f "${BASH_SOURCE[0]}")")" && pwd)
top=$(dirname "$here")
mkdir -p "$1"
into=$(readlink -f "$1")
kit=$(dirname "$(dirname "$(readlink -f "$(command -v rt)")")")
core=$top/crates/multiscalar_c/out/libmultiscalar_c.a
version=$(sed -n 's/^.*"\([0-9][0-9.]*\) (proved with .*$/\1/p; s/^pub const VERSION: &str = "\([0-9.]*\)";$/\1/p' "$top/crates/command_line/src/help.rt" | head -n 1)
: "${version:?the version stands nowhere in crates/command_line/src/help.rt}"

[ -f "$core" ] || python3 "$top/release/build_program.py" /dev/null multiscalar_c

work=$(mktemp -d)
trap 'rm -rf "$work"' EXIT
cd "$work"
gcc -std=c11 -Wall -Wextra -O2 -fPIC -DMULTISCALAR_VERSION="\"$version\"" -c "$here/multiscalar.c" -o multiscalar.o
printf 'create libmultiscalar.a\naddlib %s\naddlib %s\naddmod multiscalar.o\nsave\nend\n' "$core" "$kit/c/liblibc_c.a" | ar -M
printf 'MULTISCALAR_0 { global: multiscalar_*; local: *; };\n' > exports.map
gcc -shared -Wl,-soname,libmultiscalar.so.0 -Wl,--version-script=exports.map -Wl,-z,defs -Wl,--gc-sections \
    -Wl,--build-id=none -s -Wl,--whole-archive libmultiscalar.a -Wl,--no-whole-archive -o libmultiscalar.so.0
cat > multiscalar.pc <<PC
prefix=\${pcfiledir}/../..
includedir=\${prefix}/include
libdir=\${prefix}/lib

Name: multiscalar
Description: Checks, explains, runs and replays annotated Multiscalar programs
Version: $version
Cflags: -I\${includedir}
Libs: -L\${libdir} -lmultiscalar
PC
chmod 644 libmultiscalar.a libmultiscalar.so.0
cp libmultiscalar.a libmultiscalar.so.0 multiscalar.pc "$into/"
ln -sf libmultiscalar.so.0 "$into/libmultiscalar.so"
