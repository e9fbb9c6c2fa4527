#!/usr/bin/env bash
# Proves everything, builds a release, and compares: the digests that its MANIFEST names, and each byte of tarball and package.
#
#     release/verify.sh [FOLDER [COMMAND]]
#
# FOLDER has MANIFEST, tarball and Debian package of the release; dist, where it is left out. COMMAND proves and builds in the
# folder of the sources; rt ci, where it is left out. The sources are those of the commit that has this MANIFEST in its dist/,
# or of HEAD, if none has. It needs rt on PATH, and the C compiler that the MANIFEST names. The first time it takes as long as
# the proofs do: one to two hours on four cores.
set -eu
unset CDPATH
top=$(cd "$(dirname "$(readlink -f "${BASH_SOURCE[0]}")")/.." && pwd)
from=$(cd -- "${1:-$top/dist}" && pwd)
prove=${2:-rt ci}
work=$(mktemp -d)
trap 'rm -rf "$work"' EXIT

fail() { printf 'release/verify.sh: %s\n' "$*" >&2; exit 1; }
named() { sed -n "s/^$1 //p" "$2/MANIFEST"; }

[ -f "$from/MANIFEST" ] || fail "there is no release"
(cd "$from" && sha256sum --quiet -c SHA256SUMS >&2) || fail "SHA256SUMS does not fit"
tarball=$(basename "$from"/multiscalar-*-x86_64-linux.tar.gz)
package=$(basename "$from"/multiscalar_*_amd64.deb)
wanted=$(named 'proved and built with' "$from")
found=$(rt version)
[ "$wanted" = "$found" ] || fail "it was proved with $wanted; this toolchain is $found"
commit=HEAD
for it in $(git -C "$top" log --format=%H -- dist/MANIFEST); do
    if git -C "$top" show "$it:dist/MANIFEST" 2>/dev/null | cmp -s - "$from/MANIFEST"; then commit=$it; break; fi
done
commit=$(git -C "$top" rev-parse "$commit")
git clone -q "$top" "$work/clone"
git -C "$work/clone" checkout -q "$commit"
cd "$work/clone"
[ "$(release/digests.sh made-from "$found")" = "$(named 'made from' "$from")" ] || fail "it was made from other sources than those of $commit"
# It also builds the program.
bash -c "$prove" > "$work/proof.log" 2>&1 || { tail -n 20 "$work/proof.log" >&2; fail "$prove fails at $commit"; }
tail -n 1 "$work/proof.log"
if grep -q '^page ' "$from/MANIFEST"; then web/build.sh > /dev/null; fi
# `rt ci` proves the core of the library, but does not build it.
[ -f crates/multiscalar_c/out/libmultiscalar_c.a ] || python3 release/build_program.py /dev/null multiscalar_c
release/build.sh "$work/again" > /dev/null

mkdir "$work/theirs" "$work/ours"
tar -xzf "$from/$tarball" -C "$work/theirs" --strip-components=1
tar -xzf "$work/again/$tarball" -C "$work/ours" --strip-components=1
if [ "$(release/digests.sh files "$work/theirs")" != "$(named files "$from")" ] || [ "$(named files "$work/again")" != "$(named files "$from")" ]; then
    diff -rq "$work/theirs" "$work/ours" | sed -e "s|$work/||g" >&2 || true
    diff "$from/MANIFEST" "$work/again/MANIFEST" >&2 || true
    fail "the files differ from what $commit gives"
fi
# The same files, but packed by another version of gzip or xz, give other bytes.
cmp -s "$from/MANIFEST" "$work/again/MANIFEST" && cmp <(gzip -dc "$from/$tarball") <(gzip -dc "$work/again/$tarball") || fail "the tarball differs from what $commit gives"
for it in --fsys-tarfile --ctrl-tarfile; do
    cmp <(dpkg-deb "$it" "$from/$package") <(dpkg-deb "$it" "$work/again/$package") || fail "the package differs from what $commit gives"
done
if cmp -s "$from/SHA256SUMS" "$work/again/SHA256SUMS"; then
    echo "the tarball and the package are what $commit gives, byte for byte"
else
    echo "the tarball and the package hold what $commit gives, byte for byte, but were packed by other versions of gzip or xz"
fi
