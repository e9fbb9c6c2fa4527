#!/usr/bin/env bash
# Makes dist/, the release that a clone runs without the toolchain, from what is committed: tarball and Debian package, MANIFEST
# and SHA256SUMS. It is made at a release alone; commit it after that.
#
#     release/ship.sh
#
# First it proves and builds program and library, if they are not built from these sources. What `rt ci` proved on this machine
# is not proved again. It needs rt, gcc, git, python3, dpkg-deb.
set -eu
unset CDPATH
top=$(cd "$(dirname "$(readlink -f "${BASH_SOURCE[0]}")")/.." && pwd)
cd "$top"
most=5000000

refuse() { printf 'release/ship.sh: %s\n' "$*" >&2; exit 2; }

[ -z "$(git status --porcelain -- . ':!dist')" ] || refuse "there are changes that are not committed"
python3 release/build_program.py --is-built || python3 release/build_program.py --unless-built
# web/build.sh builds the core of the library, if it has kept none of it.
python3 release/build_program.py --is-built multiscalar_c || rm -f web/out/core.bc
web/build.sh
python3 release/build_program.py --is-built multiscalar_c || refuse "the sources changed meanwhile"

new=$(mktemp -d release/dist.XXXXXX)
trap 'rm -rf "$new"' EXIT
chmod 755 "$new"
release/build.sh "$new"
grep -q '^page sha256' "$new/MANIFEST" || refuse "the release has no page"
size=$(cat "$new"/* | wc -c)
[ "$size" -le "$most" ] || refuse "it has $size bytes, more than $most"
rm -rf dist
mv "$new" dist
trap - EXIT
echo "dist/ has $size bytes, made from $(sed -n 's/^made from //p' dist/MANIFEST)"
