#!/usr/bin/env bash
# Prints one of the two digests that a release names.
#
#     release/digests.sh made-from TOOLCHAIN   what the program is made from: the toolchain, as `rt version` names it, and the
#                                              lines of sha256sum of HANDLES, crates.txt and all .rt and .antt files in
#                                              crates/*/{src,specs,proofs}
#     release/digests.sh files FOLDER          what is shipped: the lines of sha256sum of all files of a release but its MANIFEST
#
# The lines are in the order of the names, byte by byte.
set -eu -o pipefail
unset CDPATH
export LC_ALL=C

sums() { sort -z | xargs -0 sha256sum --; }

case $1 in
    made-from)
        cd "$(dirname "$(readlink -f "${BASH_SOURCE[0]}")")/.."
        shopt -s nullglob
        {
            printf '%s\n' "$2"
            find HANDLES crates.txt crates/*/src crates/*/specs crates/*/proofs -xtype f \
                \( -name '*.rt' -o -name '*.antt' -o -path HANDLES -o -path crates.txt \) -print0 | sums
        } | sha256sum | cut -d' ' -f1
        ;;
    files)
        cd -- "$2"
        find . -type f ! -path ./MANIFEST -print0 | sums | sha256sum | cut -d' ' -f1
        ;;
    *) exit 2 ;;
esac
