#!/usr/bin/env bash
# Makes the release: multiscalar-VERSION-x86_64-linux.tar.gz and multiscalar_VERSION_amd64.deb, with MANIFEST and SHA256SUMS,
# from the program that was proved and built from what is committed. The same files, but for those in dist/, give the same
# bytes: a release names digests (release/digests.sh), no commit and no time, so that a commit can hold its own.
#
#     release/build.sh [FOLDER]        FOLDER: where they are written, release/out if it is left out
set -eu
unset CDPATH
export LC_ALL=C TZ=UTC
umask 022

top=$(cd "$(dirname "${BASH_SOURCE[0]}")/.." && pwd)
cd "$top"
out=$(mkdir -p "${1:-release/out}" && cd "${1:-release/out}" && pwd)
program=crates/multiscalar/out/multiscalar
core=crates/multiscalar_c/out/libmultiscalar_c.a

refuse() { printf 'release/build.sh: %s\n' "$*" >&2; exit 2; }

command -v rt >/dev/null || refuse "rt, which names the toolchain, is not on PATH"
command -v dpkg-deb >/dev/null || refuse "dpkg-deb is missing (Debian's package dpkg)"
[ -z "$(git status --porcelain --untracked-files=no -- . ':!dist')" ] || refuse "there are changes that are not committed"
[ -x "$program" ] || refuse "there is no $program: run ./multiscalar --help first, which proves and builds it"
[ -f "$core" ] || refuse "there is no $core: run release/build_program.py /dev/null multiscalar_c, which proves and builds it"

version=$(sed -n 's/^pub const VERSION: &str = "\([0-9.]*\).*/\1/p' crates/command_line/src/help.rt)
# The time of all files of all releases: 1 January 2025.
export SOURCE_DATE_EPOCH=1735689600
toolchain=$(rt version)
named=$(sed -n 's/^pub const VERSION_AND_TOOLCHAIN: &str = "\(.*\)";$/\1/p' crates/command_line/src/help.rt)
[ "$version (proved with $toolchain)" = "$named" ] || refuse "this toolchain is $toolchain, and --version says $named"
name=multiscalar-$version-x86_64-linux
work=$(mktemp -d)
trap 'rm -rf "$work"' EXIT
root=$work/$name
mkdir "$root"

# What is committed, and no other file.
committed() { git archive --format=tar HEAD -- "$@" | tar -xf - -C "$root"; }

committed README.md CHANGELOG.md CONTRIBUTING.md LICENSE-APACHE LICENSE-MIT docs examples man completions syntax compiler
# Pages to which those link.
committed bench/README.md bench/results.txt fuzz/README.md fuzz/results.txt fuzz/entry/README.md web/README.md
rm -f "$root"/examples/*.py "$root"/docs/*.py
cp release/install.sh "$root/install.sh"
release/strip.sh "$program" "$root/multiscalar"
chmod 755 "$root/multiscalar"

# The library.
committed library/multiscalar.h library/example.c python
mkdir "$root/include"
cp "$root/library/multiscalar.h" "$root/include/multiscalar.h"
mv "$root/library/example.c" "$root/examples/example.c"
library/build.sh "$root/lib"

# The page, where it has been built from this core.
page=web/out/multiscalar.html
if [ -f "$page" ] && [ "$page" -nt "$core" ]; then cp "$page" "$root/multiscalar.html"; fi

sum_of() { sha256sum "$1" | cut -d' ' -f1; }

{
    printf 'multiscalar %s\n' "$version"
    printf 'made from %s\n' "$(release/digests.sh made-from "$toolchain")"
    printf 'files %s\n' "$(release/digests.sh files "$root")"
    printf 'proved and built with %s\n' "$toolchain"
    printf 'program sha256 %s\n' "$(sum_of "$root/multiscalar")"
    printf 'program as built, with its symbols, sha256 %s\n' "$(sum_of "$program")"
    printf 'library sha256 %s\n' "$(sum_of "$root/lib/libmultiscalar.so.0")"
    printf 'its proved core as built, sha256 %s\n' "$(sum_of "$core")"
    printf 'the rest of it compiled with %s\n' "$(gcc --version | head -n 1)"
    if [ -f "$root/multiscalar.html" ]; then printf 'page sha256 %s\n' "$(sum_of "$root/multiscalar.html")"; fi
} > "$root/MANIFEST"

# The tarball.
find "$root" -exec touch -h -d "@$SOURCE_DATE_EPOCH" {} +
tar --sort=name --owner=0 --group=0 --numeric-owner --mode=u+rwX,go+rX,go-w --format=ustar -cf - -C "$work" "$name" \
    | gzip -9n > "$out/$name.tar.gz"

# The Debian package: the same files, where Debian wants them.
deb=$work/deb
share=$deb/usr/share
sh "$root/install.sh" "$deb/usr" > /dev/null
mkdir -p "$deb/DEBIAN" "$share/zsh/vendor-completions"
mv "$share/zsh/site-functions/_multiscalar" "$share/zsh/vendor-completions/_multiscalar"
rmdir "$share/zsh/site-functions"
gzip -9n "$share/man/man1/multiscalar.1" "$share/man/man1/c2ms.1"
documents=$share/doc/multiscalar
rm "$documents/LICENSE-APACHE" "$documents/LICENSE-MIT"
{
    printf 'multiscalar (%s) unstable; urgency=medium\n\n  * See CHANGELOG.md.\n\n' "$version"
    printf ' -- The authors of multiscalar <multiscalar@localhost.localdomain>  %s\n' "$(date -R -d "@$SOURCE_DATE_EPOCH")"
} > "$documents/changelog"
gzip -9n "$documents/changelog"
{
    printf 'Format: https://www.debian.org/doc/packaging-manuals/copyright-format/1.0/\n'
    printf 'Upstream-Name: multiscalar\n\nFiles: *\n'
    sed -n 's/^Copyright (c) /Copyright: Copyright (c) /p' LICENSE-MIT
    printf 'License: Expat or Apache-2.0\n\n'
    printf 'License: Expat\n'
    sed -e '1,/^Permission/{/^Permission/!d}' -e 's/^$/./' -e 's/^/ /' LICENSE-MIT
    printf '\nLicense: Apache-2.0\n On Debian systems, the text is in /usr/share/common-licenses/Apache-2.0.\n'
} > "$documents/copyright"
cat > "$deb/DEBIAN/control" <<EOF
Package: multiscalar
Version: $version
Architecture: amd64
Maintainer: The authors of multiscalar <multiscalar@localhost.localdomain>
Installed-Size: $(find "$deb/usr" -type f -printf '%s\n' | awk '{ sum += int(($1 + 1023) / 1024) } END { print sum }')
Depends: libc6 (>= 2.34)
Suggests: python3, gcc-mipsel-linux-gnu
Section: devel
Priority: optional
Description: proved checker and runner for annotated Multiscalar programs
 A compiler marks where the tasks of a program begin and end. A Multiscalar
 processor cuts the running program along these marks and runs several tasks
 at once on a ring of units; more marks tell when each register leaves its
 task. This program checks the marks on every path, explains those that are
 wrong, and runs programs whose marks are right. Each of its functions is
 proved against its contract.
EOF
printf 'libmultiscalar 0 multiscalar\n' > "$deb/DEBIAN/shlibs"
printf 'activate-noawait ldconfig\n' > "$deb/DEBIAN/triggers"
(cd "$deb" && find usr -type f -print0 | sort -z | xargs -0 md5sum) > "$deb/DEBIAN/md5sums"
find "$deb" -exec touch -h -d "@$SOURCE_DATE_EPOCH" {} +
dpkg-deb --root-owner-group -Zxz -z9 --build "$deb" "$out/multiscalar_${version}_amd64.deb" > /dev/null

cp "$root/MANIFEST" "$out/MANIFEST"
(cd "$out" && sha256sum MANIFEST "$name.tar.gz" "multiscalar_${version}_amd64.deb" | tee SHA256SUMS)
