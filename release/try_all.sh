#!/usr/bin/env bash
# Tries all that a release holds beside the proofs, over the program and the core that are proved and built here: the
# page, the library, the Python module, the tarball and the package. Each step is one command; and how long it took is printed.
#
#     release/try_all.sh [STEP..]            all steps, in this order, where none is named
#
#     page       web/build.sh: the page                                                               1 min
#     answers    web/compare: the module's answers beside the program's                              10 min
#     browsers   web/test: Chromium and Firefox, with screenshots                                     4 min
#     library    library/build.sh, library/test/run.sh: the library, its tests, stack, sizes, times   2 min
#     agree      docs/make.py: pages, man page and completions beside --help                         1 s
#     release    release/ship.sh in two clones of this commit: the same bytes                         7 min
#     package    lintian                                                                             15 s
#     python     pip installs the module of the release, and its tests run                           25 s
#     bare       release/bare.sh: release and clone in two systems that have nothing else             6 min
#     verify     release/verify.sh: proves and builds the release anew; only where it is named        an hour
#
# The times are those of a machine with four cores that was busy with proofs. `page` builds the core first, if web/build.sh
# has not built it yet, which takes longer; the others need crates/multiscalar/out/multiscalar.
#
# What each step says is in release/out/try/STEP.log, the release itself in release/out/try/one. It needs rt, gcc, git,
# and Debian's packages chromium, chromium-driver, firefox-esr, lintian, python3-venv, python3-setuptools, python3-wheel and, as
# root, debootstrap.
set -u
unset CDPATH
top=$(cd "$(dirname "$(readlink -f "${BASH_SOURCE[0]}")")/.." && pwd)
cd "$top"
out=$top/release/out/try
program=$top/crates/multiscalar/out/multiscalar
page=$top/web/out/multiscalar.html
mkdir -p "$out"

try_page() { web/build.sh; }
try_answers() { web/compare "$page" "$program"; }
try_browsers() { web/test "$page" --screenshots "$out/screenshots"; }
try_library() { library/build.sh "$out/library" && library/test/run.sh "$out/library" "$program"; }
try_agree() { docs/make.py --check "$program"; }

# A clone of this commit with what was proved and built here, in which the page and the release are made.
released() { # FOLDER
    local work
    work=$(mktemp -d) || return
    rm -rf "$out/$1"
    git clone -q "$top" "$work/clone" && mkdir -p "$work/clone/web/out" \
        && for it in multiscalar multiscalar_c; do cp -a "crates/$it/out" "$work/clone/crates/$it/out" || return; done \
        && cp -p web/out/core.bc "$work/clone/web/out/" \
        && "$work/clone/release/ship.sh" && mv "$work/clone/dist" "$out/$1"
    local status=$?
    rm -rf "$work"
    return $status
}

try_release() {
    released one && released two || return
    for it in "$out"/one/*; do cmp "$it" "$out/two/${it##*/}" || return; done
    echo "both clones give the same bytes"
    ls -l "$out/one"
}

# What lintian may say: nobody has an address yet; one package holds the program, the library and what it takes to build
# with it; two of the texts that are to be refused are not ASCII.
allowed=bogus-mail-host,bogus-mail-host-in-debian-changelog,link-to-shared-library-in-wrong-package
allowed=$allowed,package-name-doesnt-match-sonames,pkg-config-unavailable-for-cross-compilation,national-encoding
try_package() { lintian --allow-root --fail-on error,warning --suppress-tags "$allowed" "$out"/one/*.deb; }

try_python() {
    local work
    work=$(mktemp -d) || return
    tar -xzf "$out"/one/*.tar.gz -C "$work" --strip-components=1 && /usr/bin/python3 -m venv --system-site-packages "$work/venv" \
        && "$work/venv/bin/pip" install -q --no-build-isolation "$work/python" && cp "$work/python/test_multiscalar.py" "$work/venv/" \
        && (cd "$work/venv" && MULTISCALAR_LIBRARY=$work/lib/libmultiscalar.so.0 bin/python -m unittest -v test_multiscalar)
    local status=$?
    rm -rf "$work"
    return $status
}

try_bare() { release/bare.sh "$out/one"; }
try_verify() { release/verify.sh "$out/one"; }

[ $# -gt 0 ] || set -- page answers browsers library agree release package python bare
failed=0
for step in "$@"; do
    begun=$SECONDS
    "try_$step" > "$out/$step.log" 2>&1
    status=$?
    printf '%-9s %5d s  %s\n' "$step" $((SECONDS - begun)) "$([ $status = 0 ] && tail -n 1 "$out/$step.log" || echo "FAILED: $out/$step.log")"
    [ $status = 0 ] || failed=1
done
exit $failed
