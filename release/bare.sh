#!/usr/bin/env bash
# Tries a release, and a clone that has it as its dist/, in two systems that have nothing else. In a bare Debian: unpacked,
# installed by install.sh, and as a package; the commands of the pages, the man page and the completions; the programs of
# docs/LIBRARY.md, in C and in Python; and the page with this system's Chromium, where it has one. Then, in that system and in
# one with the paths of Fedora and without dpkg, made of the same programs: a clone, as a user and in a folder with a blank, and as
# one that the user cannot write to; and what that user installs of it.
#
#     release/bare.sh [FOLDER]        FOLDER: where the release is, dist where it is left out
#
# It needs root, git, debootstrap, and a mirror of Debian's packages. The variable BARE names a folder of debootstrap with the
# packages below, if there is one already.
set -eu
unset CDPATH
top=$(cd "$(dirname "$(readlink -f "${BASH_SOURCE[0]}")")/.." && pwd)
from=$(readlink -f "${1:-$top/dist}")
work=$(mktemp -d)
system=$work/system
trap 'rm -rf "$work"' EXIT
chmod 755 "$work"

packages=mandoc,bash-completion,python3,gcc,libc6-dev
mirror=$(sed -n 's/^URIs: *//p; s/^deb \(\[[^]]*\] \)\?\([^ ]*\).*/\2/p' /etc/apt/sources.list /etc/apt/sources.list.d/* 2>/dev/null | head -n 1)
codename=$(. /etc/os-release && echo "$VERSION_CODENAME")
if [ -n "${BARE:-}" ]; then
    cp -a "$BARE" "$system"
else
    debootstrap --variant=minbase --include="$packages" "$codename" "$system" "${mirror:-http://deb.debian.org/debian}" > "$work/bootstrap.log" 2>&1 \
        || { tail -n 5 "$work/bootstrap.log" >&2; exit 2; }
fi

inside() { chroot "$system" /bin/bash -c "$1"; }

cp "$from"/multiscalar-*.tar.gz "$from"/multiscalar_*.deb "$system/srv/"
cp "$top/examples/compare.py" "$top/examples/pages.py" "$system/srv/"

echo "== unpacked"
inside 'cd /srv && tar -xzf multiscalar-*.tar.gz && cd multiscalar-*/ && ./multiscalar run --least examples/count/program.s'
echo "== what the examples print"
inside 'cd /srv/multiscalar-*/ && cp ../compare.py ../pages.py examples/ && python3 examples/compare.py ./multiscalar && python3 examples/pages.py ./multiscalar && rm examples/*.py'
echo "== install.sh"
inside 'cd /srv/multiscalar-*/ && sh install.sh /srv/installed && /srv/installed/bin/multiscalar --version'
echo "== the library"
python3 "$top/library/test/shown.py" "$system"/srv/multiscalar-*/docs/LIBRARY.md "$system/srv"
# In braces, since `;` would go on where gcc failed, with the program that an earlier line built.
tried='{ status=0; ./a > said || status=$?; [ $status = 1 ] && cmp said a.txt; }'
inside "cd /srv && gcc -Wall -Wextra -I multiscalar-*/include a.c multiscalar-*/lib/libmultiscalar.a -o a && $tried"
inside "cd /srv && gcc -I installed/include a.c -L installed/lib -lmultiscalar -Wl,-rpath,/srv/installed/lib -o a && $tried"
inside 'cd /srv && gcc -I installed/include multiscalar-*/examples/example.c installed/lib/libmultiscalar.a -o example && ./example multiscalar-*/examples/count/program.s'
inside "cd /srv && cp multiscalar-*/examples/five-findings/program.s a.s && PYTHONPATH=\$(echo multiscalar-*/python) python3 a.py"
inside 'cd /srv/installed/share/multiscalar/python && python3 -m unittest -q test_multiscalar'
echo "== the page"
has_page=
if [ -f "$(echo "$system"/srv/multiscalar-*/multiscalar.html)" ]; then has_page=yes; fi
if [ -n "$has_page" ]; then
    inside 'cd /srv/multiscalar-*/ && grep -q "^page sha256 $(sha256sum multiscalar.html | cut -d" " -f1)$" MANIFEST && cmp multiscalar.html /srv/installed/share/doc/multiscalar/multiscalar.html && wc -c multiscalar.html'
else
    inside 'cd /srv && ! grep "^page " multiscalar-*/MANIFEST && [ ! -e installed/share/doc/multiscalar/multiscalar.html ]'
    echo "this release has none: web/build.sh makes it, before release/build.sh"
fi
echo "== the package"
inside 'dpkg -i /srv/multiscalar_*.deb > /dev/null && multiscalar check --least /usr/share/doc/multiscalar/examples/count/program.s'
inside "cd /srv && gcc a.c -lmultiscalar -o a && $tried && PYTHONPATH=/usr/share/multiscalar/python python3 a.py"
[ -z "$has_page" ] || inside 'cmp /srv/multiscalar-*/multiscalar.html /usr/share/doc/multiscalar/multiscalar.html'
echo "== man page and completions"
inside '! zcat /usr/share/man/man1/multiscalar.1.gz | mandoc -T lint -W warning | grep -v "new sentence, new line" && zcat /usr/share/man/man1/multiscalar.1.gz | mandoc -T ascii | head -n 5'
inside 'source /usr/share/bash-completion/completions/multiscalar; COMP_WORDS=(multiscalar r); COMP_CWORD=1; _multiscalar; echo "${COMPREPLY[@]}"'
inside 'dpkg -r multiscalar > /dev/null && ! command -v multiscalar && [ ! -e /usr/lib/libmultiscalar.so.0 ]'

# Files of the Debian system where Fedora has them, without dpkg and apt.
make_other() {
    local it
    mkdir -p "$other"/usr/{lib64,lib,include} "$other"/{etc,dev,root,srv,var} && mkdir -m 1777 "$other/tmp"
    for it in bin sbin lib lib64; do ln -s "usr/$it" "$other/$it"; done
    cp -a "$system/usr/bin" "$system/usr/sbin" "$other/usr/"
    # What was in /bin and /lib, where the system has not merged them with those of /usr.
    for it in bin sbin; do [ -L "$system/$it" ] || cp -a "$system/$it/." "$other/usr/$it/"; done
    [ -L "$system/lib" ] || cp -a "$system/lib/x86_64-linux-gnu/." "$other/usr/lib64/"
    cp -a "$system/usr/lib/x86_64-linux-gnu/." "$other/usr/lib64/"
    cp -L "$system/lib64/ld-linux-x86-64.so.2" "$other/usr/lib64/"
    cp -a "$system/usr/include/." "$other/usr/include/"
    cp -a "$other/usr/include/x86_64-linux-gnu/." "$other/usr/include/" && rm -r "$other/usr/include/x86_64-linux-gnu"
    cp -a "$system"/usr/lib/{gcc,python3*} "$other/usr/lib/"
    rm -f "$other"/usr/bin/{dpkg,apt,deb}* "$other"/usr/sbin/dpkg*
    sed -i 's|/\(usr/\)\?lib/x86_64-linux-gnu/|/usr/lib64/|g' "$other/usr/lib64/libc.so"
    printf 'NAME="a system with the paths of Fedora"\nID=other\n' > "$other/etc/os-release"
    echo /usr/lib64 > "$other/etc/ld.so.conf"
    mknod -m 666 "$other/dev/null" c 1 3
    rm -f "$other/usr/bin/cc"
    printf '#!/bin/sh\nexec gcc -B/usr/lib64 -L/usr/lib64 "$@"\n' > "$other/usr/bin/cc" && chmod 755 "$other/usr/bin/cc"
    /sbin/ldconfig -r "$other"
    chroot "$other" /bin/bash -c '! command -v dpkg && ! command -v apt && [ ! -e /usr/lib/x86_64-linux-gnu ]'
}

# Runs a command in a system as a user who is not root, with the times that it takes.
as_user() { # SYSTEM COMMAND
    chroot --userspec=1000:1000 "$1" /usr/bin/env -i HOME="/home/a user" PATH=/usr/local/bin:/usr/bin:/bin TIMEFORMAT='    %R s' /bin/bash -euc "$2"
}

# What the first command of README.md says, in a second call nothing more.
first='[ "$(./multiscalar run --least examples/count/program.s 2>said)" = "$(printf "10\nretired 4 c 16 h 18\nhalted")" ]'

try_clone() { # SYSTEM
    local home="$1/home/a user"
    mkdir -p "$home" "$1/srv/one folder"
    for it in "$home/a clone" "$1/srv/one folder/clone"; do
        git clone -q "$top" "$it"
        rm -rf "$it/dist"
        cp -R "$from" "$it/dist"
    done
    chown -R 1000:1000 "$home"
    sleep 3 # the launcher looks at times alone where files are some seconds old
    ! chroot "$1" /bin/bash -c 'command -v rt'
    echo "a clone of the user: the first call, and another"
    as_user "$1" "cd \"\$HOME/a clone\" && time $first && grep 'proved elsewhere' said && time $first && [ ! -s said ] && rm said && [ -x crates/multiscalar/out/shipped/multiscalar ]"
    echo "a clone of root, to which the user cannot write"
    as_user "$1" "cd \"\$HOME\" && mkdir work && cd work && ln -s '/srv/one folder/clone/examples' . && first() { '/srv/one folder/clone/multiscalar' run --least examples/count/program.s; } \
        && time first 2>said && grep 'proved elsewhere' said && time first 2>said && [ ! -s said ] && [ -d ~/.cache/multiscalar ] && [ ! -e '/srv/one folder/clone/crates/multiscalar/out' ]"
    echo "what that user installs, the library's example, and the Python module"
    as_user "$1" 'cd "$HOME" && tar -xzf "a clone"/dist/multiscalar-*.tar.gz && cd multiscalar-*/ && sh install.sh "$HOME/in stalled" && "$HOME/in stalled/bin/multiscalar" --version'
    as_user "$1" 'cd "$HOME/in stalled" && cc -I include share/doc/multiscalar/examples/example.c lib/libmultiscalar.a -o "$HOME/example" && "$HOME/example" share/doc/multiscalar/examples/count/program.s'
    as_user "$1" 'cd "$HOME/in stalled/share/multiscalar/python" && python3 -B -m unittest -q test_multiscalar'
}

echo "== a clone, here"
try_clone "$system"
other=$work/other
make_other
echo "== a clone, in a system with the paths of Fedora"
try_clone "$other"
if [ -n "$has_page" ] && command -v chromium > /dev/null && command -v chromedriver > /dev/null; then
    echo "== the page, in Chromium"
    "$top/web/test" "$(echo "$system"/srv/multiscalar-*/multiscalar.html)" --browser chromium
fi
echo "release and clone work in two bare systems"
