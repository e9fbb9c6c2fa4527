#!/bin/sh
# Installs multiscalar below a folder: sh install.sh PREFIX (as /usr/local, or $HOME/.local)
set -eu
unset CDPATH
[ $# -eq 1 ] || { echo "usage: sh install.sh PREFIX" >&2; exit 2; }
from=$(cd -- "$(dirname -- "$0")" && pwd)
mkdir -p -- "$1"
to=$(cd -- "$1" && pwd)

place() { # FOLDER FILE..
    folder=$to/$1
    shift
    mkdir -p "$folder"
    cp -R "$@" "$folder/"
}

place bin "$from/multiscalar"
place share/man/man1 "$from/man/multiscalar.1" "$from/man/c2ms.1"
place share/bash-completion/completions "$from/completions/multiscalar.bash"
mv "$to/share/bash-completion/completions/multiscalar.bash" "$to/share/bash-completion/completions/multiscalar"
place share/zsh/site-functions "$from/completions/_multiscalar"
place share/fish/vendor_completions.d "$from/completions/multiscalar.fish"
place include "$from/include/multiscalar.h"
place lib "$from/lib/libmultiscalar.a" "$from/lib/libmultiscalar.so.0"
ln -sf libmultiscalar.so.0 "$to/lib/libmultiscalar.so"
place lib/pkgconfig "$from/lib/multiscalar.pc"
place share/multiscalar "$from/syntax" "$from/compiler" "$from/python"
ln -sf ../share/multiscalar/compiler/c2ms.py "$to/bin/c2ms"
place share/doc/multiscalar "$from/README.md" "$from/CHANGELOG.md" "$from/LICENSE-APACHE" "$from/LICENSE-MIT" \
    "$from/MANIFEST" "$from/docs" "$from/examples"
if [ -f "$from/multiscalar.html" ]; then place share/doc/multiscalar "$from/multiscalar.html"; fi
echo "multiscalar and c2ms are in $to/bin; their documents and examples are in $to/share/doc/multiscalar, multiscalar.py and syntax files in $to/share/multiscalar, the library in $to/lib"
