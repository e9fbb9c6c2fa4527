#!/usr/bin/env python3
"""Compares the release in dist/ with the program that `rt ci` built, where it was made from these sources; else a line says
that it is older, and nothing fails. release/verify.sh compares all else.

    .ci/shipped.py [TOP]
"""
import hashlib
import pathlib
import re
import subprocess
import sys
import tempfile

MOST = 5_000_000


def called(top, *words):
    return subprocess.run([top / "release" / words[0], *words[1:]], stdout=subprocess.PIPE, check=True, text=True).stdout.strip()


def named(file, pattern):
    found = re.search(pattern, file.read_text(), re.M)
    return found[1] if found else ""


def faults(top, folder):
    """What of the release is not as it should be. The folder is empty, and for files of this script."""
    dist = top / "dist"
    sums = dict(reversed(it.split("  ")) for it in (dist / "SHA256SUMS").read_text().splitlines())
    if {it.name for it in dist.iterdir()} != {"SHA256SUMS", *sums}:
        yield "dist/ has other files than SHA256SUMS names"
        return
    yield from (f"{name} has another digest than SHA256SUMS names" for name, of in sums.items() if hashlib.sha256((dist / name).read_bytes()).hexdigest() != of)
    if sum(it.stat().st_size for it in dist.iterdir()) > MOST:
        yield f"dist/ has more than {MOST} bytes"
    tarball = next(it for it in sums if it.endswith(".tar.gz"))
    subprocess.run(["tar", "-xzf", dist / tarball, "-C", folder], check=True)
    root = folder / tarball.removesuffix(".tar.gz")
    if (root / "MANIFEST").read_bytes() != (dist / "MANIFEST").read_bytes():
        yield "the tarball has another MANIFEST"
    if called(top, "digests.sh", "files", root) != named(dist / "MANIFEST", "^files (.*)$"):
        yield "the files of the tarball have another digest than MANIFEST names"
    program, stripped = root / "multiscalar", folder / "stripped"
    if hashlib.sha256(program.read_bytes()).hexdigest() != named(dist / "MANIFEST", "^program sha256 (.*)$"):
        yield "the program has another digest than MANIFEST names"
    built = top / "crates/multiscalar/out/multiscalar"
    if not built.is_file():
        yield "no program was built here"
        return
    called(top, "strip.sh", built, stripped)
    if program.read_bytes() != stripped.read_bytes():
        yield "the program is not the one that was built here"


def main(top=pathlib.Path(__file__).resolve().parent.parent):
    top = pathlib.Path(top)
    if not (top / "dist/MANIFEST").is_file():
        print("shipped: there is no release in dist/")
        return 0
    toolchain = subprocess.run(["rt", "version"], stdout=subprocess.PIPE, check=True, text=True).stdout.strip()
    if called(top, "digests.sh", "made-from", toolchain) != named(top / "dist/MANIFEST", "^made from (.*)$"):
        print("shipped: the release in dist/ is older than the sources or than the toolchain, and is not compared")
        return 0
    with tempfile.TemporaryDirectory() as folder:
        found = list(faults(top, pathlib.Path(folder)))
    print(*(f"shipped: {it}" for it in found or ["the program in dist/ is the one that was built here, byte for byte"]), sep="\n")
    return 1 if found else 0


if __name__ == "__main__":
    sys.exit(main(*sys.argv[1:]))
