#!/usr/bin/env python3
"""Tries the launcher, the scripts of release/ and compiler/c2ms.py, in seconds and without the toolchain.

    .ci/launcher.py [--times] [NAME..]      all trials, or those whose names hold one of these words

In the places of `rt`, GCC and the program stand scripts that are made here. Each trial has a folder of its own.
"""

import concurrent.futures
import contextlib
import hashlib
import os
import pathlib
import re
import resource
import select
import shutil
import stat
import subprocess
import sys
import tempfile
import time

TOP = pathlib.Path(__file__).resolve().parent.parent
sys.path.append(str(TOP / "compiler"))
sys.dont_write_bytecode = True
import names
import whole_file

HELP = (TOP / "crates/test_program/data/rows/help").read_text()
# What the proved program says of its version.
VERSION = re.search(r"^\$ --version\n> (.*)$", HELP, re.M)[1]
RT = r"""#!/bin/bash
echo "$1" >> "$FAKE/calls"
case $1 in
version) echo "kit" ;;
ci)
    echo "rt: low proved"
    made=crates/multiscalar/out/multiscalar
    text=$(cat crates/multiscalar/src/main.rt)
    while [ -e "$FAKE/hold" ]; do sleep 0.02; done
    if [ -e "$FAKE/fails" ]; then echo "rt: multiscalar NOT PROVED"; exit 1; fi
    mkdir -p crates/multiscalar/out
    printf '#!/bin/bash\n[ "$1" = --version ] && echo "VERSION" || echo "%s"\n' "$text" > $made
    chmod +x $made
    echo "rt: multiscalar proved"
    ;;
try)
    shift 2
    case $1 in --version | -V) echo "VERSION" ;; *) printf '<%s>\n' "$@" ;; esac
    echo "multiscalar: a word of the program" >&2
    echo "run=ended status=1 proved=no" >&2
    exit 1
    ;;
esac
""".replace("VERSION", VERSION)
GCC = "#!/bin/bash\n[ \"$1\" = --version ] && { echo 'gcc (kit) 12.2.0'; exit; }\nprintf '%s: wrong\\n' \"${@: -1}\" >&2\nexit 1\n"
PROGRAM = "#!/bin/bash\ncase $1 in annotate | print) cat \"${@: -1}\" ;; run) echo 5 ;; esac\n"
ASSEMBLY = "\t.text\n\t.globl main\nmain:\n\tli $2,5\n\tjr $31\n"
# What a name may hold, and how it is shown. The last ones are as they are.
NAMES = {
    b"a\x1b[31m": "a\\x1b[31m", b"a\rb": "a\\x0db", b"a\nb": "a\\x0ab", b"a\tb": "a\\x09b", b"a\x7f": "a\\x7f", b"\xc2\x9b\xc3\xa9": "\\xc2\\x9b\\xc3\\xa9",
    b"\xe2\x80\xaeb": "\\xe2\\x80\\xaeb", b"\xe2\x81\xa6b": "\\xe2\\x81\\xa6b", b"\xff\xc3\xa9": "\\xff\\xc3\\xa9", b"a b": "a b", "é 日".encode(): "é 日",
}
# Those that are tried by whole calls.
CALLED = [b"a\nb", b"\xff\xc3\xa9", b"a b", "é 日".encode()]
PLAIN = ["--plain", "--tasks", "calls", "--leaves", "own", "--release", "none", "--quiet"]


def expect(holds, *said):
    if not holds:
        raise AssertionError(" ".join(str(it) for it in said))


def sum_of(data):
    return hashlib.sha256(data).hexdigest()


def make(file, text, bits=0o755):
    file.parent.mkdir(parents=True, exist_ok=True)
    file.write_text(text)
    file.chmod(bits)


def copied(folder, *paths):
    for it in paths:
        (folder / it).parent.mkdir(parents=True, exist_ok=True)
        shutil.copy(TOP / it, folder / it)


class Place:
    """A folder with the launcher, a few sources, and an `rt` that notes its calls."""

    def __init__(self, folder, name="sources"):
        self.folder, self.top, self.bin = folder, folder / name, folder / "bin"
        copied(self.top, "multiscalar", "release/build_program.py", "release/progress.py", "release/digests.sh", "compiler/names.py")
        make(self.top / "crates.txt", "low:\nmultiscalar: low\nother: low\n", 0o644)
        make(self.top / "HANDLES", "Handles allowed: none.\n", 0o644)
        for it in ("low/src/lib.rt", "multiscalar/src/main.rt", "multiscalar/specs/Lib.antt", "other/src/lib.rt"):
            make(self.top / "crates" / it, "first\n", 0o644)
        make(self.bin / "rt", RT)
        (self.bin / "python3").symlink_to(sys.executable)
        # Sources that are older than any build.
        for it in [*self.top.rglob("*"), self.top]:
            os.utime(it, (1e9, 1e9))
        self.main, self.out = self.top / "crates/multiscalar/src/main.rt", self.top / "crates/multiscalar/out"

    def settings(self, **more):
        return {**os.environ, "FAKE": str(self.folder), "PATH": f"{self.bin}:{os.environ['PATH']}", **more}

    def begin(self, *words, **how):
        how = {"cwd": self.folder, "env": self.settings(), "stdin": subprocess.DEVNULL, "stdout": subprocess.PIPE, "stderr": subprocess.PIPE, **how}
        return subprocess.Popen([self.top / "multiscalar", *words], **how)

    def call(self, *words, **how):
        return ended(self.begin(*words, **how))

    def builds(self):
        with contextlib.suppress(OSError):
            return (self.folder / "calls").read_text().split().count("ci")
        return 0

    def digest(self, *words):
        return subprocess.run([self.top / "release/digests.sh", *words], stdout=subprocess.PIPE, check=True, text=True).stdout.strip()

    def ship(self, program="#!/bin/bash\necho shipped\n"):
        """Makes a dist/ of the sources as they are, with this program, and with a package that is none."""
        name, dist = "multiscalar-1.0-x86_64-linux", self.top / "dist"
        shutil.rmtree(dist, ignore_errors=True)
        dist.mkdir()
        make(self.folder / name / "multiscalar", program)
        make(self.folder / name / "page", "page\n", 0o644)
        text = f"multiscalar 1.0\nmade from {self.digest('made-from', 'kit')}\nfiles {self.digest('files', self.folder / name)}\n"
        text += f"proved and built with kit\nprogram sha256 {sum_of(program.encode())}\n"
        for it in (dist, self.folder / name):
            (it / "MANIFEST").write_text(text)
        subprocess.run(["tar", "-czf", dist / f"{name}.tar.gz", "-C", self.folder, name], check=True)
        (dist / "multiscalar_1.0_amd64.deb").write_text("package\n")
        self.sum_up()

    def sum_up(self):
        dist = self.top / "dist"
        names = sorted(it.name for it in dist.iterdir() if it.name != "SHA256SUMS")
        (dist / "SHA256SUMS").write_text("".join(f"{sum_of((dist / it).read_bytes())}  {it}\n" for it in names))

    def settled(self, **how):
        """Waits, so that the sources are old enough for the launcher to look at times alone, and has it look."""
        time.sleep(3.1)
        expect(self.call("seq", **{"env": self.bare(), **how}) == (0, "shipped\n", ""))
        expect(self.call("seq", **{"env": self.bare("sha256sum"), **how}) == (0, "shipped\n", ""), "it looks at times alone")

    def bare(self, *missing, **more):
        """The settings of a system that has neither rt nor these."""
        return self.settings(PATH=str(without(self.folder, "rt", *missing)), **{"XDG_CACHE_HOME": str(self.folder / "cache"), **more})


def ended(started, said=b""):
    """The status and what was written to standard output and standard error; nothing where that went elsewhere."""
    out, more = started.communicate(timeout=120)
    return started.returncode, *((it or b"").decode("utf-8", "surrogateescape") for it in (out, said + (more or b"")))


def until(holds):
    end = time.monotonic() + 60
    while not holds():
        expect(time.monotonic() < end, "it takes too long")
        time.sleep(0.02)


def three_at_once(place, meanwhile=lambda: None):
    """Three calls of which two begin, and say a line, while the first one builds; then something else happens."""
    (place.folder / "hold").touch()
    calls = [place.begin("seq")]
    until(place.builds)
    calls += [place.begin("seq") for _ in range(2)]
    lines = [b""]
    for it in calls[1:]:
        until(lambda: select.select([it.stderr], [], [], 0)[0])
        lines.append(it.stderr.readline())
    meanwhile()
    (place.folder / "hold").unlink()
    return [ended(*it) for it in zip(calls, lines)]


# Trials: 1. nothing is proved


def try_version(folder):
    place = Place(folder)
    for word in ("--version", "-V"):
        status, out, said = place.call("--unproved", word)
        expect(out == f"{VERSION.split(' (')[0]} (nothing is proved: compiled by --unproved)\n", out)
        expect(status == 1 and "nothing is proved in this run" in said and "multiscalar: a word of the program\n" in said and "run=" not in said, status, said)
    expect(place.call("--version")[:2] == (0, f"{VERSION}\n") and "(proved with " in VERSION)


# 2. words


def try_words(folder):
    place = Place(folder)
    inside = folder / "in side"
    inside.mkdir()
    for it in ("4", "run", "explain", "check", "last", "0,1", "json", "a.s", "b", "--least", "help", "-", "-x", "a b", "l\n"):
        (inside / it).touch()
    here = f"{inside}/"
    for words, wanted in {
        ("run", "--least", "--units", "4", "--predict", "last", "--predict=0,1", "--predict", "0,1", "--emit", "json", "a.s"):
            ["run", "--least", "--units", "4", "--predict", "last", "--predict=0,1", "--predict", "0,1", "--emit", "json", f"{here}a.s"],
        ("check", "check", "run", "--workers", "4", "a b", "l\n", ""): ["check", f"{here}check", f"{here}run", "--workers", "4", f"{here}a b", f"{here}l\n", ""],
        ("explain", "--format=json", "--certificate=b", "--script", "4", "--certificate", "b", "no", "-", "/a.s"):
            ["explain", "--format=json", f"--certificate={here}b", "--script", f"{here}4", "--certificate", f"{here}b", f"{here}no", "-", "/a.s"],
        ("seq", "-onew", "-o", "4", "--output=run", "--output", "b", "-o=b", "--", "-x"):
            ["seq", f"-o{here}new", "-o", f"{here}4", f"--output={here}run", "--output", f"{here}b", f"-o={here}b", "--", f"{here}-x"],
        ("help", "run"): ["help", "run"],
    }.items():
        _, out, _ = place.call("--unproved", *words, cwd=inside)
        expect(out == "".join(f"<{it}>\n" for it in wanted), words, out)


def try_words_of_help(_):
    """The options that the launcher knows are those of the help."""
    found = set(re.findall(r"^>   (?:(-\w), |    )(--[a-z-]+) <(\w+)>", HELP, re.M))
    files = {it for letter, long, what in found for it in (letter, long) if it and what == "FILE"}
    other = {it for letter, long, what in found for it in (letter, long) if it and what != "FILE"}
    launcher = (TOP / "multiscalar").read_text()
    listed = {it: set(re.search(rf"^{it}\(\) {{ case \$1 in (.*?)\) ;;", launcher, re.M)[1].split(" | ")) for it in ("takes_file", "takes_word")}
    expect(listed["takes_file"] == files and listed["takes_word"] == other, listed, files, other)


# 3. builds


def try_three_at_once(folder):
    place = Place(folder)
    answers = three_at_once(place)
    expect(place.builds() == 1, place.builds(), "builds", answers)
    expect(all(it[:2] == (0, "first\n") for it in answers), answers)
    said = [it[2] for it in answers]
    expect(sum("built: " in it for it in said) == 1, said)
    expect(sum("another call is building multiscalar; waiting for it" in it and "that call has built it" in it for it in said) == 2, said)


def try_three_that_fail(folder):
    place = Place(folder)
    (folder / "fails").touch()
    answers = three_at_once(place)
    expect(place.builds() == 1 and all(it[:2] == (2, "") for it in answers), place.builds(), answers)
    expect(all("built: " not in it[2] for it in answers) and sum("multiscalar is not proved" in it[2] for it in answers) == 1, answers)
    log = next(it for it in (re.search(r"Its log: (.*)\n", it[2]) for it in answers) if it)
    expect("NOT PROVED" in pathlib.Path(log[1]).read_text(), log)
    os.unlink(log[1])
    (folder / "fails").unlink()
    expect(place.call("seq")[:2] == (0, "first\n"))


def try_no_place_for_the_program(folder):
    place = Place(folder)
    (place.out / "multiscalar").mkdir(parents=True)
    for status, out, said in three_at_once(place):
        expect((status, out) == (2, "") and "built: " not in said and "failed" in said, status, said)
    expect(place.builds() == 1, place.builds())
    expect(not list(place.out.glob("*.new")), list(place.out.iterdir()))


def edit_while_it_is_built(folder, edit):
    place = Place(folder)
    (folder / "hold").touch()
    started = place.begin("seq")
    until(place.builds)
    edit(place.main)
    (folder / "hold").unlink()
    status, out, said = ended(started)
    expect((status, out) == (0, "first\n") and "its sources changed meanwhile" in said, status, out, said)
    expect(place.call("seq")[:2] == (0, "second\n") and place.builds() == 2, place.builds())
    expect(place.call("seq")[:2] == (0, "second\n") and place.builds() == 2, place.builds())


def try_edit_while_it_is_built(folder):
    edit_while_it_is_built(folder, lambda file: file.write_text("second\n"))


def try_edit_while_others_wait(folder):
    place = Place(folder)
    answers = three_at_once(place, lambda: place.main.write_text("second\n"))
    # The first one runs what it finds once it has built, which may be the second one's already.
    expect([it[:2] for it in answers[1:]] == [(0, "second\n")] * 2 and answers[0][0] == 0 and place.builds() == 2, place.builds(), answers)


def try_edit_with_an_old_time(folder):
    """As of a copy that keeps the time of its original."""
    def edit(file):
        file.write_text("second\n")
        os.utime(file, (1e9, 1e9))

    edit_while_it_is_built(folder, edit)


def try_what_is_fresh(folder):
    place = Place(folder)
    expect(place.call("seq")[:2] == (0, "first\n"))
    os.utime(place.main)
    expect(place.call("seq") == (0, "first\n", "") and place.builds() == 1, "touched", place.builds())
    (place.top / "crates/other/src/lib.rt").write_text("second\n")
    expect(place.call("seq") == (0, "first\n", "") and place.builds() == 1, "another crate", place.builds())
    (place.top / "crates/multiscalar/specs/Lib.antt").unlink()
    expect(place.call("seq")[0] == 0 and place.builds() == 2, "removed", place.builds())
    # Without rt and with changed sources what was built runs, and that is said.
    (place.bin / "rt").unlink()
    place.main.write_text("second\n")
    status, out, said = place.call("seq", env=place.settings(PATH=f"{place.bin}:{without(folder, 'rt')}"))
    expect((status, out) == (0, "first\n") and "running what was built before" in said, status, out, said)


# 4. what is missing


def without(folder, *missing):
    """A folder with the commands that the launcher calls, but for some."""
    tools = folder / f"tools-{'-'.join(missing)}"
    tools.mkdir(exist_ok=True)
    for it in ("bash", "cat", "chmod", "cut", "dirname", "env", "find", "grep", "gzip", "mkdir", "mktemp", "mv", "python3", "readlink", "rm", "rt", "sed", "sha256sum",
               "sleep", "sort", "stat", "tar", "touch", "uname", "xargs"):
        found = sys.executable if it == "python3" else shutil.which(it)
        if it not in missing and found and it != "rt":
            (tools / it).unlink(missing_ok=True)
            (tools / it).symlink_to(found)
    return tools


def try_without_python(folder):
    place = Place(folder)
    tools = without(folder, "python3")
    (place.bin / "python3").unlink()
    for words in (["seq"], ["--unproved", "seq"]):
        status, out, said = place.call(*words, env=place.settings(PATH=f"{place.bin}:{tools}"))
        expect((status, out) == (2, "") and "missing: python3" in said and "log" not in said, status, said)
    make(tools / "python3", "#!/bin/bash\nexit 1\n")
    status, _, said = place.call("seq", env=place.settings(PATH=f"{place.bin}:{tools}"))
    expect(status == 2 and "missing: python3" in said and place.builds() == 0, status, said)
    status, _, said = place.call("seq", env=place.settings(PATH=str(without(folder, "rt"))))
    expect(status == 2 and "missing: rt" in said, status, said)


def try_without_a_log(folder):
    """A build that says nothing has no log."""
    place = Place(folder)
    make(place.bin / "rt", "#!/bin/bash\nexit 1\n")
    status, _, said = place.call("seq", env=place.settings(TMPDIR=str(folder)))
    expect(status == 2 and "the build failed" in said and "Its log" not in said and not list(folder.glob("multiscalar-*")), status, said)


def try_install(folder):
    release = folder / "release"
    copied(release, "release/install.sh")
    shutil.move(release / "release/install.sh", release / "install.sh")
    for it in ("multiscalar man/multiscalar.1 man/c2ms.1 completions/multiscalar.bash completions/_multiscalar completions/multiscalar.fish include/multiscalar.h "
               "lib/libmultiscalar.a lib/libmultiscalar.so.0 lib/multiscalar.pc syntax/a compiler/c2ms.py python/a README.md CHANGELOG.md LICENSE-APACHE "
               "LICENSE-MIT MANIFEST docs/a examples/a").split():
        make(release / it, it)
    (folder / "elsewhere/release").mkdir(parents=True)
    (folder / "elsewhere/to").mkdir()
    for shell in ("sh", "bash"):
        done = subprocess.run([shell, "release/install.sh", "to"], cwd=folder, env={**os.environ, "CDPATH": f"{folder}/elsewhere:{folder}"}, capture_output=True, text=True)
        expect(done.returncode == 0 and (folder / "to/bin/multiscalar").is_file() and not done.stderr, shell, done)
        expect(done.stdout.count("\n") == 1 and not list((folder / "elsewhere/to").iterdir()), shell, done.stdout)
        command = folder / "to/bin/c2ms"
        expect(os.readlink(command) == "../share/multiscalar/compiler/c2ms.py" and command.read_text() == "compiler/c2ms.py", "c2ms on PATH")
        expect((folder / "to/share/man/man1/c2ms.1").is_file(), "the page of c2ms")
        shutil.rmtree(folder / "to")


def try_verify(folder):
    """A release in dist/ and elsewhere; files, tarball and package that differ."""
    place = Place(folder, "in sources")
    place.ship()
    copied(place.top, "release/verify.sh")
    made = folder / "made"
    make(place.top / "release/build.sh", f"#!/bin/bash\nmkdir -p \"$1\" && cp '{made}'/* \"$1\"\n")
    make(place.top / "crates/multiscalar_c/out/libmultiscalar_c.a", "")
    make(place.bin / "dpkg-deb", "#!/bin/bash\nexec cat \"$2\"\n")
    shutil.copytree(place.top / "dist", made)
    git = ["git", "-c", "user.name=a", "-c", "user.email=a@localhost", "-c", "commit.gpgsign=false", "-C", place.top]
    for words in (["init", "-q"], ["add", "-f", "."], ["commit", "-qm", "a"]):
        subprocess.run([*git, *words], check=True, capture_output=True)
    place.main.write_text("second\n")
    subprocess.run([*git, "commit", "-qam", "b"], check=True)
    (folder / "elsewhere/release").mkdir(parents=True)

    def verify(*words):
        words = ["bash", "release/verify.sh", *(words or ["dist"]), "true"]
        return subprocess.run(words, env=place.settings(CDPATH=f"{folder}/elsewhere"), capture_output=True, text=True, cwd=place.top)

    shutil.copytree(made, folder / "release")
    for it in ([], [folder / "release"]):
        done = verify(*it)
        expect(done.returncode == 0 and "the tarball and the package are what" in done.stdout, done)
    (made / "multiscalar_1.0_amd64.deb").write_text("another\n")
    done = verify()
    expect(done.returncode == 1 and "the package differs" in done.stderr, done)
    shutil.rmtree(made)
    place.main.write_text("first\n")
    place.ship("#!/bin/bash\necho another\n")
    shutil.move(place.top / "dist", made)
    subprocess.run([*git, "checkout", "-q", "."], check=True)
    done = verify()
    expect(done.returncode == 1 and "ours/multiscalar differ" in done.stderr and "the files differ" in done.stderr, done)
    (folder / "release/multiscalar_1.0_amd64.deb").write_text("another\n")
    done = verify(folder / "release")
    expect(done.returncode == 1 and "SHA256SUMS does not fit" in done.stderr, done)


# 5. the shipped program

ONCE = "proved elsewhere"


def try_shipped(folder):
    """It answers, says once where it is from, and only while the sources are those that it was built from."""
    place = Place(folder, "in sources")
    place.ship()
    where = {"env": place.bare()}
    status, out, said = place.call("seq", **where)
    expect((status, out) == (0, "shipped\n") and ONCE in said and "./multiscalar --prove" in said and "40 to 90 minutes" in said, status, out, said)
    expect(place.call("seq", **where) == (0, "shipped\n", ""))
    expect(stat.S_IMODE((place.out / "shipped").stat().st_mode) == 0o755 and not (folder / "cache").exists())
    os.utime(place.main)
    expect(place.call("seq", **where) == (0, "shipped\n", ""), "touched")
    place.settled()
    expect(place.call("seq", env=place.bare("find"))[0] == 2, "it cannot look at times")
    others = {"text": lambda: place.main.write_text("second\n"), "new": lambda: make(place.top / "crates/low/proofs/New.antt", ""),
              "crate": lambda: make(place.top / "crates/new/src/lib.rt", ""), "no crate": lambda: shutil.rmtree(place.top / "crates/other"),
              "gone": (place.top / "crates/multiscalar/specs/Lib.antt").unlink}
    for name, change in others.items():
        shutil.copytree(place.top, folder / "kept", symlinks=True)
        if name == "no crate":
            place.settled()
        change()
        status, out, said = place.call("seq", **where)
        expect((status, out) == (2, "") and "it was built from other sources" in said and "missing: rt" in said, name, status, out, said)
        shutil.rmtree(place.top)
        (folder / "kept").rename(place.top)
        expect(place.call("seq", **where) == (0, "shipped\n", ""), name)
    place.main.write_text("second\n")
    expect(place.call("seq")[:2] == (0, "second\n") and place.builds() == 1, "with rt")
    place.main.write_text("first\n")
    expect(place.call("seq") == (0, "shipped\n", "") and place.builds() == 1, "these sources again")


def try_three_unpack(folder):
    place = Place(folder)
    place.ship()
    settings = place.bare()  # once: it links the commands anew, which no call may see
    answers = [ended(it) for it in [place.begin("seq", env=settings) for _ in range(3)]]
    expect(all(it[:2] == (0, "shipped\n") for it in answers), answers)
    expect(sorted(it.name.split("-")[0] for it in (place.out / "shipped").iterdir()) == ["multiscalar", "seen"], list((place.out / "shipped").iterdir()))


def try_damaged_release(folder):
    place = Place(folder)
    place.ship("#!/bin/bash\necho another\n")
    other = (place.top / "dist/multiscalar-1.0-x86_64-linux.tar.gz").read_bytes()

    def refused(what):
        status, out, said = place.call("seq", env=place.bare())
        expect((status, out) == (2, "") and "not what its checksums say" in said and "missing: rt" in said, what, status, out, said)
        expect(not (place.out / "shipped").exists() or not list((place.out / "shipped").iterdir()), what, "something is left")

    place.ship()
    tarball = place.top / "dist/multiscalar-1.0-x86_64-linux.tar.gz"
    right = tarball.read_bytes()
    tarball.write_bytes(right[:-1] + b"\1")
    refused("a byte")
    tarball.write_bytes(other)
    refused("another program")
    place.sum_up()
    refused("another program, and its checksum")
    for it in (b"", b"made from \x1b[31m\n"):
        (place.top / "dist/MANIFEST").write_bytes(it)
        status, out, said = place.call("seq", env=place.bare())
        expect((status, out) == (2, "") and is_harmless(said), it, said)
    place.ship()
    (place.top / "dist/SHA256SUMS").unlink()
    refused("no checksums")
    place.ship()
    expect(place.call("seq", env=place.bare())[:2] == (0, "shipped\n"))


def try_cache(folder):
    """Where nothing can be written in the checkout."""
    place = Place(folder, "in sources")
    place.ship()
    place.out.write_text("")
    home = folder / "home"
    # Another checkout, with the same release.
    shutil.copytree(place.top, folder / "other")
    (folder / "other/HANDLES").write_text("Handles allowed: Threads.\n")
    for number, more in enumerate(({}, {"XDG_CACHE_HOME": "", "HOME": str(home)}, {"XDG_CACHE_HOME": "cache", "HOME": str(home)})):
        where = {"env": place.bare(**more), "preexec_fn": lambda: os.umask(0o002)}
        status, out, said = place.call("seq", **where)
        expect((status, out) == (0, "shipped\n") and (ONCE in said) == (number < 2), more, status, out, said)
        expect(place.call("seq", **where) == (0, "shipped\n", ""), more)
    for it in (folder / "cache", home / ".cache"):
        expect(stat.S_IMODE(it.stat().st_mode) == 0o700 == stat.S_IMODE((it / "multiscalar").stat().st_mode), it)
    place.settled()
    place.top = folder / "other"
    status, _, said = place.call("seq", env=place.bare())
    expect(status == 2 and "other sources" in said, said)
    shutil.copy(folder / "in sources/HANDLES", place.top)
    for top in ("other", "in sources"):
        place.top = folder / top
        expect(place.call("seq", env=place.bare()) == (0, "shipped\n", ""), top)
    status, out, said = place.call("seq", env=place.bare(XDG_CACHE_HOME="", HOME=""))
    expect((status, out) == (2, "") and "there is no folder for it" in said, said)


def try_unsafe_folders(folder):
    """A folder that others may write to, that belongs to another, or that is a link, is not used, and nothing in it is run."""
    place = Place(folder)
    place.ship()
    out, cache = place.out / "shipped", folder / "cache/multiscalar"
    expect(place.call("seq", env=place.bare())[:2] == (0, "shipped\n"))
    out.chmod(0o775)
    status, said_out, said = place.call("seq", env=place.bare())
    expect((status, said_out) == (0, "shipped\n") and ONCE in said and cache.is_dir(), "the cache instead", status, said_out, said)
    place.settled()
    out.chmod(0o755)
    place.settled()
    room, moved = next(cache.iterdir()), folder / "moved"
    for it in (out, room):
        make(it / "multiscalar", "#!/bin/bash\necho worse\n")

    def linked(it):
        it.rename(moved)
        it.symlink_to(moved)

    def as_before(it):
        it.unlink()
        moved.rename(it)

    ways = [(lambda it: it.chmod(0o775), lambda it: it.chmod(0o755)), (lambda it: it.chmod(0o1777), lambda it: it.chmod(0o755)), (linked, as_before)]
    if os.geteuid() == 0:
        ways.append((lambda it: os.chown(it, 65534, 65534), lambda it: os.chown(it, 0, 0)))
    # Of the checkout, without a cache; and of the cache, without the checkout's.
    for files, settings in (((out, out / "multiscalar"), {"XDG_CACHE_HOME": "", "HOME": ""}), ((cache, room, room / "multiscalar"), {})):
        for number, (spoil, undo) in enumerate(ways):
            for it in files:
                spoil(it)
                status, said_out, said = place.call("seq", env=place.bare(**settings))
                expect((status, said_out) == (2, "") and "there is no folder for it" in said, number, it, status, said_out, said)
                undo(it)
        out.chmod(0o775)


def try_other_systems(folder):
    """Another machine, an old C library, tools that are missing: as without a release, and a line says why."""
    place = Place(folder)
    place.ship()
    for it in ("find", "tar", "gzip", "sha256sum", "xargs", "sort"):
        status, out, said = place.call("seq", env=place.bare(it))
        expect((status, out) == (2, "") and f"cannot be unpacked without {it}\n" in said and "missing: rt" in said, it, status, out, said)
    tools = without(folder, "rt", "uname")
    make(tools / "uname", "#!/bin/bash\necho Linux aarch64\n")
    place.ship()
    why = "it needs x86-64 Linux with glibc 2.34 or later"
    status, out, said = place.call("seq", env=place.bare("uname"))
    expect((status, out) == (2, "") and why in said and not place.out.exists(), status, out, said)
    expect(place.call("seq", env=place.settings(PATH=f"{place.bin}:{tools}"))[:2] == (0, "first\n") and place.builds() == 1)
    shutil.rmtree(place.out)
    place.ship("#!/bin/bash\necho \"version GLIBC_2.34 not found\" >&2\nexit 1\n")
    status, out, said = place.call("seq", env=place.bare())
    expect((status, out) == (2, "") and why in said and "GLIBC_2" not in said and not list((place.out / "shipped").iterdir()), status, out, said)


def try_prove(folder):
    """What is proved here comes first, while the sources are as they were."""
    place = Place(folder)
    place.ship()
    expect(place.call("seq")[:2] == (0, "shipped\n") and place.builds() == 0, "with rt")
    status, out, said = place.call("--prove", "seq", env=place.bare())
    expect((status, out) == (2, "") and "missing: rt" in said, status, out, said)
    status, out, said = place.call("--prove", "seq")
    expect((status, out) == (0, "first\n") and "built: " in said and place.builds() == 1, status, out, said)
    for it in (place.settings(), place.bare()):
        expect(place.call("seq", env=it) == (0, "first\n", ""), "proved here")
        status, out, said = place.call("--prove", env=it)
        expect((status, out) == (0, "") and "proved and built here" in said and place.builds() == 1, status, out, said)
        os.utime(place.main)
    place.main.write_text("second\n")
    place.ship()
    expect(place.call("seq")[:2] == (0, "shipped\n") and place.builds() == 1, "other sources, that are shipped")
    expect(place.call("--unproved", "seq")[:2] == (1, "<seq>\n"))


def try_gate(folder):
    """What .ci/shipped.py says of a release."""
    place = Place(folder)
    copied(place.top, ".ci/shipped.py")
    make(place.top / "release/strip.sh", "#!/bin/bash\nexec cp \"$1\" \"$2\"\n")

    def judged():
        done = subprocess.run([sys.executable, place.top / ".ci/shipped.py"], env=place.settings(), capture_output=True, text=True)
        return done.returncode, done.stdout + done.stderr

    expect(judged() == (0, "shipped: there is no release in dist/\n"), judged())
    place.ship()
    make(place.out / "multiscalar", "#!/bin/bash\necho shipped\n")
    expect(judged() == (0, "shipped: the program in dist/ is the one that was built here, byte for byte\n"), judged())
    for file, data, what in ((place.out / "multiscalar", b"other", "is not the one that was built here"), (place.top / "dist/multiscalar_1.0_amd64.deb", b"", "has another digest"),
                             (place.top / "dist/more", b"", "has other files")):
        kept = file.read_bytes() if file.exists() else None
        file.write_bytes(data)
        expect(judged()[0] == 1 and what in judged()[1], what, judged())
        file.unlink() if kept is None else file.write_bytes(kept)
    place.main.write_text("second\n")
    expect(judged()[0] == 0 and "is older than the sources" in judged()[1], judged())


# c2ms.py


class Compiler:
    def __init__(self, folder):
        self.folder = folder
        make(folder / "gcc", GCC)
        make(folder / "program", PROGRAM)
        make(folder / "a.s", ASSEMBLY, 0o644)
        make(folder / "wrong.s", ASSEMBLY + "\tsyscall\n", 0o644)
        make(folder / "large.s", ASSEMBLY.replace("\tli", "\tli $2,5\n" * 4100 + "\tli"), 0o644)

    def call(self, *words, **how):
        words = [sys.executable, TOP / "compiler/c2ms.py", *PLAIN, "--gcc", self.folder / "gcc", "--multiscalar", self.folder / "program", *words]
        how = {"cwd": self.folder, "stdin": subprocess.DEVNULL, "stdout": subprocess.PIPE, "stderr": subprocess.PIPE, **how}
        return ended(subprocess.Popen(words, **how))


def try_missing_input(folder):
    compiler = Compiler(folder)
    (folder / "folder.c").mkdir()
    for name, why in {"none.c": "No such file", "folder.c": "Is a directory"}.items():
        status, out, said = compiler.call(name)
        expect((status, out) == (2, "") and said.startswith(f"c2ms: {name}: {why}") and said.count("\n") == 1, name, status, said)
    status, _, said = compiler.call("a.s", "--gcc", "./none")
    expect(status == 2 and said.startswith("c2ms: ./none: No such file"), status, said)


def try_closed_output(folder):
    compiler = Compiler(folder)
    status, out, _ = compiler.call("a.s", "-o", "-")
    expect(status == 0 and "main:" in out and not (folder / "-").exists(), status, out)
    reader, writer = os.pipe()
    os.close(reader)
    with open("/dev/full", "wb") as full:
        ways = {"stdout": writer}, {"stdout": full}, {"stdout": None, "preexec_fn": lambda: os.close(1)}
        for words, how in [*((["a.s"], it) for it in ways), (["a.s", "--run"], ways[1]), (["--help"], ways[0])]:
            status, _, said = compiler.call(*words, **how)
            expect(status == 2 and said.startswith("c2ms: standard output: ") and said.count("\n") == 1, words, how, status, said)
    os.close(writer)
    status, out, _ = compiler.call("none.s", stderr=None, preexec_fn=lambda: os.close(2))
    expect((status, out) == (2, ""), "closed standard error", status, out)


def try_refusals(folder):
    compiler = Compiler(folder)
    status, _, said = compiler.call("wrong.s")
    expect(status == 1 and said.startswith("wrong.s:6: refused: "), status, said)
    status, _, said = compiler.call("large.s")
    expect(status == 1 and said.startswith("large.s: refused: the program has "), status, said)
    shutil.copy(folder / "a.s", folder / "-x.c")
    status, _, said = compiler.call("--", "-x.c")
    expect(status == 1 and said == "./-x.c: wrong\n", status, said)


def try_places_of_refusals(folder):
    """What is refused is named at its own place, and nothing else is."""
    compiler = Compiler(folder)
    make(folder / "gcc", "#!/bin/bash\n[ \"$1\" != --version ] || echo 'gcc (kit) 12.2.0'\n")  # it makes nothing of the run-time files
    texts = {
        "nomain.s": ("\t.text\n\t.globl f\nf:\tjr $31\n", ["nomain.s: refused: main is called or named, and defined nowhere: a program begins there"]),
        "slot.s": ("\t.set noreorder\n\t.globl main\nmain:\tbeq $2,$3,main\n\tsync\n\tjr $31\n\tnop\n", ["slot.s:4: refused: sync orders memory between processors"]),
        "atomic.s": ("\t.globl main\nmain:\tll $2,0($3)\n\tjr $31\n", ["atomic.s:2: refused: ll is part of an atomic operation"]),
        "pic.s": ("\t.globl main\nmain:\t.cpload $25\n\tlw $25,%call16(f)($4)\n\tjr $31\n", ["pic.s:2: refused: position-independent code", "pic.s:3: refused: position-independent code"]),
    }
    for name, (text, wanted) in texts.items():
        make(folder / name, text, 0o644)
        status, _, said = compiler.call(name)
        lines = said.split("\n")[:-1]
        expect(status == 1 and len(lines) == len(wanted) and all(a.startswith(b) for a, b in zip(lines, wanted)), name, said)
    status, _, said = compiler.call("pic.s")
    expect("compile without -fPIC, with -fno-pic -mno-abicalls" in said, said)


def try_results(folder):
    """The status of --run is what main returns, modulo 256, where the program halts, and else that of the run."""
    compiler = Compiler(folder)
    for status_of_run, word, wanted, line in ((0, 0, 0, "exit 0"), (0, 3, 3, "exit 3"), (0, 4294967291, 251, "exit -5"), (0, 263, 7, "exit 263"),
                                              (3, 3, 3, "the status 3 is that of multiscalar run"), (1, 9, 1, "the status 1 is that of multiscalar run")):
        seq = f'seq) grep -q "^ *out  *.2$" "${{@: -1}}" && echo {word}; echo "halted after 9 instructions" ;; run) echo 5; exit {status_of_run} ;;'
        make(folder / "program", PROGRAM.replace("run) echo 5 ;;", seq))
        status, out, said = compiler.call("a.s", "--run")
        expect((status, out, said) == (wanted, "5\n", f"c2ms: {line}\n"), word, status, out, said)


def try_options_of_the_compiler(folder):
    """Words that are for the compiler alone reach it, and no others do."""
    compiler = Compiler(folder)
    make(folder / "gcc", GCC.replace("printf", "printf '%s\\n' \"$@\" > words; printf"))
    shutil.copy(folder / "a.s", folder / "a.c")
    own = ["-g3", "-Wall", "-Wno-unused", "-std=c99", "-march=mips32", "-UNDEBUG", "-pedantic", "-w"]
    compiler.call("a.c", *own, "-O3", "-funroll-loops", "-DA=1", "-o", "to.s", "--units", "8")
    words = (folder / "words").read_text().split("\n")
    at = [words.index(it) for it in [*own, "-O3", "-funroll-loops", "-DA=1", "./a.c" if "./a.c" in words else "a.c"]]
    expect(at[:8] == sorted(at[:8]) and words.index("-march=mips1") < words.index("-march=mips32"), words)
    expect(not {"--units", "8", "to.s"} & set(words), words)


def try_places_in_the_text(folder):
    """Each instruction of a line of C says so at the end of its line."""
    compiler = Compiler(folder)
    make(folder / "a.s", '\t.file 1 "one.c"\n\t.globl main\nmain:\n\t.loc 1 12 5\n\tli $2,70000\n\t.loc 1 0 0\n\tjr $31\n', 0o644)
    _, out, _ = compiler.call("a.s")
    wanted = ["lui   $2,1", "ori   $2,$2,4464", "jr    $31  !s"]
    lines = [it for it in out.split("\n") if it.startswith("        ")][-3:]
    expect([it.split("#")[0].strip() for it in lines] == wanted and all(it.endswith("# at one.c:12") for it in lines), out)


# 6. c2ms.py -o


def try_whole_files(folder):
    compiler = Compiler(folder)
    to = folder / "to.s"
    for before, after in {None: 0o640, 0o404: 0o404, 0o4755: 0o755}.items():
        to.unlink(missing_ok=True)
        if before is not None:
            make(to, "old", before)
        kept = folder / "kept"
        kept.unlink(missing_ok=True)
        if before is not None:
            os.link(to, kept)
        status, out, said = compiler.call("a.s", "-o", "to.s", preexec_fn=lambda: os.umask(0o027))
        expect((status, out, said) == (0, "", "") and "main:" in to.read_text(), status, out, said)
        expect(stat.S_IMODE(to.stat().st_mode) == after, before, oct(to.stat().st_mode))
        expect(before is None or kept.read_text() == "old", "the old file was written into")
    expect(not list(folder.glob("*.new")))


def try_no_plain_file(folder):
    compiler = Compiler(folder)
    make(folder / "target", "old", 0o644)
    (folder / "link").symlink_to("target")
    (folder / "loose").symlink_to("no\x1bthing")
    os.mkfifo(folder / "pipe")
    for name, why in {"link": "a symbolic link, and is not followed; name its target, target\n", "loose": "target, no\\x1bthing\n",
                      "pipe": "no plain file", "/dev/null": "no plain file"}.items():
        status, out, said = compiler.call("a.s", "-o", name)
        expect((status, out) == (2, "") and said.startswith(f"c2ms: {name}: it is ") and why in said, name, status, said)
    status, _, said = compiler.call("wrong.s", "-o", "link")
    expect(status == 2 and "symbolic link" in said, "before anything is read", status, said)
    expect((folder / "target").read_text() == "old" and (folder / "link").is_symlink() and not list(folder.glob("*.new")))


PUT = """
import os, sys
sys.path.insert(0, sys.argv[1])
import whole_file
bits, noted = [], []
for name in ("fsync", "fchmod", "rename"):
    def noting(*words, name=name, real=getattr(os, name)):
        noted.append(name)
        bits.extend(oct(os.stat(it).st_mode & 0o7777) for it in os.listdir() if it.endswith(".new"))
        return real(*words)
    setattr(os, name, noting)
exec(sys.argv[2])
try:
    whole_file.put("to.s", b"new" * 1000)
    print(*noted, *bits)
except whole_file.NotPut as why:
    print("not put:", why)
"""


def put(folder, before="", **how):
    words = [sys.executable, "-c", PUT, TOP / "compiler", before]
    return subprocess.run(words, cwd=folder, capture_output=True, text=True, **how).stdout


def try_steps_of_a_whole_file(folder):
    to = folder / "to.s"
    make(to, "old", 0o604)
    expect(put(folder) == "fsync fchmod rename 0o600 0o600 0o604\n", put(folder))
    to.write_text("old")
    # On a full disk the old file stays, and nothing else does.
    said = put(folder, preexec_fn=lambda: resource.setrlimit(resource.RLIMIT_FSIZE, (1000, 1000)))
    expect(said.startswith("not put: to.s: File too large") and to.read_text() == "old" and os.listdir(folder) == ["to.s"], said, os.listdir(folder))
    said = put(folder, "os.geteuid = lambda: 4242")
    expect(said.startswith("not put: to.s: it belongs to another user") and to.read_text() == "old" and os.listdir(folder) == ["to.s"], said)
    # Names that are taken are left alone, also those of links.
    taken = "for it in ('', '.1'): os.symlink('to.s', f'to.s.{os.getpid()}{it}.new')"
    said = put(folder, taken)
    expect(said.startswith("fsync fchmod rename") and len(os.listdir(folder)) == 3 and to.read_text().startswith("new"), said)
    to.write_text("old")
    said = put(folder, "for it in ['', *(f'.{n}' for n in range(1, 16))]: open(f'to.s.{os.getpid()}{it}.new', 'w')")
    expect(said.startswith("not put: to.s: 16 names") and to.read_text() == "old", said)
    said = put(folder, "def fails(*_): raise KeyboardInterrupt\nos.fsync = fails")
    expect(to.read_text() == "old" and len(os.listdir(folder)) == 3 + 16, os.listdir(folder))


# 7. names


def try_names(_):
    for name, wanted in NAMES.items():
        expect(names.shown(os.fsdecode(name)) == wanted == names.shown(wanted), name, names.shown(os.fsdecode(name)))


def is_harmless(said):
    """Whether each line of a text is its own showing."""
    return all(names.shown(it) == it for it in said.split("\n"))


def try_names_of_the_launcher(folder):
    for number, name in enumerate(CALLED):
        room, wanted = folder / str(number), NAMES[name]
        room.mkdir()
        place = Place(room, os.fsdecode(name))
        if b"\n" in name:  # first a build that fails
            (room / "fails").touch()
            (room / os.fsdecode(name + b"x")).mkdir()
            status, _, said = place.call("seq", env=place.settings(TMPDIR=os.fsdecode(bytes(room) + b"/" + name + b"x")))
            expect(status == 2 and f"Its log: {room}/{wanted}x/" in said and is_harmless(said), status, said)
            (room / "fails").unlink()
        status, _, said = place.call("seq")
        expect(status == 0 and f"built: {room}/{wanted}/" in said and is_harmless(said), status, said)


def try_names_of_c2ms(folder):
    compiler = Compiler(folder)
    for name in CALLED:
        wanted = NAMES[name]
        wrong = os.fsdecode(name + b".s")
        shutil.copy(folder / "wrong.s", folder / wrong)
        status, _, said = compiler.call(wrong)
        expect(status == 1 and said.startswith(f"{wanted}.s:6: refused: ") and is_harmless(said), name, said)
    worst = "\x1b\r\n\udcff\u202e\x9b"
    seen = names.shown(worst)
    for suffix in (".s", ".c"):
        shutil.copy(folder / "a.s", folder / f"{worst}{suffix}")
    for words, said_first in {
        (f"wrong{worst}",): f"c2ms: wrong{seen}: No such file",
        (f"{worst}.s", "-o", f"{worst}/x"): f"c2ms: {seen}/x: No such file",
        (f"{worst}.s", f"--nothing{worst}"): "usage: ",
        (f"{worst}.s", "--gcc", worst): f"c2ms: {seen}: No such file",
        (f"{worst}.s", "--multiscalar", worst): f"c2ms: {seen}: No such file",
    }.items():
        status, _, said = compiler.call(*words)
        expect(status == 2 and said.startswith(said_first) and is_harmless(said), words, ascii(said))
    status, out, _ = compiler.call(f"{worst}.s")
    expect(status == 0 and is_harmless(out) and out.count("Made by") == 1 and out.index("Made by") == 2, "the text", ascii(out))
    status, _, said = compiler.call(f"{worst}.c")
    expect(status == 1 and is_harmless(said) and "wrong\n" in said, "what GCC says", status, ascii(said))


def tried(name, trial):
    began = time.monotonic()
    with tempfile.TemporaryDirectory(prefix="launcher-") as folder:
        try:
            trial(pathlib.Path(folder))
            why = ""
        except AssertionError as failed:
            why = f"FAILED: {failed}"
        except Exception as failed:
            why = f"FAILED: {type(failed).__name__}: {failed}"
    return name, ascii(why)[1:-1] if why else "", time.monotonic() - began


def main(*words):
    wanted = [it for it in words if it != "--times"]
    trials = {name[4:]: it for name, it in globals().items() if name.startswith("try_") and (not wanted or any(word in name for word in wanted))}
    began, failed = time.monotonic(), 0
    kept = tempfile.TemporaryDirectory(prefix="launcher-")
    # Each script is compiled once, outside the sources; and streams are as they are for most.
    os.environ.update(PYTHONPYCACHEPREFIX=kept.name, PYTHONDONTWRITEBYTECODE="", PYTHONUNBUFFERED="")
    with kept, concurrent.futures.ThreadPoolExecutor(8) as pool:
        for name, why, seconds in pool.map(lambda it: tried(*it), trials.items()):
            failed += bool(why)
            if why or "--times" in sys.argv:
                print(f"{name}: {seconds:.1f} s {why}", flush=True)
    print(f"launcher: {len(trials) - failed} passed, {failed} failed, {time.monotonic() - began:.0f} s")
    return 1 if failed or not trials else 0


if __name__ == "__main__":
    sys.exit(main(*sys.argv[1:]))
