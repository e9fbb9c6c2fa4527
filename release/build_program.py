#!/usr/bin/env python3
"""Proves and builds the program, or another crate, with the crates below it, and tries no edits.

    release/build_program.py [LOG [CRATE]]     the log of rt, and the crate: multiscalar, if none is named
    release/build_program.py --unless-built    the program, if it is not built from the sources as they are
    release/build_program.py --is-built [CRATE]    builds nothing; the status is 0 if it is built from them

It runs `rt ci` in a copy of these crates alone. So what it proves is kept on this machine, and `rt ci` at the top does
not prove it again, nor this script what that proved. It says each crate as it is done, and how long the rest may take.

One call builds a crate at a time; others wait for it. Beside what was built, out/built has the checksum of the copy that
was built: it is built from the sources as they are exactly if that is their checksum. If nothing changed after the
file's time, which lies before that of the copy, the launcher need not compute it.
"""

import contextlib
import ctypes
import fcntl
import hashlib
import os
import shutil
import signal
import subprocess
import sys
import tempfile
import time
from pathlib import Path

from progress import Progress, fault_of, follow, say, say_why, shown

TOP = Path(__file__).resolve().parent.parent


def stands_on(line):
    """The names in a line of crates.txt of what the crate stands on."""
    return set(line.partition(":")[2].split())


def needed(name):
    """The lines of a crate and of those below it, by their names."""
    lines = [it.partition("#")[0] for it in (TOP / "crates.txt").read_text().splitlines()]
    lines = {it.split(":")[0].split()[0]: it for it in lines if ":" in it}
    if name not in lines:
        sys.exit(f"multiscalar: crates.txt names no crate {name}")
    found = new = {name}
    while new:
        new = {below for it in new for below in stands_on(lines[it]) if below in lines} - found
        found = found | new
    return {it: line for it, line in lines.items() if it in found}


def copy_sources(crates, copy):
    """Copies crates, but not their edits and what was built of them."""
    leave_out = lambda folder, _: {"out", "must-fail"} if Path(folder).parent == TOP / "crates" else ()
    (copy / ".git").mkdir()  # rt takes it for the top of a repository
    shutil.copy(TOP / "HANDLES", copy)
    (copy / "crates.txt").write_text("".join(f"{it}\n" for it in crates.values()))
    for it in crates:
        shutil.copytree(TOP / "crates" / it, copy / "crates" / it, symlinks=True, ignore=leave_out)


def checksum(crates, top):
    """Of all that is read to build the program: these crates' code, definitions and proofs, with their names."""
    parts = (top / "crates" / name / part for name in sorted(crates) for part in ("src", "specs", "proofs"))
    files = (it for part in parts for it in sorted(part.rglob("*")) if it.suffix in (".rt", ".antt") and it.is_file())
    whole = hashlib.sha256("".join(f"{crates[it]}\n" for it in sorted(crates)).encode())
    for it in [top / "HANDLES", *files]:
        whole.update(f"\0{it.relative_to(top)}\0".encode("utf-8", "surrogateescape") + hashlib.sha256(it.read_bytes()).digest())
    return whole.hexdigest()


def note(name, what, text, time_of_copy):
    """Writes a file beside what was built, with a time before that of the copy, by more than a clock of files may be off."""
    file = TOP / "crates" / name / "out" / what
    new = file.with_name(f"{what}.{os.getpid()}.new")
    file.parent.mkdir(exist_ok=True)
    new.write_text(text)
    os.utime(new, (time_of_copy - 2, time_of_copy - 2))
    os.replace(new, file)


def noted(name, what):
    try:
        return (TOP / "crates" / name / "out" / what).read_text()
    except OSError:
        return ""


def is_built(name):
    """Whether the program, or the library, is built from the sources as they are; then the launcher is told so."""
    now, out = time.time(), TOP / "crates" / name / "out"
    kept, program, library = noted(name, "built"), out / name, out / f"lib{name}.a"
    is_there = library.is_file() or program.is_file() and os.access(program, os.X_OK)
    if not kept or not is_there or kept != checksum(needed(name), TOP):
        return False
    with contextlib.suppress(OSError):  # of sources that another user owns
        note(name, "built", kept, now)
    return True


def is_built_now(name):
    """The same, while no other call builds it; it does not wait for one."""
    held = os.open(TOP / "crates" / name / "src", os.O_RDONLY)
    try:
        with contextlib.suppress(OSError):  # some file systems have no locks
            try:
                fcntl.flock(held, fcntl.LOCK_EX | fcntl.LOCK_NB)
            except BlockingIOError:
                return False
        return is_built(name)
    finally:
        os.close(held)


@contextlib.contextmanager
def alone(name):
    """Waits until no other call builds the crate, and says so; the value is whether it had to. The lock is on a folder that
    no `rt` locks or moves, and ends with this process."""
    held = os.open(TOP / "crates" / name / "src", os.O_RDONLY)
    waited = False
    try:
        try:
            fcntl.flock(held, fcntl.LOCK_EX | fcntl.LOCK_NB)
        except BlockingIOError:
            waited = True
            say(f"another call is building {name}; waiting for it")
            fcntl.flock(held, fcntl.LOCK_EX)
        except OSError:
            pass  # some file systems have no locks
        yield waited
    finally:
        os.close(held)


def remove(folder):
    """Removes a folder in which a process that is being killed may write for a moment yet."""
    for _ in range(50):
        if folder.exists():
            shutil.rmtree(folder, ignore_errors=True)
            time.sleep(0.1)


def end_with_parent():
    ctypes.CDLL(None).prctl(1, signal.SIGKILL)  # PR_SET_PDEATHSIG: the kernel kills it when this script ends, however that ends


def call(words, copy, log, crates):
    """Runs a command in the copy, until rt says that a crate is not proved, and returns whether all went well."""
    settings = {name: value for name, value in os.environ.items() if name != "CI"}
    how = {"stdin": subprocess.DEVNULL, "stdout": subprocess.PIPE, "stderr": subprocess.STDOUT, "encoding": "utf-8", "errors": "replace"}
    ran = subprocess.Popen(words, cwd=copy, env=settings, preexec_fn=end_with_parent, **how)
    try:
        lines = (it.rstrip("\n").replace(str(copy), str(TOP)) for it in ran.stdout)
        failed, said = follow(lines, log, Progress({TOP / "crates" / it: stands_on(line) for it, line in crates.items()}))
        if not failed and not ran.wait():
            return True
    finally:
        ran.kill()
        ran.wait()
    say_why(failed or "the build failed", said)
    return False


def hand_over(name, copy):
    """Puts what was built under the sources themselves, and returns its path: a program or a static library."""
    built, out = copy / "crates" / name / "out", TOP / "crates" / name / "out"
    out.mkdir(exist_ok=True)
    (out / "built").unlink(missing_ok=True)
    made = next((it for it in (name, f"lib{name}.a") if (built / it).is_file()), None)
    if made is None:
        return None
    new = out / f"{made}.{os.getpid()}.new"
    try:
        shutil.copy(built / made, new)
        os.replace(new, out / made)
    finally:
        new.unlink(missing_ok=True)
    return out / made


def built_from(crates, name, copy, log):
    """Proves and builds the crate in the copy, and returns whether all went well."""
    say(f"proving {len(crates)} crates; the first time takes 40 to 90 minutes on four cores, one to three hours on two.")
    is_well = call(["rt", "ci"], copy, log, crates)
    if is_well and "staticlib" in crates[name].partition(":")[0].split():
        say(f"building lib{name}.a, for which {name} is proved once more")
        is_well = call([sys.executable, TOP / "release" / "build_static.py", name], copy, log, {})
    return is_well


def run(log, name):
    crates, copy, now = needed(name), Path(tempfile.mkdtemp(prefix="multiscalar-build-")).resolve(), time.time()
    try:
        copy_sources(crates, copy)
        which = checksum(crates, copy)
        made = hand_over(name, copy) if built_from(crates, name, copy, log) else None
        if not made:
            note(name, "failed", which, time.time())
            return 1
        note(name, "built", which, now)
        say(f"built: {shown(made)}")
        if which != checksum(needed(name), TOP):
            say("its sources changed meanwhile: this was built from those before, and the next call builds it again")
        return 0
    except OSError as fault:
        say(f"the build failed: {fault_of(fault)}")
        with contextlib.suppress(OSError):
            note(name, "failed", checksum(crates, TOP), time.time())
        return 1
    except KeyboardInterrupt:
        say("stopped; the crates that were proved are kept")
        return 130
    finally:
        remove(copy)


def has_just_failed(name, since):
    """Whether the build that was waited for failed, with the sources as they are."""
    try:
        # Its time lies two seconds back.
        is_new = (TOP / "crates" / name / "out" / "failed").stat().st_mtime + 2 >= since
    except OSError:
        return False
    return is_new and noted(name, "failed") == checksum(needed(name), TOP)


def run_unless_built(name):
    """Builds the program for the launcher, if no other call has done so; what rt said is kept where the build fails."""
    began = time.time()
    with alone(name) as waited:
        if is_built(name):
            if waited:
                say("that call has built it")
            return 0
        if waited and has_just_failed(name, began):
            say("that build failed, as it says; it is not tried again with the same sources")
            return 1
        say("not built yet, or its sources have changed. To see an answer in two minutes, with nothing proved: multiscalar --unproved ..")
        log = tempfile.NamedTemporaryFile("w", encoding="utf-8", errors="surrogateescape", prefix="multiscalar-", suffix=".log", delete=False)
        with log:
            status = run(log, name)
    if status == 1 and os.path.getsize(log.name):
        say(f"the build failed. Its log: {shown(log.name)}")
    else:
        os.unlink(log.name)
    return status


def main(log="/dev/null", name="multiscalar"):
    if log == "--is-built":
        return 0 if is_built_now(name) else 1
    if not shutil.which("rt"):
        say("rt, of the Rattle kit, is not on PATH")
        return 2
    for it in (signal.SIGTERM, signal.SIGHUP):
        if signal.getsignal(it) == signal.SIG_DFL:
            signal.signal(it, signal.default_int_handler)
    try:
        if log == "--unless-built":
            return run_unless_built(name)
        with open(log, "w", encoding="utf-8", errors="surrogateescape") as it, alone(name):
            return run(it, name)
    except OSError as fault:
        say(fault_of(fault))
        return 2
    except KeyboardInterrupt:
        return 130


if __name__ == "__main__":
    sys.exit(main(*sys.argv[1:]))
