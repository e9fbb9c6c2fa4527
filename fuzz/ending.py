"""Waits for runs to end, as a module of the scripts beside it. A run is given up by what it does, not by the clock.

Where other work has the cores, a run that is right can take minutes for a second of the processor. So a run is given
up only if one of its threads has used PROCESSOR seconds, or if for IDLE seconds none of its threads was running
or ready to run: then it turns in a circle, or waits for what does not come. A run that is ready and waits for a core is
waited for, up to WALL seconds. Its threads are those of the process and of all processes below it. Needs Linux.
"""
import os
import signal
import subprocess
import time

PROCESSOR, IDLE, WALL = 120.0, 120.0, 3600.0
# The seconds between two looks at the threads.
EVERY = 0.5
TICKS = os.sysconf("SC_CLK_TCK")


def below(process):
    """A process, and those below it."""
    yield process
    try:
        for thread in os.listdir(f"/proc/{process}/task"):
            with open(f"/proc/{process}/task/{thread}/children") as file:
                children = [int(child) for child in file.read().split()]
            for child in children:
                yield from below(child)
    except OSError:
        return


def threads(process):
    """Of each thread of a process, and of those below it, its number, its state and its seconds of the processor."""
    for one in below(process):
        try:
            for thread in os.listdir(f"/proc/{one}/task"):
                with open(f"/proc/{one}/task/{thread}/stat") as file:
                    fields = file.read().rpartition(")")[2].split()
                yield thread, fields[0], (int(fields[11]) + int(fields[12])) / TICKS
        except OSError:
            continue


class Watch:
    """Looks at the threads of a process from now on: how long it was idle, and how much of the processor one of them used."""

    def __init__(self, process, every=EVERY):
        self.process, self.every, self.begin = process, every, time.monotonic()
        self.looked, self.idle, self.used = self.begin, 0.0, 0.0
        self.before = {thread: seconds for thread, _, seconds in threads(process)}

    def look(self):
        """Whether the process is to be given up."""
        now, seen = time.monotonic(), list(threads(self.process))
        if not any(state in "RD" for _, state, _ in seen):
            # where the machine is busy, a look comes late, too
            self.idle += min(now - self.looked, 2 * self.every)
        self.looked = now
        self.used = max([self.used, *(seconds - self.before.get(thread, 0.0) for thread, _, seconds in seen)])
        return self.used > PROCESSOR or self.idle > IDLE or now - self.begin > WALL


def end(process):
    """Ends a process and those below it."""
    for one in list(below(process.pid)):
        try:
            os.kill(one, signal.SIGKILL)
        except ProcessLookupError:
            pass


def until(process, step, watch=None):
    """What `step` answers, which is given some seconds, again and again; TimeoutExpired where the process is given up, and so ended."""
    watch = watch or Watch(process.pid)
    while True:
        try:
            return step(timeout=watch.every)
        except subprocess.TimeoutExpired as over:
            if watch.look():
                end(process)
                process.wait()
                raise subprocess.TimeoutExpired(process.args, time.monotonic() - watch.begin) from over


def run(words, capture_output=False, input=None, **how):
    """As subprocess.run, with the limits of this module in place of one of the clock."""
    if capture_output:
        how.update(stdout=subprocess.PIPE, stderr=subprocess.PIPE)
    if input is not None:
        how["stdin"] = subprocess.PIPE
    with subprocess.Popen(words, **how) as process:
        given = [input]
        try:
            out, err = until(process, lambda timeout: process.communicate(given.pop() if given else None, timeout))
        except BaseException:
            end(process)
            raise
        return subprocess.CompletedProcess(process.args, process.returncode, out, err)
