#!/usr/bin/env python3
"""Compares the pictures of runs with the lives of their scripts.

    picture.py --svg FILE --script FILE [--units N] [--count event|step]
    picture.py --program PROGRAM [--seconds S] [--seed N] [FOLDER ..]

The first form reads a picture and the event script that it shows. The second
runs the built `multiscalar`: for each example that has a certificate it records
runs on 1, 2, 4 and 16 units, and draws the replay of each; runs in steps are drawn by
events and by steps. With --seconds it cuts their runs short, goes on with random programs
(accepted.py), and ends when the time is up. From the script alone, by a model of its own, this computes the
lives of the tasks, the instructions, the registers passed on and the squashes, by their
events or steps. The picture must be well-formed XML with no script and no reference
outside, and must have exactly these: for each life one bar with its task, unit, events
or steps, instructions and ending, at its place, and a line where a unit is the head. Names may
not be wider than their bars, or the room after them, nor bars of a unit overlap. A picture of steps must have strips exactly where a unit has
a task and does nothing, and no two that are neighbours and say the same. Of a run of
more than 2,000 events or steps it compares the height of each part of each column. What
differs is told, and the script ends with status 1. It is no part of the tests.
"""
import argparse
import collections
import itertools
import pathlib
import re
import subprocess
import sys
import tempfile
import time
import xml.etree.ElementTree as tree

TOP = pathlib.Path(__file__).resolve().parent.parent
SVG = "{http://www.w3.org/2000/svg}"
MOST_SINGLE = 2000
LEFT, WIDTH = 88.0, 1160.0
Life = collections.namedtuple("Life", "task unit first last executed ending")
MOST_MARKED = 300
TITLE = re.compile(r"task (\w+), unit (\d+), (?:event|step)s? (\d+)(?: to (\d+))?, instructions: (\d+), (\w+|trapped: .+|is unlisted: .+)")
HEAD = re.compile(r"(?:event|step)s? (\d+)(?: to (\d+))?: unit (\d+) is the head")
STRIP = re.compile(r"steps? (\d+)(?: to (\d+) \((\d+) steps\))?: (.+)")
STRETCHES = 290


def steps_of(text):
    """The step of each event, from 1: an event of the head ends a step."""
    active, step = 0, 1
    for line in text.splitlines():
        word, *rest = line.split()
        yield step
        at = active if word == "assign" else int(rest[0]) if rest else 0
        step += at == 0
        active = {"assign": active + 1, "squash": at + 1, "retire": active - 1, "drop": at}.get(word, active)


def history_of(text, units, numbers):
    """Lives, transfers (number, register, from, to), drains (number, register, unit) and squashes (number, unit), by the numbers of the events."""
    lives, passes, drains, squashes, queue = [], [], [], [], []
    for number, line in zip(numbers, text.splitlines()):
        word, *rest = line.split()
        if word == "assign":
            # the unit after that of the youngest task, or where the last head was
            unit = (queue[-1]["unit"] + 1) % units if queue else history_of.next
            life = dict(task=rest[0], unit=unit, first=number, last=0, executed=0, ending="unfinished")
            lives.append(life)
            queue.append(life)
        elif word == "exec":
            queue[int(rest[0])]["executed"] += 1
        elif word == "transfer":
            at = int(rest[0])
            passes.append((number, int(rest[1][1:]), queue[at - 1]["unit"], queue[at]["unit"]))
        elif word == "drain":
            drains.append((number, int(rest[1][1:]), queue[int(rest[0])]["unit"]))
        elif word == "squash":
            at = int(rest[0])
            squashes.append((number, queue[at]["unit"]))
            end(queue, at + 1, number, "squashed")
        elif word == "drop":
            if int(rest[0]) == 0:
                history_of.next = queue[0]["unit"]
            end(queue, int(rest[0]), number, "dropped")
        elif word == "retire":
            head = queue.pop(0)
            head.update(last=number, ending="retired")
            history_of.next = (head["unit"] + 1) % units
    for life in queue:
        life["last"] = number
    return [Life(**life) for life in lives], passes, drains, squashes


def end(queue, kept, number, ending):
    for life in queue[kept:]:
        life.update(last=number, ending=ending)
    del queue[kept:]


def faults_of(svg, script, units, counted="event"):
    """What is wrong with a picture of a script."""
    root = tree.fromstring(svg)
    numbers = list(steps_of(script)) if counted == "step" else range(1, len(script.splitlines()) + 1)
    events = numbers[-1] if numbers else 0
    history_of.next = 0
    lives, passes, drains, squashes = history_of(script, units, numbers) if events else ([], [], [], [])
    for element in root.iter():
        if element.tag in (SVG + "script", SVG + "image", SVG + "foreignObject"):
            yield f"an element {element.tag}"
        for key, value in element.attrib.items():
            if key.startswith("on") or "://" in value:
                yield f"an attribute {key}={value}"
    if events > MOST_SINGLE:
        yield from stretch_faults(root, lives, events, units)
        return
    yield from bar_faults(root, lives, events)
    yield from head_faults(root, script, units, list(numbers))
    has_room = counted == "event" or events <= MOST_MARKED
    yield from mark_faults(root, lives if has_room else [], passes if has_room else [], squashes, counted)
    yield from drain_faults(root, drains if has_room else [], counted)
    if counted == "step":
        yield from strip_faults(root, lives, events, script, units, numbers)


def strip_faults(root, lives, steps, script, units, numbers):
    """A strip stands where a unit has a task in a step, and does nothing in it."""
    wanted = waits_of(lives, steps, script, units, numbers)
    drawn, said = collections.Counter(), {}
    for bar in root.iter(SVG + "rect"):
        title = bar.find(SVG + "title")
        if title is None or not bar.get("class").startswith("wait "):
            continue
        first, last, count, why = STRIP.fullmatch(title.text).groups()
        first, last = int(first), int(last or first)
        unit = int((float(bar.get("y")) - 152) // 68)
        if int(count or 1) != last - first + 1:
            yield f"a strip of steps {first} to {last} says {count}"
        begin, behind = (LEFT + step * WIDTH / steps for step in (first - 1, last))
        left, width = float(bar.get("x")), float(bar.get("width"))
        if abs(left - begin) > 0.02 or abs(left + width - behind) > 0.04:
            yield f"the strip of unit {unit}, steps {first} to {last} is at {left}, {width} wide"
        drawn.update((unit, step) for step in range(first, last + 1))
        if said.get((unit, first - 1)) == why:
            yield f"two strips of unit {unit} that are neighbours at step {first} say the same"
        said[unit, last] = why
    if drawn != collections.Counter(wanted):
        yield f"{sum(drawn.values())} steps of waiting, where there are {len(wanted)}, or others"


def waits_of(lives, steps, script, units, numbers):
    """The units and the steps in which they have a task and do nothing; a last step that the head does not end has none."""
    waits = {(life.unit, step) for life in lives for step in range(life.first, life.last + 1)} - doers_of(script, units, numbers)
    return waits if not script or ends_step(script) else {(unit, step) for unit, step in waits if step < steps}


def doers_of(text, units, numbers):
    """Which unit does something in which step."""
    busy, head, active = set(), 0, 0
    for number, line in zip(numbers, text.splitlines()):
        word, *rest = line.split()
        at = active if word == "assign" else int(rest[0]) if rest else 0
        busy.add(((head + at) % units, number))
        head += word == "retire"
        active = {"assign": active + 1, "squash": at + 1, "retire": active - 1, "drop": at}.get(word, active)
    return busy


def ends_step(text):
    """Whether the last event ends a step."""
    *_, last, behind = steps_of(text + "retire\n")
    return behind > last


def mark_faults(root, lives, passes, squashes, counted):
    told = [title.text.split("; ")[0] for title in root.iter(SVG + "title") if title.text]
    for number, register, source, target in passes:
        wanted = 1 if target else 2
        if told.count(f"{counted} {number}: ${register} goes from unit {source} to unit {target}") != wanted:
            yield f"no arrow of {counted} {number}"
    arrows = sum("goes from unit" in text for text in told)
    if arrows != sum(1 if target else 2 for _, _, _, target in passes):
        yield f"{arrows} arrows of {len(passes)} transfers"
    for number, unit in squashes:
        if told.count(f"{counted} {number}: what follows unit {unit} is squashed") != 1:
            yield f"no mark of the squash of {counted} {number}"
    ticks = sum(line.get("class", "").startswith("instruction") for line in root.iter(SVG + "line"))
    executed = sum(life.executed for life in lives)
    if ticks != executed:
        yield f"{ticks} ticks of {executed} instructions"


def drain_faults(root, drains, counted):
    told = [title.text.split("; ")[0] for title in root.iter(SVG + "title") if " is sent by unit " in title.text]
    if sorted(told) != sorted(f"{counted} {number}: ${register} is sent by unit {unit}, which has stopped" for number, register, unit in drains):
        yield f"{len(told)} marks of {len(drains)} drains, or others"


def bar_faults(root, lives, events):
    drawn = []
    rows = collections.defaultdict(list)
    for bar in root.iter(SVG + "rect"):
        title = bar.find(SVG + "title")
        if title is None or bar.get("class").startswith(("wait ", "leads")):
            continue
        task, unit, first, last, executed, ending = TITLE.fullmatch(title.text).groups()
        life = Life(task, int(unit), int(first), int(last or first), int(executed), ending)
        left, width = float(bar.get("x")), float(bar.get("width"))
        begin = LEFT + (life.first - 1) * WIDTH / events
        behind = LEFT + life.last * WIDTH / events
        if abs(left - begin) > 0.02 or abs(left + width - behind) > 0.04:
            yield f"the bar of {life} is at {left}, {width} wide"
        look = "trapped" if ending.startswith(("trapped", "is unlisted")) else ending
        if look in ("halted", "trapped"):
            life = life._replace(ending="unfinished")
        drawn.append(life)
        if bar.get("class") != look:
            yield f"the bar of {life} looks {bar.get('class')}"
        rows[float(bar.get("y"))].append((left, left + width))
    if drawn != lives:
        yield f"{len(drawn)} bars of {len(lives)} lives, or others"
    for spans in rows.values():
        spans.sort()
        if any(one[1] > two[0] + 0.04 for one, two in zip(spans, spans[1:])):
            yield "bars of one unit overlap"
    for text in root.iter(SVG + "text"):
        if text.get("class") == "task":
            x, y = float(text.get("x")), float(text.get("y")) - 18
            after = min((start for start, _ in rows[y] if start > x), default=LEFT + WIDTH)
            width = max((end - start for start, end in rows[y] if start <= x <= end), default=after - x)
            if 4 * len(text.text) > width:
                yield f"the name {text.text} is wider than its bar, or than the room after it"


def head_faults(root, script, units, numbers):
    """A line over the bars of the unit that is the head, from one retirement to the next."""
    wanted, after, retired = [], 0, 0
    for number, line in zip(numbers, script.splitlines()):
        if line.strip() == "retire":
            wanted.append((after + 1, number, retired % units))
            after, retired = number, retired + 1
    if numbers and numbers[-1] > after:
        wanted.append((after + 1, numbers[-1], retired % units))
    told = [HEAD.fullmatch(bar.find(SVG + "title").text) for bar in root.iter(SVG + "rect") if bar.get("class") == "leads" and bar.find(SVG + "title") is not None]
    if [(int(it[1]), int(it[2] or it[1]), int(it[3])) for it in told] != wanted:
        yield f"{len(told)} heads of {len(wanted)}, or others"


def stretch_faults(root, lives, events, units):
    """The heights of the columns, against the events of the lives counted one by one."""
    length = events // STRETCHES + 1
    counts = collections.Counter()
    for life in lives:
        for event in range(life.first - 1, life.last):
            counts[life.unit, event // length, life.ending] += 1
    drawn = {}
    for part in root.iter(SVG + "rect"):
        style, _, ending = part.get("class").partition(" ")
        if style == "share":
            x, y = float(part.get("x")), float(part.get("y"))
            stretch = round((x - LEFT) / WIDTH * events / length)
            drawn[int((y - 152) // 68), stretch, ending] = float(part.get("height"))
    if set(drawn) != set(counts):
        yield f"{len(drawn)} parts of columns, where there are {len(counts)}"
    for (unit, stretch, ending), height in drawn.items():
        size = min((stretch + 1) * length, events) - stretch * length
        if abs(height - counts[unit, stretch, ending] * 40 / size) > 0.02:
            yield f"unit {unit}, stretch {stretch}, {ending}: {height} high"


def run(program, *words):
    return subprocess.run([program, *map(str, words)], capture_output=True).stdout


def accepts(program, folder):
    """Whether nothing is found in an example with its certificate."""
    texts = [folder / "program.s", folder / "certificate.cert2"]
    return subprocess.run([program, "check", *texts], capture_output=True).returncode == 0


def random_folders(program, seed):
    """Folders with a random program whose marks are right, and its certificate; each is gone when the next one is asked for."""
    import accepted
    import model

    accepted.R.seed(seed)
    for number in itertools.count():
        with tempfile.TemporaryDirectory() as name:
            folder = pathlib.Path(name) / f"random-{seed}-{number}"
            folder.mkdir()
            (folder / "program.s").write_text(model.print_program(accepted.accepted()[0]))
            certificate = run(program, "annotate", "--emit", "keep", folder / "program.s")
            (folder / "certificate.cert2").write_bytes(certificate)
            yield folder


def pictures_of(program, folder, budget=()):
    """Pictures of runs of an example, with their scripts, numbers of units, and what they count; the budget is an option."""
    files = [folder / "program.s", folder / "certificate.cert2"]
    texts = [*budget, *files]
    for units in (1, 2, 4, 16):
        script = run(program, "run", "--emit", "script", "--units", units, *texts)
        with tempfile.NamedTemporaryFile() as file:
            file.write(script)
            file.flush()
            picture = run(program, "replay", "--emit", "svg", "--units", units, *files, file.name)
            yield units, script.decode(), picture, "event"
        # a run in steps is the same each time
        steps = ["run", "--schedule", "steps", "--units", units, *texts, "--emit"]
        script = run(program, *steps, "script").decode()
        yield units, script, run(program, *steps, "svg", "--axis", "events"), "event"
        yield units, script, run(program, *steps, "svg"), "step"


def cases_of(program, folders, seconds, seed):
    """The pictures of the examples; where seconds are given also of random programs, until they are up."""
    end = time.time() + seconds if seconds else None
    whole = ("--budget", 3000) if seconds else ()
    more = ((folder, ("--budget", 600)) for folder in random_folders(program, seed)) if seconds else ()
    for folder, budget in itertools.chain(((folder, whole) for folder in folders), more):
        for case in pictures_of(program, folder, budget):
            yield folder.name, *case
            if end and time.time() > end:
                return


def main():
    options = argparse.ArgumentParser(description=__doc__, formatter_class=argparse.RawDescriptionHelpFormatter)
    options.add_argument("--program", type=lambda path: str(pathlib.Path(path).resolve()))
    options.add_argument("--seconds", type=float, help="goes on with random programs")
    options.add_argument("--seed", type=int, default=int(time.time()))
    options.add_argument("--svg", type=pathlib.Path)
    options.add_argument("--script", type=pathlib.Path)
    options.add_argument("--units", type=int, default=4)
    options.add_argument("--count", choices=("event", "step"), default="event")
    options.add_argument("folders", metavar="FOLDER", type=pathlib.Path, nargs="*")
    given = options.parse_args()
    if given.svg and given.script:
        cases = [(given.svg.name, given.units, given.script.read_text(), given.svg.read_bytes(), given.count)]
    elif given.program:
        folders = given.folders or sorted(
            path.parent for path in TOP.glob("examples/*/certificate.cert2") if accepts(given.program, path.parent))
        cases = cases_of(given.program, folders, given.seconds, given.seed)
    else:
        options.error("give --svg and --script, or --program")
    seen, failed = 0, 0
    for name, units, script, svg, counted in cases:
        seen += 1
        for fault in faults_of(svg, script, units, counted):
            failed += 1
            print(f"{name} on {units} units, by {counted}s: {fault}")
    print(f"{seen} pictures, {failed} faults")
    sys.exit(1 if failed else 0)


if __name__ == "__main__":
    main()
