#!/usr/bin/env python3
"""Compares the pictures of `curve` with a model of this file's own.

    curve_picture.py PROGRAM [--seconds S] [--seed N]
    curve_picture.py --model FILE [--units N] [--budget N] [--predict first|last|LIST]
    curve_picture.py --rows "UNITS STEPS RETIRED WASTED END, .."

The first form runs the built `multiscalar`. For each example that is accepted, and
then for random accepted programs (accepted.py), it draws units, a budget and a
predictor, and compares the picture and the status of `curve --emit svg --least` with
those that the picture below gives for the rows of curve.py. The picture must be
well-formed XML with no script and no reference outside; its style sheet and legend
are taken as they stand in speed_curve/src/sheet.rt. What differs is told, and the
script ends with status 1. The other forms write the picture below: of a program, or
of rows as they are given. It is no part of the tests.
"""
import argparse
import pathlib
import random
import sys
import tempfile
import time
import xml.etree.ElementTree as tree
from decimal import ROUND_CEILING, ROUND_HALF_UP, Decimal

import curve
import model

TOP = pathlib.Path(__file__).resolve().parent.parent
SHEET = (TOP / "crates/speed_curve/src/sheet.rt").read_text().split('"', 1)[1].rsplit('"', 1)[0]
SVG = "{http://www.w3.org/2000/svg}"
LEFT, WIDTH = 88, 1160
ZERO, HIGH = 496, 360
FOOT, MOST = 630, 80


def ratio(part, whole):
    """Two decimals, rounded to the nearest, and up from the middle; 0 of nothing."""
    quotient = Decimal(part) / Decimal(whole) if whole else Decimal(0)
    return quotient.quantize(Decimal("0.01"), ROUND_HALF_UP)


def caption(name, budget, predict):
    """The line above the title, of a program that may have no name; of a long list the first 24 numbers."""
    numbers = predict.split(",")
    named = ",".join(numbers[:24]) + (",&#8230;" if len(numbers) > 24 else "")
    program = f"program: {name}; " if name else ""
    return f"<text class='quiet' x='88' y='18'>{program}budget: {budget} events; predictor: {named}</text>\n"


def picture(rows, said):
    """The file of some rows: units, steps, retired and wasted instructions, and the end in words; after a caption."""
    rates = [ratio(retired, steps) for _, steps, retired, _, _ in rows]
    speeds = [speed_up(rows[0], row) for row in rows]
    most = max([number for number in rates + speeds if number is not None] + [Decimal("0.2")])
    # the least step of which at most five make the top of the scale
    step = next(step for power in range(-2, 9) for step in (Decimal(1).scaleb(power) * k for k in (1, 2, 5)) if 5 * step >= most)
    lines = int((most / step).to_integral_value(ROUND_CEILING))
    top = lines * step
    middles = [LEFT + (2 * row[0] - 1) * WIDTH // (2 * len(rows)) for row in rows]
    text = SHEET + said
    text += label("scale", 78, ZERO + 4, cut(Decimal(0)))
    for line in range(1, lines + 1):
        y = ZERO - line * HIGH // lines
        text += f"<path class='grid' d='M88 {y}H1248'/>\n" + label("scale", 78, y + 4, cut(line * step))
    for style, numbers in (("curve", rates), ("speed", speeds)):
        points = (f"{x},{height(number, top)} " for x, number in zip(middles, numbers) if number is not None)
        text += f"<polyline class='{style}' points='{''.join(points)}'/>\n"
    under, over = (sides([None if number is None else way * height(number, top) for number in numbers]) for way, numbers in ((1, rates), (-1, speeds)))
    return text + "".join(column(*of_run, top, HIGH // lines) for of_run in zip(rows, middles, rates, speeds, under, over)) + "</svg>\n"


def sides(points):
    """Where numbers under points stand, from them: at the left or the right of a line that goes steeply down from or up to one."""
    steep = WIDTH * 3 // 4 // len(points)
    for before, here, after in zip([None, *points], points, [*points[1:], None]):
        falls = [point is not None and here is not None and point - here > steep for point in (after, before)]
        yield -20 if falls[0] else 20 if falls[1] else 0


def speed_up(one, row):
    """How many times as many steps the run on one unit took, if both did the same work, and some."""
    ended = "out of budget" not in (one[4], row[4])
    return ratio(one[1], row[1]) if ended and row[2] > 0 else None


def height(number, top):
    return ZERO - int(HIGH * number / top)


def cut(number):
    """A number with two decimals; the others are left out."""
    return f"{int(number * 100) / 100:.2f}"


def label(style, x, y, words):
    return f"<text class='{style}' x='{x}' y='{y}'>{words}</text>\n"


def free(y, step, gap):
    """The first foot of a number, from this one on, that no line of the upper scale comes near."""
    while any(y - 12 <= line <= y + 3 for line in range(ZERO, 0, -gap)):
        y += step
    return y


def column(row, x, rate, speed, side, side_of_speed, top, gap):
    """A run: what is said of it, its bar, its points, and its numbers."""
    units, steps, retired, wasted, end = row
    share = ratio(100 * wasted, retired + wasted)
    high = max(int(share * MOST / 100), 1 if wasted else 0)
    y = height(rate, top)
    under = free(y + 22, 1, gap)
    mark = f"<circle class='halted' cx='0' cy='{y}' r='7'/>" if end == "halted" else f"<path class='other' d='M-9 {y}l9-9 9 9-9 9z'/>"
    text = (
        f"<g transform='translate({x} 0)'><title>units: {units}, steps: {steps}, speed-up: {'-' if speed is None else speed}"
        f", instructions retired: {retired}, thrown away: {wasted}, {end}</title>\n"
        f"<path class='grid' d='M0 {under + 6}V{FOOT}'/><rect class='wasted' x='-12' y='{FOOT - high}' width='24' height='{high}'/>\n{mark}\n"
    )
    if speed is not None:
        above = height(speed, top)
        text += f"<path class='faster' d='M-4 {above}v-4h8v8h-8z'/>\n{label('value', side_of_speed, free(above - 12, -1, gap), speed)}"
    return text + label("value", side, under, rate) + label("value", 0, 648, f"{share}%") + f"<text class='number' x='0' y='672'>{units}</text></g>\n"


def foreign(svg):
    """What a picture may not have."""
    for element in tree.fromstring(svg).iter():
        if element.tag in (SVG + "script", SVG + "image", SVG + "foreignObject"):
            yield f"an element {element.tag}"
        for key, value in element.attrib.items():
            if key.startswith("on") or "://" in value:
                yield f"an attribute {key}={value}"


def drawn_rows(program, units, budget, predict):
    rows = curve.rows_of(program, units, budget, predict)
    return [(number, *row) for number, row in enumerate(rows, 1)]


def faults(program, path, units, budget, predict):
    """What is wrong with the picture of a program's file."""
    words = ["--units", str(units), "--budget", str(budget), "--predict", predict, "--emit", "svg", "--least", path]
    text, status, said = curve.call(program, "curve", *words)
    rows = drawn_rows(model.assemble(pathlib.Path(path).read_bytes()), units, budget, predict)
    wanted = next((curve.STATUS[row[4]] for row in rows if row[4] != "halted"), 0)
    if status != wanted or said:
        yield f"status {status}, wanted {wanted}; {said}"
    model_text = picture(rows, caption(pathlib.Path(path).name, budget, predict))
    if text != model_text:
        pairs = zip(text.splitlines(), model_text.splitlines())
        yield next((f"wrote {one}\nwanted {two}" for one, two in pairs if one != two), "another length")
    yield from foreign(text)


def compare(program, seconds, seed):
    draw, told, tried, end = random.Random(seed), 0, 0, time.time() + seconds
    fixed = [(text, 16, budget, "first") for text in curve.examples(program) for budget in (20, 1000)]
    more = (curve.drawn(text, draw) for text in curve.random_programs(seed))
    with tempfile.TemporaryDirectory() as folder:
        path = pathlib.Path(folder) / "program.s"
        for text, units, budget, predict in (case for cases in (fixed, more) for case in cases):
            if time.time() > end:
                break
            path.write_text(text)
            tried += 1
            for fault in faults(program, str(path), units, budget, predict):
                told += 1
                print(f"{text}\nunits {units}, budget {budget}, predict {predict}: {fault}", flush=True)
    print(f"{tried} pictures, {told} differences")
    return told


def given_rows(words):
    for row in words.split(","):
        *numbers, end = row.split(maxsplit=4)
        yield (*map(int, numbers), end)


def main():
    options = argparse.ArgumentParser(description=__doc__, formatter_class=argparse.RawDescriptionHelpFormatter)
    options.add_argument("program", metavar="PROGRAM", nargs="?")
    options.add_argument("--seconds", type=float, default=60)
    options.add_argument("--seed", type=int, default=int(time.time()))
    options.add_argument("--model", metavar="FILE", type=pathlib.Path)
    options.add_argument("--rows", type=lambda words: list(given_rows(words)))
    options.add_argument("--units", type=int, default=16)
    options.add_argument("--budget", type=int, default=1_000_000)
    options.add_argument("--predict", default="first")
    given = options.parse_args()
    if given.rows:
        sys.stdout.write(picture(given.rows, caption("", given.budget, given.predict)))
    elif given.model:
        program = model.assemble(given.model.read_bytes())
        said = caption(given.model.name, given.budget, given.predict)
        sys.stdout.write(picture(drawn_rows(program, given.units, given.budget, given.predict), said))
    elif given.program:
        sys.exit(1 if compare(str(pathlib.Path(given.program).resolve()), given.seconds, given.seed) else 0)
    else:
        options.error("give PROGRAM, --model FILE or --rows ROWS")


if __name__ == "__main__":
    main()
