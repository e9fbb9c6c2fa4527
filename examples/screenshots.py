#!/usr/bin/env python3
"""Renders pictures (SVG) in a headless browser, as a reader would see them, for a person to look at.

    python3 screenshots.py [--out FOLDER] [--browser PROGRAM] [PICTURE ...]

Without names it takes all pictures of docs/pictures. It needs Chromium (Debian: apt-get install chromium).
Status 0 if each picture was rendered at the size that it says it has.
"""

import argparse
import pathlib
import shutil
import struct
import subprocess
import sys
import xml.etree.ElementTree as xml

PICTURES = pathlib.Path(__file__).resolve().parent.parent / "docs" / "pictures"
BROWSERS = ["chromium", "chromium-browser", "google-chrome"]


def size_of_picture(path):
    """The width and height, in pixels, that the picture says it has."""
    top = xml.parse(path).getroot()
    return int(top.get("width")), int(top.get("height"))


def size_of_screenshot(path):
    """The width and height in the header of a PNG file; None if there is no such file."""
    if not path.is_file():
        return None
    head = path.read_bytes()[:24]
    return struct.unpack(">II", head[16:24]) if head.startswith(b"\x89PNG") else None


def render(browser, picture, out):
    """Renders one picture, and gives what is wrong; nothing if it has the right size."""
    if not picture.is_file():
        return f"{picture}: no such file"
    width, height = size_of_picture(picture)
    shot = out / (picture.stem + ".png")
    shot.unlink(missing_ok=True)
    subprocess.run(
        [browser, "--headless", "--no-sandbox", "--disable-gpu", "--hide-scrollbars",
         f"--window-size={width},{height}", f"--screenshot={shot}", picture.resolve().as_uri()],
        stdout=subprocess.DEVNULL, stderr=subprocess.DEVNULL, timeout=120)
    size = size_of_screenshot(shot)
    if size is None:
        return f"{picture.name}: the browser made no screenshot"
    if size != (width, height):
        return f"{picture.name}: {size[0]} by {size[1]} pixels instead of {width} by {height}"
    print(f"{shot}: {width} by {height} pixels")
    return None


def main():
    words = argparse.ArgumentParser(description=__doc__, formatter_class=argparse.RawDescriptionHelpFormatter)
    words.add_argument("--out", type=pathlib.Path, default=pathlib.Path("screenshots"), help="where the PNG files go")
    words.add_argument("--browser", default=next((name for name in BROWSERS if shutil.which(name)), None))
    words.add_argument("pictures", nargs="*", type=pathlib.Path)
    given = words.parse_args()
    if given.browser is None:
        sys.exit("no browser found: install chromium, or name one with --browser")
    out = given.out.resolve()
    out.mkdir(parents=True, exist_ok=True)
    faults = [render(given.browser, it, out) for it in given.pictures or sorted(PICTURES.glob("*.svg"))]
    print(f"{faults.count(None)} of {len(faults)} pictures rendered")
    faults = [it for it in faults if it]
    print(*faults, sep="\n", end="\n" if faults else "")
    sys.exit(1 if faults else 0)


if __name__ == "__main__":
    main()
