"""Each `{name}` in a row of advice is a word that its file gives.

The rows stand as constants in the crates of the diagnostics, and `advice.rt` fills in `{name}`; a name that no place gives
would be left out in silence. Of each file that writes by rows, this compares the names in its rows with those that it puts.

    python3 fuzz/template_names.py
"""

import pathlib
import re
import sys

CRATES = pathlib.Path(__file__).resolve().parent.parent / "crates"
CONSTANT = re.compile(r"^const [A-Z_]+: (?:&str|Row)\b.*?;$", re.M | re.S)
TEXT = re.compile(r'"((?:[^"\\]|\\.)*)"')
PUT = re.compile(r'\.(?:put|add|line)\(\s*"(\w+)"')
GIVEN = {"Names::of_task": "task", ".fixed(": "fix"}


def unknown(source):
    """The names in the rows of a file that it does not put, and how many it has."""
    rows = [text for row in CONSTANT.findall(source) for text in TEXT.findall(row)]
    named = [name for text in rows for name in re.findall(r"\{(\w*)\}", text)]
    put = set(PUT.findall(source)) | {name for call, name in GIVEN.items() if call in source}
    odd = [text for text in rows if text.count("{") != text.count("}")]
    return sorted(set(named) - put) + odd, len(named)


def main():
    """Looks through all files that write by rows."""
    wrong = total = 0
    for path in sorted(CRATES.glob("*/src/*.rt")):
        source = path.read_text()
        if "::advice::" not in source:
            continue
        names, count = unknown(source)
        total += count
        for name in names:
            wrong += 1
            print(f"{path.relative_to(CRATES)}: no place gives {name!r}")
    if not total:
        print("no row has a name")
        wrong += 1
    print(f"{total} names in rows of advice, {wrong} unknown")
    return wrong > 0


if __name__ == "__main__":
    sys.exit(main())
