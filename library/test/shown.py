"""Takes the files that docs/LIBRARY.md shows, and what the program in C prints (a.txt), out of it.

    shown.py LIBRARY.md FOLDER
"""

import re
import sys
from pathlib import Path

page, folder = Path(sys.argv[1]).read_text(), Path(sys.argv[2])
said = dict(re.findall(r"^\$ (.*)\n((?:(?!\$ |```).*\n)*)", page, re.M))
for command, text in said.items():
    if command.startswith("cat "):
        (folder / command.removeprefix("cat ")).write_text(text)
(folder / "a.txt").write_text(said["./a"])
