"""How names of files and other foreign texts are shown, so that none of them steers a terminal or forges a line."""

import os
import re

# As in the program's excerpts (docs/FORMATS.md): of what is above ASCII the controls C1, what ends a line, and what turns
# the direction of a text; a byte that is no UTF-8 is a surrogate here.
STEERS = re.compile("[\x80-\x9f\u061c\u200e\u200f\u2028-\u202e\u2066-\u2069\ud800-\udfff]")


def shown(name: str | bytes | os.PathLike) -> str:
    """A name as it is shown: each byte that is no printable character as \\x and two hexadecimal digits; characters above
    127 stay if the name is UTF-8 and none of them steers. A text that was shown is shown as itself."""
    text = os.fsdecode(name)
    is_readable = not STEERS.search(text)
    return "".join(it if is_plain(it, is_readable) else escaped(it) for it in text)


def is_plain(letter: str, is_readable: bool) -> bool:
    return " " <= letter <= "~" or (letter > "\x7f" and is_readable)


def escaped(letter: str) -> str:
    return "".join(f"\\x{byte:02x}" for byte in letter.encode("utf-8", "surrogateescape" if "\udc80" <= letter <= "\udcff" else "surrogatepass"))


def shown_lines(text: str) -> str:
    """A text of several lines; tabs stay."""
    return "\n".join("\t".join(map(shown, line.split("\t"))) for line in text.split("\n"))


def fault_of(error: OSError) -> str:
    """What the system says of a file, with the file's name."""
    why = error.strerror or str(error)
    return why if error.filename is None else f"{shown(error.filename)}: {why}"
