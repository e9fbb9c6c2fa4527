#!/usr/bin/env python3
"""Says which must-fail edits do not fit their source: an edit's old text is to stand exactly once in its file.

    more_edits/fits.py [NAME..]      those of crates/*/must-fail and of this folder, of these crates or of all

It proves nothing and takes a second. The status is 1 if an edit does not fit.
"""
import pathlib
import sys

TOP = pathlib.Path(__file__).resolve().parent.parent


def misfit_of(edit, crate):
    """What does not fit in an edit, or none: each pair applies to what the earlier ones made."""
    texts, path, old, pairs = {}, None, None, 0
    for line in edit.read_text(encoding="utf-8").split("\n"):
        kind, _, rest = line.partition(":")
        rest = rest.removeprefix(" ")
        if kind == "file":
            path = crate / rest.strip()
            if not path.is_file():
                return f"there is no {rest.strip()}"
        elif kind == "old":
            old = rest
        elif kind == "new":
            if not path or not old:
                return "a new text has no file or no old text"
            text = texts.setdefault(path, path.read_text(encoding="utf-8"))
            if text.count(old) != 1:
                return f"in {path.relative_to(crate)} {text.count(old)} times: {old.strip()}"
            if old == rest:
                return f"nothing changes at: {old.strip()}"
            texts[path], old, pairs = text.replace(old, rest), None, pairs + 1
    return None if pairs else "it has no old and new text"


def main(names):
    folders = [*(TOP / "crates").glob("*/must-fail"), *(it for it in (TOP / "more_edits").iterdir() if it.is_dir())]
    edits, misfits = 0, 0
    for folder in sorted(folders):
        name = folder.parent.name if folder.name == "must-fail" else folder.name
        for edit in sorted(folder.glob("*.edit")) if not names or name in names else []:
            misfit = misfit_of(edit, TOP / "crates" / name)
            edits, misfits = edits + 1, misfits + (misfit is not None)
            if misfit:
                print(f"{edit.relative_to(TOP)}: {misfit}")
    print(f"{edits - misfits} of {edits} edits fit")
    return 1 if misfits else 0


if __name__ == "__main__":
    sys.exit(main(sys.argv[1:]))
