#!/usr/bin/env python3
"""Runs the commands that documents print and compares what they say.

    pages.py PROGRAM [--browsers]

PROGRAM is the built `multiscalar`. In a block of a page a line `$ COMMAND` is a
command of the shell, and the lines up to the next one are what it prints. The
commands of a page run one after another in a copy of the page's folder; those of the
README at the top, of which the copy has the examples and the program. A file that
they write must equal the file of that name in the folder, if it has one; a picture may
be one of docs/pictures instead, and each of the page's pictures must have been drawn.
A file that the page itself shows first, by `$ cat FILE`, is made of what it shows.

A line that begins with four blanks and `multiscalar`, `compiler/` or `web/` is a
command, up to two blanks, of which the page does not print the answer. It runs after
these, and must be neither wrong usage nor without a file; of scripts the status is 0.

What needs a compiler, the built library or rt is not tried where that is not there; nor
without --browsers what needs a browser, which takes up to an hour. A line says so.
"""
import argparse
import collections
import os
import pathlib
import re
import shutil
import subprocess
import sys
import tempfile

TOP = pathlib.Path(__file__).resolve().parent.parent
PICTURES = TOP / "docs" / "pictures"
# A page, the folder of its commands, and how the names of its pictures begin.
PAGES = [("README.md", ".", ""), ("docs/TUTORIAL.md", "examples/tutorial", "tutorial-"), ("docs/COMMANDS.md", "examples/count", ""),
         ("docs/OUTPUTS.md", "examples/count", ""), ("docs/COMPILERS.md", "examples/count", ""), ("examples/README.md", "examples/count", ""),
         ("examples/from-c/README.md", "examples/from-c", ""), ("examples/suite/README.md", "examples/suite", ""),
         ("docs/FROM_C.md", ".", ""), ("docs/LIBRARY.md", ".", ""), ("web/README.md", ".", "")]
# The files that commands at the top name beside the program, and what is in them: a program in C, and a link of the page.
MAIN = '#include "multiscalar.h"\nint main(void) { out(1); return 0; }\n'
NAMED = {"one.c": MAIN, "two.c": "", "rest.S": "", "program.c": MAIN, "LINKS..": "#v=1-7a0f1157&exercise=1\n"}
CORE = "crates/multiscalar_c/out/libmultiscalar_c.a"
# What the scripts of the page call; a browser only where it is asked for.
CALLED = {"web/build.sh": ["rt"], "web/compare": ["a browser"], "web/test": ["a browser"]}
BROWSERS = {"web/compare": ["chromium", "chromedriver"], "web/test": ["chromium", "chromedriver", "firefox-esr"]}
END = "----- the end of what a command says -----"


def blocks(text):
    """The blocks between fences that begin with a command."""
    return re.findall(r"^```\n(\$ .*?)^```$", text, re.M | re.S)


def commands(text):
    """Each command of a page, with the lines that it prints."""
    for block in blocks(text):
        for part in re.split(r"^\$ ", block, flags=re.M)[1:]:
            command, _, answer = part.partition("\n")
            yield command, answer


def silent(text):
    """The commands of a page of which it does not print the answer."""
    return re.findall(r"^    ((?:multiscalar|compiler/\S+|web/\S+)(?: .*?)?)(?:  .*)?$", text, re.M)


def lacking(page):
    """What the commands of a page need and is not there."""
    needed = {"docs/LIBRARY.md": ("gcc", "ar", "rt")}.get(page, ())
    absent = [it for it in needed if not shutil.which(it)]
    if page == "docs/LIBRARY.md" and not (TOP / CORE).is_file():
        absent.append(CORE)
    if page == "docs/FROM_C.md":
        # Another compiler makes other code, and so other figures.
        gcc, version = re.search(r"translated .* by (\S+) ([\d.]+) ", (TOP / "docs/FROM_C_STEPS.txt").read_text()).groups()
        there = shutil.which(gcc) and subprocess.run([gcc, "-dumpfullversion"], stdout=subprocess.PIPE, text=True).stdout.strip()
        absent += [f"{gcc} {version}"] if there != version else []
    return absent


def needed(command):
    """What a command without an answer needs and is not there."""
    script, gcc = command.split()[0], re.search(r"--gcc (\S+)", command)
    if "/" in script and not (TOP / script).is_file():
        return script
    programs = [gcc[1]] if gcc else CALLED.get(script, ())
    return next((it for it in programs if not shutil.which(it)), None)


def copied(folder, program, copy):
    """A copy of a folder, without its pictures: of the top the examples, the program, and the scripts."""
    inside = "examples" if folder == "." else ""
    shutil.copytree(TOP / folder / inside, copy / inside, ignore=shutil.ignore_patterns("*.svg", "__pycache__"))
    if inside:
        (copy / "multiscalar").symlink_to(program)
        (copy / "PROGRAM").symlink_to(program)
        for name in ("compiler", "library", "python", "web"):
            (copy / name).symlink_to(TOP / name)
        for name, text in NAMED.items():
            (copy / name).write_text(text)


def put_shown(pairs, copy):
    """Writes the files that a page shows before it names them."""
    for number, (command, answer) in enumerate(pairs):
        name = command.removeprefix("cat ")
        if re.fullmatch(r"cat \S+", command) and not (copy / name).exists() and not any(name in it for it, _ in pairs[:number]):
            (copy / name).write_text(answer)


def answers(program, folder, lines):
    """What each of the commands says, on both streams, in one shell and in this folder; and its status."""
    # A command after another one may ask for its status, `echo $?`.
    script = "".join(f"{line}\nstatus=$?; echo $status'{END}'; (exit $status)\n" for line in lines)
    with tempfile.TemporaryDirectory() as name:
        (pathlib.Path(name) / "multiscalar").symlink_to(program)
        environment = {**os.environ, "PATH": name + os.pathsep + os.environ["PATH"], "MULTISCALAR": str(program), "PYTHONDONTWRITEBYTECODE": "1"}
        shell = subprocess.run(["sh", "-c", script], cwd=folder, env=environment, text=True,
                               stdin=subprocess.DEVNULL, stdout=subprocess.PIPE, stderr=subprocess.STDOUT)
    return re.findall(rf"(.*?)(\d+){END}\n", shell.stdout, re.S)


def written(copy, folder, begins):
    """The pictures that the commands drew, and the files that they wrote wrongly."""
    drawn, wrong = set(), []
    for file in sorted(path for path in copy.iterdir() if path.is_file() and not path.is_symlink()):
        wanted = folder / file.name
        if file.suffix == ".svg":
            wanted = PICTURES / (begins + file.name)
            drawn.add(wanted.name)
        elif not wanted.is_file():
            continue
        if not wanted.is_file() or file.read_bytes() != wanted.read_bytes():
            wrong.append(f"{file.name} is not {wanted.relative_to(TOP)}")
    return drawn, wrong


def faults(program, page, folder, begins):
    """What a page says and the program does not; how many commands ran; and which did not."""
    text = (TOP / page).read_text()
    pairs = list(commands(text))
    found = []
    with tempfile.TemporaryDirectory() as name:
        copy = pathlib.Path(name) / "copy"
        copied(folder, program, copy)
        put_shown(pairs, copy)
        said = answers(program, copy, [command for command, _ in pairs])
        if len(said) != len(pairs):
            found.append(f"{len(said)} answers to {len(pairs)} commands")
        for (command, answer), (now, _) in zip(pairs, said):
            if now != answer:
                found.append(f"$ {command}\n    " + now.replace("\n", "\n    "))
        others = [it for it in silent(text) if not needed(it)]
        for command, (now, status) in zip(others, answers(program, copy, others)):
            if int(status) not in ((0, 1, 3) if command.startswith("multiscalar") else (0,)):
                found.append(f"{command}\n    status {status}: " + now.replace("\n", "\n    "))
        drawn, wrong = written(copy, TOP / folder, begins)
    if begins:
        shown = set(re.findall(r"\]\(pictures/([^)]*)\)", text))
        wrong += [f"{picture} is not drawn" for picture in sorted(shown - drawn)]
    lacks = collections.Counter(filter(None, map(needed, silent(text))))
    return found + wrong, len(pairs) + len(others), "".join(f", {count} not tried without {it}" for it, count in lacks.items())


def main():
    options = argparse.ArgumentParser(description=__doc__, formatter_class=argparse.RawDescriptionHelpFormatter)
    options.add_argument("program", metavar="PROGRAM", type=pathlib.Path)
    options.add_argument("--browsers", action="store_true", help="try what needs a browser, too")
    given = options.parse_args()
    if given.browsers:
        CALLED.update(BROWSERS)
    if not given.program.is_file():
        options.error(f"there is no program {given.program}")
    failed = 0
    for page, folder, begins in PAGES:
        if lacking(page):
            print(f"{page}: not tried without {', '.join(lacking(page))}")
            continue
        found, count, others = faults(given.program.resolve(), page, folder, begins)
        failed += len(found)
        for fault in found:
            print(f"{page}: {fault}")
        print(f"{page}: {count} commands, {len(found)} faults{others}")
    sys.exit(1 if failed else 0)


if __name__ == "__main__":
    main()
