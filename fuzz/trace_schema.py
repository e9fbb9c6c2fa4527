#!/usr/bin/env python3
"""Tries the lines of `--emit json` against syntax/trace.schema.json.

    trace_schema.py PROGRAM [FOLDER ..]
    trace_schema.py --lines FILE

The first form runs each example with a program text on 1, 2, 4 and 16 units, by threads and in steps, for at most 300 events,
and replays each script of events that it has; a program whose marks are wrong has no lines. It also removes a key from each
object and adds one, and the schema must refuse that. This knows the words of JSON Schema that the file uses, and no other. What
differs is told, and the script ends with status 1.
"""
import argparse
import json
import pathlib
import subprocess
import sys

TOP = pathlib.Path(__file__).resolve().parent.parent
KINDS = {"object": dict, "array": list, "string": str, "integer": int}
KNOWN = {"$schema", "title", "description", "type", "const", "enum", "oneOf", "required", "properties", "additionalProperties", "items", "minimum", "maximum"}


def fits(value, schema):
    assert set(schema) <= KNOWN, f"a word that this does not know: {set(schema) - KNOWN}"
    if "oneOf" in schema and sum(fits(value, one) for one in schema["oneOf"]) != 1:
        return False
    if "type" in schema and (not isinstance(value, KINDS[schema["type"]]) or isinstance(value, bool)):
        return False
    if "const" in schema and value != schema["const"] or "enum" in schema and value not in schema["enum"]:
        return False
    if not schema.get("minimum", -1e99) <= (value if isinstance(value, int) else 0) <= schema.get("maximum", 1e99) and isinstance(value, int):
        return False
    if isinstance(value, dict) and "properties" in schema:
        if not set(schema["required"]) <= set(value) <= set(schema["properties"]):
            return False
        return all(fits(value[key], schema["properties"][key]) for key in value)
    return not isinstance(value, list) or all(fits(one, schema["items"]) for one in value)


def faults_of(text, schema):
    lines = [json.loads(line) for line in text.splitlines()]
    for number, line in enumerate(lines, 1):
        if not fits(line, schema):
            yield f"line {number} does not fit: {json.dumps(line)[:200]}"
        if fits({**line, "more": 1}, schema):
            yield f"line {number} fits with a key more"
        first = next(iter(line))
        if fits({key: line[key] for key in line if key != first}, schema):
            yield f"line {number} fits without {first}"
    if lines and ("format" not in lines[0] or "end" not in lines[-1] or any("event" not in line for line in lines[1:-1])):
        yield "the lines are not a start, events and an end"


def runs_of(program, folder):
    """Command lines with lines of JSON, for an example."""
    text = folder / "program.s"
    if not text.exists():
        return
    for units in ("1", "2", "4", "16"):
        for more in ((), ("--schedule", "steps"), ("--predict", "last")):
            for budget in ("7", "300"):
                yield ["run", "--least", "--emit", "json", "--units", units, "--budget", budget, *more, text]
        for script in sorted(folder.glob("*.events")):
            yield ["replay", "--least", "--emit", "json", "--units", units, text, script]


def main():
    options = argparse.ArgumentParser(description=__doc__, formatter_class=argparse.RawDescriptionHelpFormatter)
    options.add_argument("--lines", type=pathlib.Path)
    options.add_argument("program", nargs="?", type=lambda path: str(pathlib.Path(path).resolve()))
    options.add_argument("folders", metavar="FOLDER", type=pathlib.Path, nargs="*")
    given = options.parse_args()
    schema = json.loads((TOP / "syntax" / "trace.schema.json").read_text())
    texts = [(given.lines, given.lines.read_text())] if given.lines else []
    for folder in given.folders or sorted(path for path in (TOP / "examples").rglob("*") if path.is_dir()):
        for words in runs_of(given.program, folder) if given.program else ():
            told = subprocess.run([given.program, *map(str, words)], capture_output=True, text=True)
            if told.stdout.startswith("{"):
                texts.append((" ".join(map(str, words)), told.stdout))
    failed = 0
    for name, text in texts:
        for fault in faults_of(text, schema):
            failed += 1
            print(f"{name}: {fault}")
    print(f"{len(texts)} traces, {failed} faults")
    sys.exit(1 if failed or not texts else 0)


if __name__ == "__main__":
    main()
