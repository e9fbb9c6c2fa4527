#!/usr/bin/env python3
"""Checks a log against SARIF 2.1.0: the parts of its schema that the logs of this program use, and what the text of
the standard demands beside the schema.

    python3 sarif_schema.py LOG..        of the form that the crate `diagnostic_log` writes; `-` is standard input

The schema's parts are written from the standard: each object with its properties, which of them it requires, and
that it has no others. Beside it stand the sections that are checked in words. No validator of others is used.
"""
import json
import re
import sys
import urllib.parse

TEXT = {"type": str}
URI = {"type": str, "format": "uri"}
URI_REFERENCE = {"type": str, "format": "uri-reference"}
BOOLEAN = {"type": bool}


def number(least):
    return {"type": int, "least": least}


def items(of, least=0, unique=False):
    return {"type": list, "of": of, "least": least, "unique": unique}


def record(required, **properties):
    return {"type": dict, "required": required.split(), "properties": properties}


def mapping(of):
    return {"type": dict, "of": of}


def one_of(*words):
    return {"type": str, "words": words}


MESSAGE = record("text", text=TEXT, markdown=TEXT)
ARTIFACT_LOCATION = record("", uri=URI_REFERENCE, uriBaseId=TEXT, index=number(-1), description=MESSAGE)
REGION = record("", startLine=number(1), startColumn=number(1), endLine=number(1), endColumn=number(1))
PHYSICAL_LOCATION = record("artifactLocation", artifactLocation=ARTIFACT_LOCATION, region=REGION)
LOCATION = record("", id=number(-1), physicalLocation=PHYSICAL_LOCATION, message=MESSAGE)
THREAD_FLOW = record("locations", message=MESSAGE, locations=items(record("", location=LOCATION), 1))
CODE_FLOW = record("threadFlows", message=MESSAGE, threadFlows=items(THREAD_FLOW, 1))
REPLACEMENT = record("deletedRegion", deletedRegion=REGION, insertedContent=record("", text=TEXT))
ARTIFACT_CHANGE = record("artifactLocation replacements", artifactLocation=ARTIFACT_LOCATION, replacements=items(REPLACEMENT, 1))
FIX = record("artifactChanges", description=MESSAGE, artifactChanges=items(ARTIFACT_CHANGE, 1, unique=True))
RESULT = record(
    "message", ruleId=TEXT, ruleIndex=number(-1), level=one_of("none", "note", "warning", "error"), message=MESSAGE,
    locations=items(LOCATION), relatedLocations=items(LOCATION, unique=True), codeFlows=items(CODE_FLOW),
    fixes=items(FIX, unique=True), partialFingerprints=mapping(TEXT))
RULE = record("id", id=TEXT, name=TEXT, shortDescription=MESSAGE, help=MESSAGE, helpUri=URI,
              defaultConfiguration=record("", level=one_of("none", "note", "warning", "error")))
DRIVER = record("name", name=TEXT, version=TEXT, rules=items(RULE, unique=True))
INVOCATION = record("executionSuccessful", executionSuccessful=BOOLEAN, exitCode=number(0), stdin=ARTIFACT_LOCATION)
RUN = record(
    "tool", tool=record("driver", driver=DRIVER), invocations=items(INVOCATION), originalUriBaseIds=mapping(ARTIFACT_LOCATION),
    artifacts=items(record("", location=ARTIFACT_LOCATION, description=MESSAGE), unique=True),
    columnKind=one_of("utf16CodeUnits", "unicodeCodePoints"), results=items(RESULT), properties=mapping(BOOLEAN))
LOG = record("version runs", **{"$schema": URI}, version=one_of("2.1.0"), runs=items(RUN))


def need(holds, what):
    if not holds:
        raise ValueError(what)


def check_uri(text, form, what):
    need(re.fullmatch(r"(?:[A-Za-z0-9._~:/?#\[\]@!$&'()*+,;=-]|%[0-9A-Fa-f]{2})*", text), f"{what}: {text} has a byte that is not escaped")
    scheme = re.match(r"[A-Za-z][A-Za-z0-9+.-]*:", text)
    need(scheme or form != "uri", f"{what}: {text} is no absolute URI")
    need(scheme or ":" not in text.split("/")[0], f"{what}: {text} begins with a segment that has a colon")


def check(value, schema, what):
    """ValueError where a value does not fit a schema."""
    need(type(value) is schema["type"], f"{what}: {type(value).__name__}")
    if schema["type"] is dict and "properties" in schema:
        for key in schema["required"]:
            need(key in value, f"{what}: {key} is missing")
        for key, part in value.items():
            need(key in schema["properties"], f"{what}: {key} is no property")
            check(part, schema["properties"][key], f"{what}.{key}")
    elif schema["type"] is dict:
        for key, part in value.items():
            check(part, schema["of"], f"{what}.{key}")
    elif schema["type"] is list:
        need(len(value) >= schema["least"], f"{what}: {len(value)} items")
        for at, part in enumerate(value):
            check(part, schema["of"], f"{what}[{at}]")
        need(not schema["unique"] or len({json.dumps(it, sort_keys=True) for it in value}) == len(value), f"{what}: an item twice")
    elif schema["type"] is int:
        need(value >= schema["least"], f"{what}: {value}")
    elif "words" in schema:
        need(value in schema["words"], f"{what}: {value}")
    elif "format" in schema:
        check_uri(value, schema["format"], what)


def parts(value, name):
    """All values of this name in a log."""
    if isinstance(value, dict):
        for key, part in value.items():
            if key == name:
                yield part
            yield from parts(part, name)
    elif isinstance(value, list):
        for part in value:
            yield from parts(part, name)


def is_origin(location):
    """Whether a place is the line of C that a comment of the program names."""
    return location["message"]["text"].startswith("the instruction comes from line ")


def check_origin(location):
    """A file alone, in a folder that is not known (section 3.4.4), and a whole line of it (section 3.30.5)."""
    physical = location["physicalLocation"]
    need(list(physical["artifactLocation"]) == ["uri"] and list(physical["region"]) == ["startLine"], "a line of C")
    line, uri = physical["region"]["startLine"], physical["artifactLocation"]["uri"]
    name = urllib.parse.unquote(uri.removeprefix("file://"))
    need(location["message"]["text"] == f"the instruction comes from line {line} of {name}.", f"line {line} of {name}")


def check_artifact(location, run):
    """Sections 3.4.3 to 3.4.5: a URI or an index; a base for a relative URI and for no other."""
    need("uri" in location or "index" in location, "an artifact without a URI and without an index")
    if "index" in location:
        need(0 <= location["index"] < len(run.get("artifacts", [])), f"artifact {location['index']}")
    if "uri" in location:
        absolute = bool(urllib.parse.urlsplit(location["uri"]).scheme)
        need(absolute != ("uriBaseId" in location), f"{location['uri']}: a base for a relative URI alone")
        need(absolute or location["uriBaseId"] in run["originalUriBaseIds"], f"{location['uri']}: its base is not declared")
        need(not urllib.parse.urlsplit(location["uri"]).netloc, f"{location['uri']}: an authority")


def check_sentence(text, what):
    """One sentence, which ends with a period (section 3.11) or asks a question, and no line of the text form."""
    need(text.endswith((".", "?")) and "\n" not in text and len(text) > 1, f"{what}: {text!r} is no sentence")


def check_words(log):
    """What the standard demands in words of a log that fits the schema."""
    for run in log["runs"]:
        rules = run["tool"]["driver"]["rules"]
        used = [result["ruleIndex"] for result in run["results"]]
        need(set(used) == set(range(len(rules))), "a rule that is not declared, or that no result breaks")
        need(len({rule["id"] for rule in rules}) == len(rules), "a rule twice")
        prints = [json.dumps([result["locations"][0]["physicalLocation"]["artifactLocation"], result["partialFingerprints"]]) for result in run["results"]]
        need(len(set(prints)) == len(prints), "two results of a file have the same fingerprints")
        for result in run["results"]:
            need(rules[result["ruleIndex"]]["id"] == result["ruleId"], f"{result['ruleId']}: another rule has its index")
            need(rules[result["ruleIndex"]]["defaultConfiguration"]["level"] == result["level"], f"{result['ruleId']}: the level of its rule")
            need(len(result["locations"]) == 1, f"{result['ruleId']}: one location")
            check_sentence(result["message"]["text"], result["ruleId"])
        failed = any(result["level"] == "error" for result in run["results"])
        need([it["exitCode"] for it in run["invocations"]] == [1 if failed else 0], "the exit code")
        origins = [it for result in run["results"] for it in result["relatedLocations"] if is_origin(it)]
        for it in origins:
            check_origin(it)
        of_origins = [it["physicalLocation"][name] for it in origins for name in ("artifactLocation", "region")]
        for name in ("artifactLocation", "stdin"):
            for location in parts(run, name):
                if not any(location is it for it in of_origins):
                    check_artifact(location, run)
        need(bool(list(parts(run, "stdin"))) == bool(run["artifacts"]), "standard input is told once")
        for name in ("region", "deletedRegion"):
            for region in parts(run, name):
                if not any(region is it for it in of_origins):
                    need(region["startColumn"] <= region["endColumn"], "columns in order")
        for name in ("message", "description", "help", "shortDescription"):
            for message in parts(run, name):
                check_sentence(message["text"], name)


def once(pairs):
    """A JSON object in which no key comes twice."""
    need(len({key for key, _ in pairs}) == len(pairs), "a key twice")
    return dict(pairs)


def read(text):
    """The log that a text is; ValueError where something is wrong with it."""
    need(text.endswith(b"\n") and text.count(b"\n") == 1, "one line")
    log = json.loads(text.decode("utf-8"), object_pairs_hook=once)
    check(log, LOG, "log")
    check_words(log)
    return log


def main():
    for name in sys.argv[1:] or ["-"]:
        text = sys.stdin.buffer.read() if name == "-" else open(name, "rb").read()
        log = read(text)
        print(f"{name}: {len(log['runs'][0]['results'])} results")


if __name__ == "__main__":
    main()
