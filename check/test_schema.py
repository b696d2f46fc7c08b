#!/usr/bin/env python3
"""Holds what `shensteps --json` writes to docs/listing.schema.json: of each example with a trace, with all that can be asked for.

usage: test_schema.py

A schema is looked at as far as that file uses the words of JSON Schema; a word that is not known here is a fault.
"""
import collections
import json
import os
import pathlib
import re
import sys

sys.dont_write_bytecode = True
from listed import objects  # pylint: disable=wrong-import-position

TOP = pathlib.Path(__file__).resolve().parent.parent
SCHEMA = json.loads((TOP / "docs" / "listing.schema.json").read_text())
TYPES = {"object": dict, "array": list, "string": str, "integer": int, "boolean": bool, "null": type(None)}
KNOWN = {"$schema", "title", "$defs", "$ref", "oneOf", "anyOf", "type", "properties", "required", "additionalProperties", "items", "enum", "const", "pattern", "minimum"}
WORDS = ["--pauses", "changed", "--heap"]
# An example of which the heap is shown behind each event that changes it, and what no event names.
CHANGES = "first.trace"
NONE = ["--word", "nothing of this name", "--heap-at", "4000000000"]
# An example in which a pause finishes a cycle, each event of which is looked at.
FULL = "finished.trace"
# A schedule that cannot go on: the control waits for a thread that is inside.
STUCK = "shen 1\nheap 4 64 0\nthreads 2 0\n1 gc\n2 copy 1 0\n! 2@RS 1=1 3@PL\n"


def has_type(value, name):
    """Whether a value is of a type; true and false are no numbers."""
    return isinstance(value, TYPES[name]) and (name == "boolean" or not isinstance(value, bool))


def fits(value, schema):
    """Whether a value is as a schema says."""
    if set(schema) - KNOWN:
        raise ValueError(f"the schema has words that this test does not know: {set(schema) - KNOWN}")
    if "$ref" in schema:
        return fits(value, SCHEMA["$defs"][schema["$ref"].split("/")[-1]])
    if "oneOf" in schema:
        return sum(fits(value, it) for it in schema["oneOf"]) == 1
    if "anyOf" in schema:
        return any(fits(value, it) for it in schema["anyOf"])
    if "enum" in schema or "const" in schema:
        return value in schema.get("enum", [schema.get("const")])
    if not has_type(value, schema["type"]):
        return False
    if schema["type"] == "object":
        known = schema["properties"]
        return set(schema["required"]) <= set(value) <= set(known) and all(fits(it, known[key]) for key, it in value.items())
    if schema["type"] == "array":
        return all(fits(it, schema["items"]) for it in value)
    if schema["type"] == "string":
        return re.search(schema.get("pattern", ""), value) is not None
    return value >= schema.get("minimum", value) if schema["type"] == "integer" else True


def main():
    failed, kinds = False, collections.Counter()
    traces = {path.name: path.read_text() for path in sorted((TOP / "examples").glob("*.trace")) if path.read_text().startswith("shen ") and "\nanswer\n" not in path.read_text()}
    for name, text in {**traces, "a schedule that cannot go on": STUCK}.items():
        further = {FULL: [["--pauses", "full"]], CHANGES: [["--heap", "changed"], NONE]}.get(name, [])
        for words in [WORDS, *further]:
            for number, it in enumerate(objects(text, *words)[1], 1):
                kinds[it.get("kind")] += 1
                if not fits(it, SCHEMA):
                    failed = True
                    print(f"{name}: object {number} is not as the schema says: {json.dumps(it)[:300]}")
                    break
    missing = {it["$ref"].split("/")[-1] for it in SCHEMA["oneOf"]} - set(kinds)
    if missing:
        failed = True
        print(f"no listing has these kinds: {sorted(missing)}")
    print(f"{sum(kinds.values())} objects of {len(traces)} examples were held to the schema")
    return failed


if __name__ == "__main__":
    os.chdir(TOP)
    sys.exit(main())
