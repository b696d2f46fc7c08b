#!/usr/bin/env python3
"""Writes the graph of a dump in the language DOT.

usage: pictures/dump_graph.py [FILE] > graph.dot
       pictures/dump_graph.py dump.txt | dot -Tsvg > graph.svg

The file, or the standard input, has a dump, alone or with the line `trace` and what is to run from it. Each object is a box with its
name and its numbers, each thread an oval; an edge has the number of the field or of the root that refers. Null is not drawn. Objects,
edges and lines stand in the order of the dump, so two dumps can be compared by their drawings' text.

Ends with 0; with 2 for other words; with 3 where a line is none of a dump; with 5 where the file cannot be read.
"""
import re
import sys

REFERENCE = re.compile(r"-|(0|[1-9][0-9]*)\.(0|[1-9][0-9]*)")


class NoDump(Exception):
    """The line of this number is none of a dump."""


def edges(source, words, place):
    """The edges from a node to what the words name."""
    found = []
    for field, word in enumerate(words):
        if not REFERENCE.fullmatch(word):
            raise NoDump(f"line {place}: {word!r} is no reference")
        if word != "-":
            found.append(f'  "{source}" -> "{word}" [label="{field}"];')
    return found


def node(words, place):
    """The box of an object, and its edges."""
    if "/" not in words[2:]:
        raise NoDump(f"line {place}: an object's line has a stroke")
    name, stroke = words[1], words.index("/", 2)
    numbers = words[stroke + 1:]
    if not all(number.isdigit() for number in numbers):
        raise NoDump(f"line {place}: numbers stand behind the stroke")
    label = name + ("\\n" + " ".join(numbers) if numbers else "")
    return [f'  "{name}" [label="{label}"];'] + edges(name, words[2:stroke], place)


def drawn(text):
    """The lines of a drawing of this dump."""
    lines = text.split("\n")
    if lines[0] != "dump 1":
        raise NoDump("line 1: not `dump 1`")
    found = ["digraph dump {", "  node [shape=box, fontname=monospace];"]
    for place, line in enumerate(lines[4:], 5):
        words = line.split(" ")
        if line in ("", "trace"):
            break
        if words[0] == "object" and len(words) > 2:
            found += node(words, place)
        elif words[0] == "roots" and len(words) == 18:
            found.append(f'  "thread {words[1]}" [shape=oval];')
            found += edges(f"thread {words[1]}", words[2:], place)
        else:
            raise NoDump(f"line {place}: neither an object nor roots")
    return found + ["}"]


def main():
    """Draws the dump that the words name."""
    words = sys.argv[1:]
    if len(words) > 1 or any(word.startswith("-") for word in words):
        print(__doc__, file=sys.stderr)
        return 2
    try:
        if words:
            with open(words[0], encoding="ascii") as file:
                text = file.read()
        else:
            text = sys.stdin.read()
    except (OSError, UnicodeDecodeError) as fault:
        print(f"dump_graph: {fault}", file=sys.stderr)
        return 5
    try:
        print("\n".join(drawn(text)))
    except NoDump as fault:
        print(f"dump_graph: {fault}", file=sys.stderr)
        return 3
    return 0


if __name__ == "__main__":
    sys.exit(main())
