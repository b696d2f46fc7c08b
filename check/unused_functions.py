#!/usr/bin/env python3
"""Looks for public functions that nobody calls: no code of their crate, or of one that stands on it, but for tests.

usage: unused_functions.py            prints them
       unused_functions.py --check    the same; it ends with 1 where there is one

A law, which is a function without parameters and with an empty body, has its contract as its only use, and is none of them; nor is a
call of PROMISED. A method counts as called where its name stands behind a dot or `::`, so one that shares its name with a method
that is called, in such a crate, counts as called.
"""
import os
import re
import sys

TOP = os.path.dirname(os.path.dirname(os.path.abspath(__file__)))
CRATES = os.path.join(TOP, "crates")
# Crates of tests alone: a call there is no use.
TESTS = {"text_tests", "heap_tests"}
# Calls that users of the libraries are promised, whether or not a program of this repository makes them: the graph by itself, the
# parts as machines by themselves, a trace written, or taken line by line, the calls of an image one by one, a graph placed in a heap, a
# heap that goes on from an image or a dump, or is renewed, bundles that are driven, seats that are given up together, dumps, and a test of
# interleavings, its reading, its threads and verdicts; a hint on one thread; and the verifier of images, and the sink in memory, that tests use.
PROMISED = {"apply", "reach", "is_valid", "is_done", "answer", "write_trace", "serve", "open_from", "place", "resume", "with_room",
            "stands", "renew_heap", "drive", "of", "write_dump", "read_dump", "read_test",
            "trace_text::line", "trace_text::end", "heap_seats::with", "heap_seats::end", "find_play::start",
            "find_play::next", "verdict_on", "dump_of", "shen_core::hint"}
FUNCTION = re.compile(r"^([ ]*)pub (?:const )?(?:unsafe )?fn (\w+)", re.M)


def text_of(path):
    with open(path, encoding="utf-8") as file:
        return file.read()


def blanked(text):
    """Text of a file with comments and strings blanked, of the same length."""
    return re.sub(r"//[^\n]*|\"(?:\\.|[^\"\\])*\"|'(?:\\.|[^'\\])'", lambda it: re.sub(r"[^\n]", " ", it[0]), text)


def files():
    """Of each file of a crate's sources but tests: the crate, the path from the top, and its text."""
    for crate in sorted(set(os.listdir(CRATES)) - TESTS):
        for at, _, names in sorted(os.walk(os.path.join(CRATES, crate, "src"))):
            for name in sorted(names):
                if name.endswith(".rt") and name not in ("tests.rt", "gates.rt", "faults.rt"):
                    path = os.path.join(at, name)
                    yield crate, os.path.relpath(path, TOP), blanked(text_of(path))


def users():
    """The crates that stand on each crate, itself among them."""
    rows = [row.split("#")[0].partition(":") for row in text_of(os.path.join(TOP, "crates.txt")).splitlines()]
    direct = {head.split()[0]: names.split() for head, _, names in rows if head.strip()}
    found = {name: {name} for name in direct}
    # (as often as chains are long, until nothing is added)
    while True:
        before = sum(map(len, found.values()))
        for name, names in direct.items():
            for it in found:
                if it in names or any(other in found[it] for other in names):
                    found[it].add(name)
        if before == sum(map(len, found.values())):
            return found


def is_law(text, at):
    """Whether the function at a position has no parameters and an empty body."""
    opens = text.index("(", at)
    if text[opens + 1 : text.index(")", opens)].strip():
        return False
    depth = 0
    for here in range(opens, len(text)):
        depth += text[here] == "{"
        depth -= text[here] == "}"
        # (the brackets of a clause have a further clause or the body behind them)
        if text[here] == "}" and depth == 0 and not re.match(r"\s*(?:\{|ensures|requires)", text[here + 1 :]):
            return not text[text.rindex("{", 0, here) + 1 : here].strip()
    return False


def calls(indent, name, text):
    """How often a file calls it."""
    text = re.sub(r"\buse [^;]*;|\bfn \w+", "", text)
    return len(re.findall(rf"(?:\.|::){name}\b" if indent else rf"\b{name}\b", text))


def main():
    if sys.argv[1:] not in ([], ["--check"]):
        print("usage: unused_functions.py [--check]", file=sys.stderr)
        return 2
    texts, above = list(files()), users()
    public, promised, left = 0, 0, 0
    for crate, path, text in texts:
        for found in FUNCTION.finditer(text):
            indent, name = found.groups()
            if is_law(text, found.end()):
                continue
            public += 1
            if any(calls(indent, name, other) for user, _, other in texts if user in above[crate]):
                continue
            if name in PROMISED or f"{crate}::{name}" in PROMISED:
                promised += 1
                continue
            left += 1
            print(f"{path}:{text.count(chr(10), 0, found.start(2)) + 1}: nobody calls `{name}`")
    if not left:
        print(f"each of {public} public functions is called by code, but for {promised} that users are promised")
    return 1 if left and sys.argv[1:] else 0


sys.exit(main())
