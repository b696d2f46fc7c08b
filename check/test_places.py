#!/usr/bin/env python3
"""Holds the table "The places of each command" of docs/STEP_TABLE.md to the proved program.

usage: test_places.py

Each command of the table is run, and stopped before each of its steps: it must stand at the place that the table names there.
"""
import os
import re
import subprocess
import sys

TOP = os.path.dirname(os.path.dirname(os.path.abspath(__file__)))
PLACES = [os.path.join(TOP, "crates", "shenrun", "out", "shenrun"), os.path.join(TOP, "out", "shenrun")]
PROGRAM = next((it for it in PLACES if os.access(it, os.X_OK)), None)

# For each row of the table: the commands before the one that it is of, and that command; the heap, where it is not one of eight
# regions without a reserve. PAUSE among the commands before stands for the pause that a `gc` has asked for; objects are marked then.
# Behind the second one they are evacuated: an object of four words, which field 0 of the hub names, lies in the collection set.
PAUSE = "pause"
MARKING = ["set 0 0 0", "gc", PAUSE]
FULL = [*MARKING, *["set 0 0 0"] * 8]
EVACUATING = ["new 1 0 1", "set 0 0 1", *["new 2 16 16"] * 2, "drop 1", "drop 2", "gc", PAUSE, PAUSE]
COPIED = [*EVACUATING, "get 1 0 0"]
NO_ROOM = [*EVACUATING, "new 2 16 16", "new 2 16 7"]
WORDS = 4
RUNS = {
    ("`new`", "no region is shared"): ([], "new 1 1 2"),
    ("`new`", "its buffer has room"): (["new 1 0 0"], "new 2 2 1"),
    ("`new`", "its buffer, if any, has no free words; the shared region has room"): (
        ["new 1 16 16", "new 1 16 10"],
        "new 2 2 1",
        "8 128 0",
    ),
    ("`new`", "its buffer has too few; the shared region has room"): (["new 1 16 16"], "new 2 16 16", "8 128 0"),
    ("`new`", "its buffer has too few, and the shared region too little room"): (["new 1 16 16"], "new 2 16 16"),
    ("`new`", "a pause makes the object; no region is shared"): ([], "new 1 16 16", "8 64 7"),
    ("`new`", "a pause makes the object; the shared region has too little room"): (
        ["new 1 16 16"] * 3,
        "new 1 16 16",
        "4 64 0",
    ),
    ("`new`", "the answer is `full`; no region is shared"): (
        [f"new {root} 16 16" for root in (1, 2, 3, 4)],
        "new 5 16 16",
        "4 64 0",
    ),
    ("`new`", "the answer is `full`; the shared region has too little room"): (
        [f"new {root} 16 16" for root in (1, 1, 1, 2, 3, 4)],
        "new 5 16 16",
        "4 64 0",
    ),
    ("`get`", "an object"): (["set 0 0 0"], "get 1 0 0"),
    ("`get`", "null"): ([], "get 1 0 0"),
    ("`get`", "an object of the set, copied before"): (COPIED, "get 1 0 0"),
    ("`get`", "of the set, and the thread copies it into its buffer"): (EVACUATING, "get 1 0 0"),
    ("`get`", "of the set, and there is no room for it"): (NO_ROOM, "get 1 0 0", "4 64 0"),
    ("`get`", "of the set, and there was no room for another"): ([*NO_ROOM, "get 1 0 0"], "get 1 0 0", "4 64 0"),
    ("`set`", ""): ([], "set 0 0 1"),
    ("`set`", "marking; null"): (MARKING, "set 0 1 0"),
    ("`set`", "marking; an object"): (MARKING, "set 0 0 1"),
    ("`set`", "marking; an object, and the buffer is full"): (FULL, "set 0 0 1"),
    ("`cas`", "`yes`"): ([], "cas 0 0 1 0"),
    ("`cas`", "`yes`; marking; an object"): (MARKING, "cas 0 0 0 1"),
    ("`cas`", "`yes`; marking; an object, and the buffer is full"): (FULL, "cas 0 0 0 1"),
    ("`cas`", "`yes`; an object of the set, copied before"): (COPIED, "cas 0 0 1 2"),
    ("`cas`", "`no`"): ([], "cas 0 0 0 0"),
    ("`cas`", "`no`; an object of the set, copied before"): (COPIED, "cas 0 0 2 1"),
    ("`xchg`", "an object"): (["set 0 0 0"], "xchg 1 0 0 0"),
    ("`xchg`", "marking; an object"): (MARKING, "xchg 1 0 0 1"),
    ("`xchg`", "marking; an object, and the buffer is full"): (FULL, "xchg 1 0 0 1"),
    ("`xchg`", "an object of the set, copied before"): (COPIED, "xchg 1 0 0 2"),
    ("`xchg`", "null"): ([], "xchg 1 0 0 0"),
    ("`rd`", ""): (["new 1 0 1"], "rd 1 0"),
    ("`wr`", ""): (["new 1 0 1"], "wr 1 0 7"),
    ("`copy`", ""): ([], "copy 1 0"),
    ("`drop`", ""): ([], "drop 1"),
    ("`same`", ""): ([], "same 0 1"),
    ("`gc`", ""): ([], "gc"),
    ("`pin`", ""): ([], "pin 0 0"),
    ("`unpin`", ""): (["pin 0 0"], "unpin 0"),
    ("`bad` of `pin`", "the slot is taken"): (["pin 0 0"], "pin 0 0"),
    ("`bad` of `unpin`", "the slot is empty"): ([], "unpin 0"),
    ("`bad` of any", "the object's root is null"): ([], "cas 1 0 0 0"),
    ("`bad` of `get`, `rd`, `wr`", "no such field or number"): ([], "rd 0 0"),
    ("`bad` of `set`, `xchg`", "the same"): ([], "set 0 16 0"),
    ("`bad` of `cas`", "the same"): ([], "cas 0 16 0 0"),
}


def rows():
    """The rows of the table: command, where, places and steps, as they are written."""
    with open(os.path.join(TOP, "docs", "STEP_TABLE.md"), encoding="utf-8") as file:
        text = file.read()
    part = text[text.index("## The places of each command") :].split("\n## ")[0]
    for line in part.splitlines():
        cells = [cell.strip() for cell in line.strip("|").split("|")]
        if line.startswith("| `"):
            yield cells


def replies(before):
    """The items that make these commands and pauses."""
    items, made = [], 0
    for it in before:
        made += it != PAUSE
        items.append("3@P3 3@I0" if it == PAUSE else f"1={made}")
    return items


def stands_at(before, command, heap, codes, number):
    """Whether the command, before its step of that number, stands at its place: then `n@code` makes no step."""
    made = [f"1:{number - 1}", f"1@{codes[number - 1]}"]
    if "WP" not in codes:
        return stops_before_store(before, command, heap, [*made, f"1:{len(codes) - number + 1}"])
    waits = codes.index("WP")
    if number <= waits:
        return holds_the_pause(before, command, heap, [*made, f"1:{waits - number}"])
    made = [f"1:{waits}", "3@P3", "3@I0", f"1:{number - 1 - waits}", *made[1:], f"1:{len(codes) - number + 1}"]
    return stops_before_store(before, command, heap, made)


def stops_before_store(before, command, heap, steps):
    """Whether these steps are exactly those of the command: then the next seven, or eight while objects are marked, leave a `set`
    before its store, and a second thread finds nothing stored."""
    more = "1:8" if before.count(PAUSE) == 1 else "1:7"
    answer = answer_to(heap, [*before, command, "set 0 15 0"], "get 1 0 15", [*replies(before), *steps, more, "2=1"])
    return b"\n2 -\n" in answer


def holds_the_pause(before, command, heap, steps):
    """Whether these steps leave the command at WO, before it steps out: then the control cannot make the pause that it wants, and
    holds a second thread outside."""
    items = [*replies(before), *steps, "3:2000", "2:9", f"1={len([it for it in before if it != PAUSE]) + 2}"]
    return b"\n1 -\n2 ok\n" in answer_to(heap, [*before, command, "get 9 0 14"], "set 0 14 0", items)


def answer_to(heap, first, second, items):
    lines = [f"1 {it}" for it in first if it != PAUSE] + [f"2 {second}", "! " + " ".join(it for it in items if it != "1:0")]
    version = 2 if "pin" in " ".join(lines) else 1
    trace = "\n".join([f"shen {version}", f"heap {heap}", "threads 2 0", *lines, ""])
    return subprocess.run([PROGRAM, "replay", "--steps", "100000"], input=trace.encode(), stdout=subprocess.PIPE).stdout


def main():
    if not PROGRAM:
        print("test_places.py: there is no proved program yet: rt ci makes it", file=sys.stderr)
        return 2
    failed, seen = 0, set()
    for command, where, places, steps in rows():
        seen.add((command, where))
        if (command, where) not in RUNS:
            print(f"no run for the row {command}, {where}")
            failed += 1
            continue
        before, line, heap = (*RUNS[command, where], "8 64 0")[:3]
        numbers = line.split()[2:]
        words = 3 + sum(map(int, numbers)) if line.startswith("new") else 0
        codes = f"E1 E2 PH CS {places} LV".replace(", IW for each word,", " IW" * words).replace(", BL GO for each entry,", " BL GO" * 8)
        codes = codes.replace(", CL CP for each word but the first,", " CL CP" * (WORDS - 1)).split()
        terms = {"words": WORDS, **dict(zip(("refs", "nums"), map(int, numbers)))}
        wanted = sum(int(it) if it.isdigit() else terms[it] for it in re.findall(r"\w+", steps))
        if len(codes) != wanted:
            print(f"{line}: {len(codes)} places, and {wanted} steps")
            failed += 1
        for number, code in enumerate(codes, 1):
            if not stands_at(before, line, heap, codes, number):
                print(f"{line}: step {number} is not at {code}")
                failed += 1
    for row in RUNS.keys() - seen:
        print(f"no row for {', '.join(row)}")
        failed += 1
    if not failed:
        print(f"{len(seen)} rows of places are as the program has them")
    return 1 if failed else 0


sys.exit(main())
