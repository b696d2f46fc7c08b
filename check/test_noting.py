#!/usr/bin/env python3
"""Holds ./shennote to the replay of what it writes, by the proved programs.

usage: test_noting.py

Traces of examples/ that threads may run are noted, and others that are made here: threads that change one field, and threads that make
objects on a small heap that is collected meanwhile. What is noted of each has its head, its commands, those of one thread behind those of
another, and one line of a schedule whose items are steps alone. A replay of as many steps as they name gives an answer, the usual one gives
the same, and one of a step less is unfinished: the schedule says whose turn each step is, to the end. Where all orders of the threads have
one answer, that is the answer. Runs are noted again until two of one trace had other orders in which machines took turns, so that the
threads ran at once. Words are refused, and so is what is no trace, with nothing written.
"""
import os
import re
import subprocess
import sys

sys.dont_write_bytecode = True
from cases import TOP, program, replay, unfinished  # pylint: disable=wrong-import-position

# Examples of which all runs have one answer, and the words of their tables hold no other steps.
ONE_ANSWER = ["first", "limits", "threads", "collects", "no_room", "crowded", "one_dropped"]
# Examples whose answer is another in another order.
MANY_ANSWERS = ["inserts", "ring", "race", "apart", "stack", "eight", "queue_race", "pause", "wait", "exchanged", "recycled"]
MOST_RUNS = 50


def made():
    """Traces that are made here, by their names."""
    swaps = ["shen 1", "heap 16 64 0", "threads 3 1"]
    for thread in (1, 2, 3):
        swaps += [f"{thread} new 1 0 0", f"{thread} xchg 2 0 0 1"] * 40
    lists = ["shen 1", "heap 8 64 1", "threads 2 2"]
    for thread in (1, 2):
        lists += [f"{thread} new 1 1 8", f"{thread} get 2 0 0", f"{thread} set 1 0 2", f"{thread} cas 0 0 2 1", f"{thread} drop 1"] * 20
    return {"swaps": "\n".join([*swaps, ""]).encode(), "lists": "\n".join([*lists, ""]).encode()}


def noted(trace, words=()):
    """The exit number of a run that is noted, and what it writes on both outputs."""
    ran = subprocess.run([program("shennote"), *words], input=trace, capture_output=True, check=False)
    return ran.returncode, ran.stdout, ran.stderr


def parts(trace):
    """The head of a trace, the commands of each thread, and the items of its schedule."""
    lines = trace.decode().splitlines()
    scripts = {}
    for line in lines[3:]:
        if not line.startswith("!"):
            scripts.setdefault(line.split()[0], []).append(line)
    return lines[:3], scripts, [item for line in lines[3:] if line.startswith("!") for item in line[1:].split()]


def judged(trace, answer):
    """What is wrong with what is noted of a trace, or None, and the items."""
    status, text, said = noted(trace)
    if status or said:
        return f"status {status}, and {said!r}", []
    head, scripts, items = parts(text)
    if (head, scripts) != parts(trace)[:2]:
        return "another heap or other commands", items
    if not all(re.fullmatch(r"[1-9]\d*:[1-9]\d*", item) for item in items):
        return "an item that is not of steps", items
    steps = sum(int(item.split(":")[1]) for item in items)
    told = replay(text, steps)
    if told[0] or replay(text, 100000000) != told:
        return f"{steps} steps end with status {told[0]}, or more steps otherwise", items
    if answer is not None and told[1] != answer:
        return "another answer", items
    if replay(text, steps - 1) != (4, unfinished(steps - 1)):
        return "a step too many", items
    return None, items


def main():
    """Judges all traces, and what is refused."""
    faults, seen = [], 0
    traces = dict(made())
    for name in ONE_ANSWER + MANY_ANSWERS:
        with open(os.path.join(TOP, "examples", f"{name}.trace"), "rb") as file:
            traces[name] = file.read()
    for name, trace in traces.items():
        fault, items = judged(trace, replay(trace, 100000000)[1] if name in ONE_ANSWER else None)
        seen += 1
        if fault:
            faults.append(f"{name}: {fault}")
    orders = set()
    for _ in range(MOST_RUNS):
        fault, items = judged(traces["swaps"], None)
        if fault:
            faults.append(f"swaps: {fault}")
        orders.add(" ".join(items))
        if len(orders) > 1 and max(len(order.split()) for order in orders) > 100:
            break
    else:
        faults.append(f"{MOST_RUNS} runs had no two orders, or none in which machines took turns")
    for trace, words, wanted in (
        (traces["race"], ["run"], (2, b"", b"bad words\n")),
        (b"shen 1\nheap 8 64\n", [], (3, b"", b"bad line 2: header wanted\n")),
        (b"x" * 16777217, [], (3, b"", b"too long: more than 16777216 bytes\n")),
    ):
        if noted(trace, words) != wanted:
            faults.append(f"not refused as wanted: {wanted}")
    for fault in faults:
        print(f"test_noting: {fault}")
    if not faults:
        print(f"{seen} traces were noted, and each replay has the answer of its run")
    return 1 if faults else 0


if __name__ == "__main__":
    sys.exit(main())
