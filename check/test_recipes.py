#!/usr/bin/env python3
"""Runs each recipe of docs/LISTINGS.md, and each item of it that never ends, and looks whether the heap is where the page says.

usage: test_recipes.py

A row has what the page has, the scripts of the threads and the schedule, and what holds behind the schedule: the phase, the collection
set, where machines stand, or which machine an item that never ends waits for. No answer was taken from the program.
"""
import sys

sys.dont_write_bytecode = True
from listed import objects  # pylint: disable=wrong-import-position

ONE = ["new 1 0 1", "set 0 0 1", "new 2 16 16", "new 2 16 16", "drop 1", "drop 2", "gc"]
CROWDED = [*ONE[:4], "new 2 16 7", *ONE[4:], "get 1 0 0"]
LAST = ["new 1 16 16", "new 1 16 7"]
LARGE = ["new 1 16 16"] * 4
ROUND = {"goes_round": True}
# What the page says, the words of a region are 64: the heap's regions, the scripts, the schedule, and what is there then.
RECIPES = [
    ("marking", 8, [["new 1 1 1", "gc"]], "1=2 2@MC", {"phase": 1, "stands": {2: "MC"}}),
    ("one object in the set", 8, [ONE], "1=7 2@EC", {"phase": 2, "set": [1], "objects": {1: [("1.1", 4), ("1.2", 35)]}}),
    ("evacuation", 8, [ONE], "1=7 2@EC", {"phase": 2, "stands": {2: "EC"}}),
    ("a copy that is not published yet", 8, [ONE], "1=7 2@EC 2@HX", {"phase": 2, "stands": {2: "HX"}, "copies": {}}),
    ("updating", 8, [ONE], "1=7 2@UC", {"phase": 3, "stands": {2: "UC"}}),
    ("a copier without room", 4, [CROWDED, LAST], "1=8 3@EC 2=2 1@XW", {"phase": 2, "stands": {1: "XW", 3: "EC"}}),
    ("an allocation that waits", 4, [LARGE], "1=3 1@WP", {"phase": 0, "stands": {1: "WP"}}),
    ("a thread inside", 4, [["gc"], ["copy 1 0"]], "2@RS 1=1 3@P2", {"phase": 0, "stands": {2: "RS", 3: "P2"}}),
    ("PL, a thread inside", 4, [["gc"], ["copy 1 0"]], "2@RS 1=1 3@PL", {"stuck": {"item": 3, "at": "P2", "waits_for": 2}}),
    ("EC, nothing is chosen", 8, [["new 1 1 1", "gc"]], "1=2 2@EC", {"stuck": {"item": 2, **ROUND}}),
    ("MC, nobody has asked", 8, [["new 1 1 1"]], "2@MC", {"stuck": {"item": 1, **ROUND}}),
    ("HX, copied already", 8, [[*ONE, "get 1 0 0"]], "1=7 2@EC 2@HX 2:1 1@HX", {"phase": 2, "ended": [1]}),
    ("a pause that waits", 4, [["gc", "gc"], ["copy 1 0"]], "2@RS 1=1 3@P2 1=2", {"stuck": {"item": 4, "at": "E4", "waits_for": 2}}),
]


def places(listing, behind):
    """Where each machine stands behind the schedule: at the place of its next event, if it has one."""
    found = {}
    for it in listing[behind:]:
        if it["kind"] == "event":
            found.setdefault(it["machine"], it["at"])
    return found


def wrong(row):
    """What is another thing than the page says."""
    _, regions, scripts, schedule, wanted = row
    lines = [f"{thread} {command}" for thread, script in enumerate(scripts, 1) for command in script]
    text = "\n".join(["shen 1", f"heap {regions} 64 0", f"threads {len(scripts)} 0", *lines, f"! {schedule}"]) + "\n"
    listing = objects(text, "--heap", "--pauses", "full")[1]
    stuck = next((it for it in listing if it["kind"] == "stuck"), None)
    if stuck or "stuck" in wanted:
        return not stuck or any(stuck.get(key) != value for key, value in wanted.get("stuck", {"item": 0}).items())
    behind = next(at for at, it in enumerate(listing) if it["kind"] == "rounds")
    heap, there = next(it for it in reversed(listing[:behind]) if it["kind"] == "heap"), places(listing, behind)
    objects_of = {it["region"]: [(each["object"], each["words"]) for each in it["objects"]] for it in heap["regions"]}
    copies = {each["object"] for it in heap["regions"] for each in it["objects"] if "copy" in each}
    return (
        heap["phase"] != wanted["phase"]
        or heap["set"] != wanted.get("set", heap["set"])
        or any(there.get(machine) != place for machine, place in wanted.get("stands", {}).items())
        or any(objects_of[region] != them for region, them in wanted.get("objects", {}).items())
        or ("copies" in wanted and copies != set(wanted["copies"]))
        or any(machine in there for machine in wanted.get("ended", []))
    )


def main():
    failed = [row[0] for row in RECIPES if wrong(row)]
    for name in failed:
        print(f"the recipe is another one: {name}")
    print(f"{len(RECIPES) - len(failed)} recipes of docs/LISTINGS.md are as they are told")
    return bool(failed)


if __name__ == "__main__":
    sys.exit(main())
