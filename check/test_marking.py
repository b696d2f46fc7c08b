#!/usr/bin/env python3
"""Holds marking beside the mutators to the proved programs.

usage: test_marking.py

There are two tables. In the first a thread overwrites a field while a helper scans the object: each stands at each of its
places. The second one is marking.txt. A line behind `=` says what holds after the items above it, and one behind `end:` what
holds when all machines are idle: the places of machines, and words of the heap, as following.py follows them. `grey` and
`black` tell all objects whose bit is set, `buffer` the entries below the count; `start` is a region's top when marking began.
The rules also say how many steps and pauses each trace takes. No answer was taken from the programs.
"""
import sys

sys.dont_write_bytecode = True
from cases import Case, cases, count_failures, program  # pylint: disable=wrong-import-position
from following import fails  # pylint: disable=wrong-import-position

# The race. Object 1.2 is only in the field that is overwritten; machine 2 is the helper, and 3 the control.
RACE = """# a set against a scan: the thread at {store}, the helper at {scan}
heap 4 64 0, threads 1 1, {steps} steps, 2 pauses
1: new 1 1 0 -> 1.1; new 2 0 0 -> 1.2; set 1 0 2 -> ok; set 0 0 1 -> ok; drop 2 -> ok; gc -> ok; set 1 0 9 -> ok
! 1=6 3@MC 2@MO 2@H0 2@MC 2@{scan} 1@{store}
= 2 at {scan}; 1 at {store}; grey 0.1 1.1; buffer 1: {buffer}
! 2@LV
= grey 0.1 1.1{seen}; black 0.1 1.1{seen}; buffer 1: {buffer}
! 1@ML
= buffer 1: 1.2
! 2@H0 3@P3
= phase 0; grey 0.1 1.1 1.2; black 0.1 1.1 1.2; buffer 1: none
object 0.1 1.1 -*15 /
object 1.1 - /
roots 1 0.1 1.1 -*14"""
STORING = ("FL", "BC", "BE", "BN", "FS", "LV")
SCANNING = ("MC", "KX", "MG", "MB", "MO", "MS", "MF", "GO")
# A reference that the scan finds costs it five more steps: one to make it grey, and four to scan it.
STEPS = {True: 1425, False: 1420}


def races():
    """The traces of the first table. The helper finds the old reference unless the store comes before its load."""
    for scan in SCANNING:
        for store in STORING:
            finds = scan == "GO" or store != "LV"
            buffer = "1.2" if store in ("FS", "LV") else "none"
            yield Case(RACE.format(scan=scan, store=store, buffer=buffer, seen=" 1.2" if finds else "", steps=STEPS[finds]))


def main():
    if not (program("shenrun") and program("shensteps")):
        print("test_marking.py: there are no proved programs yet: rt ci makes them", file=sys.stderr)
        return 2
    number, failed = count_failures([*races(), *cases("marking.txt")], fails)
    print(f"{number - failed} traces with marking are as the rules say, {failed} are not")
    return 1 if failed else 0


sys.exit(main())
