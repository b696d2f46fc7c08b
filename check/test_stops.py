#!/usr/bin/env python3
"""Stops one machine of a race at each of its places in turn, and holds the answers to those worked out by hand.

usage: test_stops.py

Two threads that copy one object; a thread that finds no room beside one that copies; a control whose threads end in a cycle. The answer
is the same wherever the machine is stopped.
"""
import sys

sys.dont_write_bytecode = True
from cases import Case, program, replay  # pylint: disable=wrong-import-position

STEPS = 1000000
SETTING = "new 1 0 1 -> 1.1; set 0 0 1 -> ok; new 2 16 16 -> 1.2; new 2 16 16 -> 1.3"
DROPS = "drop 1 -> ok; drop 2 -> ok; gc -> ok"
TABLES = [
    (
        "HL XL XC SL TC TS CL CP HI HX XS NM RS LV",
        f"""# two threads copy
heap 8 64 0, threads 2 0, 1 steps, 1 pauses
1: {SETTING}; {DROPS}; get 1 0 0 -> 1.1; rd 1 0 -> 77
2: get 1 0 0 -> 1.1; wr 1 0 77 -> ok
! 1=7 3@EC 1@CODE 2=2 1=9
object 0.1 1.1 -*15 /
object 1.1 / 77
roots 1 0.1 1.1 -*14
roots 2 0.1 1.1 -*14""",
    ),
    (
        "CL CP HI HX",
        f"""# no room beside a copier
heap 4 64 0, threads 2 0, 1 steps, 1 pauses
1: {SETTING}; new 2 16 7 -> 1.4; {DROPS}; get 1 0 0 -> 1.1; rd 1 0 -> 9
2: get 1 0 0 -> 1.1; wr 1 0 9 -> ok
! 1=8 3@EC 2@CODE 1@XW 1:3 2=2 1=10
object 0.1 1.1 -*15 /
object 1.1 / 9
roots 1 0.1 1.1 -*14
roots 2 0.1 1.1 -*14""",
    ),
    (
        "MC EC ES XS UC UX",
        f"""# a thread ends in a cycle
heap 8 64 0, threads 1 0, 1 steps, 1 pauses
1: new 1 0 1 -> 1.1; wr 1 0 6 -> ok; set 0 0 1 -> ok; new 2 16 16 -> 1.2; new 2 16 16 -> 1.3; {DROPS}
! 1=8 2@CODE
object 0.1 1.1 -*15 /
object 1.1 / 6
roots 1 0.1 -*15""",
    ),
]


def main():
    if not program("shenrun"):
        print("test_stops.py: there is no proved program yet: rt ci makes it", file=sys.stderr)
        return 2
    number, failed = 0, 0
    for codes, text in TABLES:
        for code in codes.split():
            case = Case(text.replace("CODE", code))
            answer = replay(case.trace, STEPS)
            number += 1
            if answer != (0, case.answer):
                print(f"{case.title}, stopped at {code}: another answer, {answer}")
                failed += 1
    if not failed:
        print(f"{number} stops of one machine have the answers worked out by hand")
    return 1 if failed else 0


sys.exit(main())
