#!/usr/bin/env python3
"""Holds pauses and waiting allocations to the proved program.

usage: test_pauses.py

There are two tables. In the first two threads run a race against a pause: each stands at each place of entering while the
control stands at each place of stopping. The replies and the graph are the same in all of them. The second one is
pauses.txt, with its replies and graphs. The rules say how many steps each trace takes: it is answered with so many, and
unfinished with one fewer. No answer was taken from the program.
"""
import sys

sys.dont_write_bytecode = True
from cases import Case, cases, count_failures, program  # pylint: disable=wrong-import-position

# The race. A third thread asks for two cycles; machine 4 is the control. The pause is the one that begins marking, in the rows of
# P1 the one that ends it.
RACE = """# a race of two threads against a pause
heap 4 64 0, threads 3 0
1: new 1 1 0 -> 1.1; set 0 0 1 -> ok; get 2 0 0 -> 1.1
2: new 1 1 0 -> 2.1; set 0 1 1 -> ok; get 2 0 1 -> 2.1
3: gc -> ok; gc -> ok
object 0.1 1.1 2.1 -*14 /
object 1.1 - /
object 2.1 - /
roots 1 0.1 1.1*2 -*13
roots 2 0.1 2.1*2 -*13
roots 3 0.1 -*15"""
FIRST = "1=1 2=1 3=1"
ENTERING = ("E1", "E2", "E3", "E4")

# For each place of the control: the schedule, with a gap where the two threads go to their places; and the steps of the
# trace, one row for each place of thread 1, with one number for each place of thread 2.
STOPS = {
    "P1": (
        "4@P3 {} 4@I0 3=2 4@P1 4:1",
        (5552, 5553, 5554, 5555),
        (5550, 5551, 5552, 5553),
        (5551, 5549, 5550, 5551),
        (5552, 5550, 5551, 5552),
    ),
    "P2, of the first seat": (
        "4@P2 {} 4:5",
        (3168, 3189, 3190, 3171),
        (3193, 3194, 3195, 3196),
        (3194, 3191, 3192, 3193),
        (3171, 3192, 3193, 3174),
    ),
    "P2, of the second seat": (
        "4@P2 4:1 {} 4:5",
        (3165, 3190, 3191, 3168),
        (3166, 3191, 3192, 3169),
        (3167, 3192, 3193, 3170),
        (3168, 3193, 3194, 3171),
    ),
    "PL": (
        "4@PL {} 4:5",
        (3159, 3160, 3161, 3162),
        (3160, 3161, 3162, 3163),
        (3161, 3162, 3163, 3164),
        (3162, 3163, 3164, 3165),
    ),
    "PS": (
        "4@PS {} 4:5",
        (2019, 2020, 2021, 2022),
        (2020, 2021, 2022, 2023),
        (2021, 2022, 2023, 2024),
        (2022, 2023, 2024, 2025),
    ),
    "P3": (
        "4@P3 {} 4:1",
        (889, 889, 893, 893),
        (889, 889, 893, 893),
        (892, 892, 895, 896),
        (892, 892, 895, 896),
    ),
    "I0": (
        "4@P3 {} 4@I0 4:5",
        (887, 887, 902, 891),
        (887, 887, 902, 891),
        (902, 902, 906, 906),
        (891, 891, 906, 895),
    ),
}


def races():
    """The traces of the first table."""
    for place, (stop, *rows) in STOPS.items():
        for first, row in zip(ENTERING, rows):
            for second, steps in zip(ENTERING, row):
                case = Case(RACE, f"{FIRST} {stop.format(f'1@{first} 2@{second}')}", steps)
                case.title += f": {first} and {second}, and the control at {place}"
                yield case


def main():
    if not program("shenrun"):
        print("test_pauses.py: there is no proved program yet: rt ci makes it", file=sys.stderr)
        return 2
    number, failed = count_failures([*races(), *cases("pauses.txt")], Case.fails)
    print(f"{number - failed} traces with pauses are as the rules say, {failed} are not")
    return 1 if failed else 0


sys.exit(main())
