#!/usr/bin/env python3
"""Holds pinned objects to the proved program.

usage: test_pins.py

In the tables here an object of the collection set is copied by a thread or a helper, which is stopped at each of its places, and a thread
loads it and pins it there: the place is that of the copy that won, for every slot that holds it, before the cycle has ended and after it.
Where it lies is what copiers.py finds by the rules. Behind them comes pins.txt, where a table says how many steps a trace has at most. No
answer was taken from the program.
"""
import sys

sys.dont_write_bytecode = True
from cases import Case, cases, count_failures, program, replay  # pylint: disable=wrong-import-position
from copiers import Copier, Set  # pylint: disable=wrong-import-position
from test_evacuation import COPYING, IN_FRONT, SHARED, TOPS, WORDS  # pylint: disable=wrong-import-position

# The second machine is at its place in the middle of its copy while the first loads the object, pins it, and goes on; the cycle ends; and
# both pin it once more.
BY_THREAD = """# pinned while another thread copies it, which stands at {at}
heap 8 64 0, threads 3 0, 100000 steps
1: get 1 0 0 -> 3.1; pin 0 1 -> @{place}; wr 1 0 7 -> ok; pin 1 1 -> @{place}; unpin 0 -> ok; pin 0 1 -> @{place}
2: get 1 0 0 -> 3.1; pin 3 1 -> @{place}; rd 1 0 -> 7; pin 2 1 -> @{place}
3: new 1 0 1 -> 3.1; wr 1 0 6 -> ok; set 0 0 1 -> ok; new 2 16 16 -> 3.2; new 2 16 16 -> 3.3; drop 1 -> ok; drop 2 -> ok; gc -> ok
! 3=8 4@EC 2@{at} 1=3 2=3 4@I2 1=6 2=4
object 0.1 3.1 -*15 /
object 3.1 / 7
roots 1 0.1 3.1 -*14
roots 2 0.1 3.1 -*14
roots 3 0.1 -*15
pins 1 3.1 3.1 - -
pins 2 - - 3.1 3.1
pins 3 -*4"""
BY_HELPER = """# pinned while a helper copies it, which stands at {at}
heap 8 64 0, threads 2 1, 100000 steps
1: get 1 0 0 -> 2.1; pin 0 1 -> @{place}; wr 1 0 7 -> ok; pin 1 1 -> @{place}; unpin 0 -> ok; pin 0 1 -> @{place}
2: new 1 0 1 -> 2.1; wr 1 0 6 -> ok; set 0 0 1 -> ok; new 2 16 16 -> 2.2; new 2 16 16 -> 2.3; drop 1 -> ok; drop 2 -> ok; gc -> ok
! 2=8 4@EC 3@{at} 1=3 3@H0 4@I2 1=6
object 0.1 2.1 -*15 /
object 2.1 / 7
roots 1 0.1 2.1 -*14
roots 2 0.1 -*15
pins 1 2.1 2.1 - -
pins 2 -*4"""


def copied(form, before=()):
    """An object is pinned at each moment of a copy of it by another machine."""
    for at in (*before, *COPYING, "XS"):
        heap = Set(SHARED, {3, 4, 5, 6, 7}, TOPS)
        other, thread = Copier(heap, WORDS, before=before), Copier(heap, WORDS)
        other.to(at)
        thread.to(None)
        yield Case(form.format(at=at, place=heap.header))


def fails(case):
    """What is wrong with the program's answer to a trace."""
    status, written = replay(case.trace, case.steps)
    if (status, written) != (0, case.answer):
        yield f"another answer, with status {status}:\n{written.decode(errors='replace')}"


def main():
    if not program("shenrun"):
        print("test_pins.py: there is no proved program yet: rt ci makes it", file=sys.stderr)
        return 2
    number, failed = count_failures([*copied(BY_THREAD), *copied(BY_HELPER, IN_FRONT), *cases("pins.txt")], fails)
    print(f"{number - failed} traces with pins are as the rules say, {failed} are not")
    return 1 if failed else 0


if __name__ == "__main__":
    sys.exit(main())
