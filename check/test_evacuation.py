#!/usr/bin/env python3
"""Holds evacuation beside the mutators to the proved programs.

usage: test_evacuation.py

In the tables here several machines find one object in the collection set, and each is stopped at each of its places: two threads;
two that have tried and a third; a thread and a helper; and three threads in a heap without room for all their copies. What each
table says of the words between the items, and how many steps each trace takes, is what copiers.py finds by the rules. Behind them comes evacuation.txt, with a line behind `=`
for what holds after the items above it, and one behind `end:` for what holds when all machines are idle: the places of machines,
and words of the heap, as following.py follows them. `copiers` is how many are counted, and whether one is out of room, `header`
the header of the object that the collection set has. The rules also say how many steps and pauses each trace takes. No answer was
taken from the programs.
"""
import sys

sys.dont_write_bytecode = True
from cases import Case, cases, count_failures, program  # pylint: disable=wrong-import-position
from copiers import Copier, Set  # pylint: disable=wrong-import-position
from following import fails, regions  # pylint: disable=wrong-import-position

# The places of one who copies and has no buffer yet, in their order, where the shared region is full.
# (Who stands at one of these has found no shared region with room: not where another is about to carve in one.)
NONE_SHARED = ("TF", "TG", "TV")
COPYING = ("HL", "XL", "XC", "SL", "TC", "TR", "TT", "TF", "TG", "TV", "TX", "TS", "CL", "CP", "HI", "HX")
# Those of one whose buffer has room.
AT_HOME = ("HL", "XL", "XC", "SL", "TC", "TS", "CL", "CP", "HI", "HX")
# And those of one who finds no room.
WITHOUT = ("HL", "XL", "XC", "SL", "TC", "TR", "TT", "TF", "OL", "OX")
# The words of a copy: header, shape, name and one number.
WORDS = 4
# Region 2 is shared, as a word, and full, and so is region 1 in front of it.
SHARED, TOPS = 3, {1: 64, 2: 64}


def told(heap, of, *machines):
    """What a table tells of the words: the copiers, the header of the object, the shared region, the free ones and the buffers of machines."""
    header = 1 if heap.header is None else 4 * heap.header + 3
    copiers = f"copiers {heap.copiers}{' out of room' if heap.out else ''}"
    rooms = [copier.room(number) for number, copier in machines]
    tops = [f"top {it}: {heap.tops.get(it, 0)}" for it in (3, 4)]
    return "; ".join([copiers, f"header {of}: {header}", f"shared {heap.shared - 1}", f"free {regions(map(str, heap.free))}", *tops, *rooms])


# Two threads. The object has region 1 to itself but for garbage; region 2 is the third thread's, which has made both. The second
# thread goes to its place first.
RACE = """# the first of two copiers at {first}, the second at {second}
heap 8 64 0, threads 3 0, {steps} steps, 2 pauses
1: get 1 0 0 -> 3.1; wr 1 0 7 -> ok
2: get 1 0 0 -> 3.1; rd 1 0 -> 7
3: new 1 0 1 -> 3.1; wr 1 0 6 -> ok; set 0 0 1 -> ok; new 2 16 16 -> 3.2; new 2 16 16 -> 3.3; drop 1 -> ok; drop 2 -> ok; gc -> ok
! 3=8 4@EC
= phase 2; set {{1}}; claim 0; free {{3 4 5 6 7}}; top 1: 64; top 2: 64; room 3: 2+35 to 64; shared 2
! 2@{second} 1@{first}
= 1 at {first}; 2 at {second}; {stopped}
! 1@LV
= {one_done}
! 2@LV
= 2 at LV; {both_done}
! 1@ML 2@ML
object 0.1 3.1 -*15 /
object 3.1 / 7
roots 1 0.1 3.1 -*14
roots 2 0.1 3.1 -*14
roots 3 0.1 -*15"""
# The steps of such a trace besides those from HL to XS.
RACE_STEPS = 2904


def races():
    """Two copiers: the first goes on alone, and wins; the second finds that at HL, or loses."""
    for second in COPYING:
        for first in (*COPYING, "XS"):
            if second == "TX" and first in NONE_SHARED:
                continue
            heap = Set(SHARED, {3, 4, 5, 6, 7}, TOPS)
            one, two = Copier(heap, WORDS), Copier(heap, WORDS)
            two.to(second)
            one.to(first)
            stopped = told(heap, "3.1", (1, one), (2, two))
            one.to(None)
            one_done = told(heap, "3.1", (1, one))
            two.to(None)
            yield Case(
                RACE.format(
                    first=first,
                    second=second,
                    steps=RACE_STEPS + one.steps + two.steps,
                    stopped=stopped,
                    one_done=one_done,
                    both_done=told(heap, "3.1", (1, one), (2, two)),
                )
            )


# Three threads. The first has lost, and is to give its room back; the second has won, and is still counted.
THREE = """# three copiers: one that has lost at GB, one that has won at XS, and the third at {third}
heap 8 64 0, threads 4 0, {steps} steps, 2 pauses
1: get 1 0 0 -> 4.1; wr 1 0 7 -> ok
2: get 1 0 0 -> 4.1; rd 1 0 -> 7
3: get 1 0 0 -> 4.1; rd 1 0 -> 7
4: new 1 0 1 -> 4.1; wr 1 0 6 -> ok; set 0 0 1 -> ok; new 2 16 16 -> 4.2; new 2 16 16 -> 4.3; drop 1 -> ok; drop 2 -> ok; gc -> ok
! 4=8 5@EC 3@{third} 1@HX 2@HX
= 3 at {third}; {stopped}
! 2@XS 1@GB
= 1 at GB; 2 at XS; {tried}
! 1@XS
= {given_back}
! 3@LV
= {third_done}
! 1@LV
= copiers 1
! 2@LV
= {all_done}
! 1@ML 2@ML 3@ML
object 0.1 4.1 -*15 /
object 4.1 / 7
roots 1 0.1 4.1 -*14
roots 2 0.1 4.1 -*14
roots 3 0.1 4.1 -*14
roots 4 0.1 -*15"""
THREE_STEPS = 3053


def threes():
    """Two copiers that have tried, and a third one."""
    for third in COPYING:
        heap = Set(SHARED, {3, 4, 5, 6, 7}, TOPS)
        one, two, three = (Copier(heap, WORDS) for _ in range(3))
        every, texts = ((1, one), (2, two), (3, three)), {}
        for text, stops in (
            ("stopped", ((three, third), (one, "HX"), (two, "HX"))),
            ("tried", ((two, "XS"), (one, "GB"))),
            ("given_back", ((one, "XS"),)),
            ("third_done", ((three, None),)),
            ("all_done", ((one, None), (two, None))),
        ):
            for machine, place in stops:
                machine.to(place)
            texts[text] = told(heap, "4.1", *every)
        yield Case(THREE.format(third=third, steps=THREE_STEPS + one.steps + two.steps + three.steps, **texts))


# A helper evacuates the region while a thread loads from the field. The thread goes to its place first. Machine 3 is the helper.
BESIDE = """# a thread at {thread} and a helper at {helper}; {who} goes on first, and wins
heap 8 64 0, threads 2 1, {steps} steps, 2 pauses
1: get 1 0 0 -> 2.1; wr 1 0 7 -> ok
2: new 1 0 1 -> 2.1; wr 1 0 6 -> ok; set 0 0 1 -> ok; new 2 16 16 -> 2.2; new 2 16 16 -> 2.3; drop 1 -> ok; drop 2 -> ok; gc -> ok
! 2=8 4@EC 1@{thread} 3@{helper}
= 1 at {thread}; 3 at {helper}; claim 2; {stopped}
! {first}
= {one_done}
! {then}
= 1 at LV; 3 at H0; claim 2; {both_done}
! 1@ML
object 0.1 2.1 -*15 /
object 2.1 / 7
roots 1 0.1 2.1 -*14
roots 2 0.1 -*15"""
# The steps in front of the object in its unit, and those of such a trace besides these and those from HL to XS.
IN_FRONT = ("ET", "EF", "ES", "EB")
BESIDE_STEPS = 2790


def beside():
    """A thread and a helper at one object: who goes on first wins."""
    for at_helper in (*IN_FRONT, *COPYING):
        for at_thread in COPYING:
            if at_thread == "TX" and at_helper in NONE_SHARED:
                continue
            for who in ("the thread", "the helper"):
                heap = Set(SHARED, {3, 4, 5, 6, 7}, TOPS)
                thread, helper = Copier(heap, WORDS), Copier(heap, WORDS, before=IN_FRONT)
                thread.to(at_thread)
                helper.to(at_helper)
                stopped = told(heap, "2.1", (1, thread), (3, helper))
                turns = [(helper, "3@H0"), (thread, "1@LV")] if who == "the helper" else [(thread, "1@LV"), (helper, "3@H0")]
                turns[0][0].to(None)
                one_done = told(heap, "2.1", (1, thread), (3, helper))
                turns[1][0].to(None)
                yield Case(
                    BESIDE.format(
                        thread=at_thread,
                        helper=at_helper,
                        who=who,
                        steps=BESIDE_STEPS + thread.steps + helper.steps,
                        stopped=stopped,
                        first=turns[0][1],
                        one_done=one_done,
                        then=turns[1][1],
                        both_done=told(heap, "2.1", (1, thread), (3, helper)),
                    )
                )


# Three threads, of which only the second has room, in the last region. The first sets the bit, and waits while one is counted.
CROWD = """# without room the first sets the bit: the second, who has room, at {at_second}, and the third, who has none, at {at_third}
heap 4 64 0, threads 4 0, {steps} steps, 2 pauses
1: get 1 0 0 -> 4.1; wr 1 0 7 -> ok
2: new 2 0 0 -> 2.1; get 1 0 0 -> 4.1; rd 1 0 -> 7
3: get 1 0 0 -> 4.1; rd 1 0 -> 7
4: new 1 0 1 -> 4.1; wr 1 0 6 -> ok; set 0 0 1 -> ok; new 2 16 16 -> 4.2; new 2 16 16 -> 4.3; drop 1 -> ok; drop 2 -> ok; gc -> ok
! 4=8 5@EC 2=1
= set {{1}}; free {{}}; top 2: 64; room 2: 3+3 to 64; shared 3; copiers 0
! 2@{at_second} 3@{at_third}
= 2 at {at_second}; 3 at {at_third}; {stopped}
! 1@XW
= 1 at XW; {out}
{waits}= 1 at LV; 2 at LV; 3 at LV; copiers 0 out of room
! 1@ML 2@ML 3@ML
object 0.1 4.1 -*15 /
object 2.1 /
object 4.1 / 7
roots 1 0.1 4.1 -*14
roots 2 0.1 4.1 2.1 -*13
roots 3 0.1 4.1 -*14
roots 4 0.1 -*15"""
CROWD_STEPS = 1943
# While the second is counted, all others wait, also one who has not entered; then all have its copy.
WAITS = """! 3@{at} 3:3 1:3
= 1 at XW; 3 at {at}; {waiting}
! 2@LV
= {won}
! 1@LV 3@LV
"""
# If nobody is, the old copy is the only one, for good, and no copy is begun.
QUIET = """! 3@LV 1@LV 2@LV
= {quiet}
"""


def crowds():
    """A thread without room, one that has room, and a third one without."""
    for at_second in AT_HOME:
        for at_third in WITHOUT:
            heap = Set(4, (), {**TOPS, 3: 64})
            base = heap.base(3)
            first, second, third = Copier(heap, WORDS), Copier(heap, WORDS, (base + 3, base + 64)), Copier(heap, WORDS)
            second.to(at_second)
            third.to(at_third)
            stopped = told(heap, "4.1", (2, second))
            first.to("XW")
            out = told(heap, "4.1", (2, second))
            if second.is_counted:
                at = "XL" if at_third in ("HL", "XL", "XC") else "XW"
                third.to(at)
                third.wait(3)
                first.wait(3)
                waiting = told(heap, "4.1", (2, second))
                second.to(None)
                waits = WAITS.format(at=at, waiting=waiting, won=told(heap, "4.1", (2, second)))
                first.to(None)
                third.to(None)
            else:
                for machine in (third, first, second):
                    machine.to(None)
                waits = QUIET.format(quiet=told(heap, "4.1", (2, second)))
            yield Case(
                CROWD.format(
                    at_second=at_second,
                    at_third=at_third,
                    steps=CROWD_STEPS + first.steps + second.steps + third.steps,
                    stopped=stopped,
                    out=out,
                    waits=waits,
                )
            )


def main():
    if not (program("shenrun") and program("shensteps")):
        print("test_evacuation.py: there are no proved programs yet: rt ci makes them", file=sys.stderr)
        return 2
    number, failed = count_failures([*races(), *threes(), *beside(), *crowds(), *cases("evacuation.txt")], fails)
    print(f"{number - failed} traces with evacuation are as the rules say, {failed} are not")
    return 1 if failed else 0


if __name__ == "__main__":
    sys.exit(main())
