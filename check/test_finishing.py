#!/usr/bin/env python3
"""Holds cycles that end in a pause to the proved programs.

usage: test_finishing.py

A cycle ends in a pause where an allocation waits, or a copier has found no room: the pause copies what is left in the collection set,
updates all references, frees the set and serves who waits. Where something finds no room the whole heap is collected in the same
pause. The tables here bring a waiting allocation in each phase, with all served, with one that is not, and with some that the whole
collection has to refuse; then a copier without room alone, and both. Behind them comes finishing.txt. A line behind `=` says what holds
after the items above it, and one behind `end:` what holds when all machines are idle, as following.py follows them. The rules also say
how many steps and pauses each trace takes. No answer was taken from the programs.
"""
import sys

sys.dont_write_bytecode = True
from cases import Case, cases, count_failures, program  # pylint: disable=wrong-import-position
from following import fails  # pylint: disable=wrong-import-position

# The first thread makes an object of 4 words that the hub names, and garbage, in regions 1 and 2. One region is left to copying, so that
# each thread that wants one waits; each wants 35 words.
WAITING = """# {number} allocations wait in phase {phase}, the control at {place}
heap 4 64 1, threads {threads} 0, {steps} steps, {pauses} pauses
1: new 1 0 1 -> 1.1; wr 1 0 6 -> ok; set 0 0 1 -> ok; new 2 16 16 -> 1.2; new 2 16 16 -> 1.3; new 2 16 7 -> 1.4; drop 1 -> ok; drop 2 -> ok; gc -> ok; get 1 0 0 -> 1.1; rd 1 0 -> 6
{calls}
! 1=9 {control}@{first} {control}@{place} {waits}
= phase {phase}; asked room
! {control}@P1 {control}@P3
= phase 0; set {{}}; claim 0; copiers 0; asked nothing; top 0: {tops[0]}; top 1: {tops[1]}; top 2: {tops[2]}; top 3: {tops[3]}; free {free}
! {done} 1=11
{objects}
{roots}"""
# Where the control stands when the others wait; whether it has copied the object by then, to region 3; and the steps of the trace
# beside those of the threads that wait.
STANDS = {
    "MC": (1, "MC", False, 1508),
    "MG": (1, "MC", False, 1508),
    "EC": (2, "EC", False, 2172),
    "ET": (2, "EC", True, 2206),
    "HX": (2, "EC", True, 2206),
    "UC": (3, "UC", True, 2879),
    "UX": (3, "UC", True, 2879),
}
# The words of the hub, of the object, of the garbage that is left in region 2, and of what each thread wants.
HUB, OBJECT, GARBAGE, WANTED = 19, 4, 61, 35


def tops_then(number, copied):
    """The tops behind a pause in which so many wait. The set's region, 1, is free again by then; whoever waits gets the lowest region with
    room. If the fourth finds none, the heap is packed in the order of addresses, without the garbage."""
    if number <= 3:
        at = {0: HUB if copied else HUB + OBJECT, 1: 0, 2: GARBAGE, 3: OBJECT if copied else 0}
        for region in (0, 1, 3)[:number]:
            at[region] += WANTED
        return [at[region] for region in range(4)]
    # Where the object is in region 3, two of those who were served lie before it.
    return [HUB + WANTED, WANTED + OBJECT, WANTED, WANTED] if copied else [HUB + OBJECT + WANTED, WANTED, WANTED, WANTED]


def waitings():
    """Allocations that wait in each phase: up to three are served, the fourth is once the whole heap is collected, and no more."""
    for place, (phase, first, copied, steps) in STANDS.items():
        pauses = phase + 1
        for number in range(1, 7):
            others = range(2, number + 2)
            served = [it for it in others if it < 6]
            tops = tops_then(number, copied)
            name = {it: f"{it}.1" if it in served else "-" for it in others}
            yield Case(
                WAITING.format(
                    number=number,
                    phase=phase,
                    place=place,
                    first=first,
                    threads=number + 1,
                    control=number + 2,
                    pauses=pauses,
                    # Of each thread a pause loads and stores 32 words and looks at one; its call and its end are 19 steps, or 18.
                    steps=steps + number * (pauses * 65 + 19) - (number - len(served)),
                    calls="\n".join(f"{it}: new 1 16 16 -> {name[it] if it in served else 'full'}" for it in others),
                    waits=" ".join(f"{it}@WP" for it in others),
                    tops=tops,
                    free="{" + " ".join(str(it) for it in range(4) if not tops[it]) + "}",
                    done=" ".join(f"{it}=1" for it in others),
                    objects="\n".join(["object 0.1 1.1 -*15 /", "object 1.1 / 6", *(f"object {name[it]} -*16 / 0*16" for it in served)]),
                    roots="\n".join(["roots 1 0.1 1.1 -*14", *(f"roots {it} 0.1 {name[it]} -*14" for it in others)]),
                )
            )


def main():
    if not (program("shenrun") and program("shensteps")):
        print("test_finishing.py: there are no proved programs yet: rt ci makes them", file=sys.stderr)
        return 2
    number, failed = count_failures([*waitings(), *cases("finishing.txt")], fails)
    print(f"{number - failed} traces with cycles that end in a pause are as the rules say, {failed} are not")
    return 1 if failed else 0


if __name__ == "__main__":
    sys.exit(main())
