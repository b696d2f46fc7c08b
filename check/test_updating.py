#!/usr/bin/env python3
"""Holds the updating of references beside the mutators to the proved programs.

usage: test_updating.py

In the tables here an object has been copied, the hub names its old copy in two fields, and the control updates them. In the first
a thread works on the second field, stopped at each of its places with the control at each of its own, and either goes on first. In
the second the thread makes an object in a region that the control goes over. In the third two helpers and the control share the
regions, in each order of those who claim one. In the fourth the last thread ends while the control is in a unit. Behind them comes
updating.txt. A line behind `=` says what holds after the items above it, and one behind `end:` what holds when all machines are
idle: the places of machines, and words of the heap, as following.py follows them; `limit` is a region's top when updating began. The
rules also say how many steps and pauses each trace takes. No answer was taken from the programs.
"""
import sys
from itertools import permutations

sys.dont_write_bytecode = True
from cases import Case, cases, count_failures, program  # pylint: disable=wrong-import-position
from following import fails  # pylint: disable=wrong-import-position

# What the second thread makes: an object in region 1, which the hub names twice, and garbage there and in region 2.
MADE = "new 1 0 1 -> {n}.1; wr 1 0 6 -> ok; set 0 0 1 -> ok; set 0 1 1 -> ok; new 2 16 16 -> {n}.2; new 2 16 16 -> {n}.3; drop 1 -> ok; drop 2 -> ok; gc -> ok"

# The first thread has copied the object to region 3, and the control stands at a place for the second field.
CROSSING = """# {what} beside updating: the thread at {at}, the control at {place}; {who} goes on first
heap 8 64 0, threads 2 0, {steps} steps, 4 pauses
1: get 1 0 0 -> 2.1; {call}
2: {made}
! 2=9 3@EC 1=1 3@UC
= phase 3; set {{1}}; claim 0; limit 0: 19; limit 1: 0; limit 2: 35; limit 3: 4; start 0: 19; copiers 0
! {stops} 1@{at}
= 3 at {place}; 1 at {at}; claim 1; header 2.1: 1027
! {first}
= {then}
! {second}
= 1 at LV; 3 at I0; claim 1
! 1=2 3@P3
= 3 at P3; phase 0; set {{}}; claim 0; free {{1 4 5 6 7}}; top 1: 0; start 1: 0; limit 1: 0; limit 2: 35; top 3: 64; room 1: 3+4 to 64
object 0.1 2.1 {field} -*14 /
object 2.1 / 6
roots 1 0.1 2.1 {root} -*13
roots 2 0.1 -*15"""
# How the control comes to the second field.
STOPS = {"UF": "3@UX 3:1", "UH": "3@UX 3:1 3@UH", "UX": "3@UX 3:1 3@UX"}
# The commands: where they can be stopped, whether they empty the field, and what they leave there and in root 2.
CALLS = {
    "an exchange of the old copy": ("cas 0 1 1 9 -> yes", ("FL", "HL", "CX"), "-", "-"),
    "a store of null": ("set 0 1 9 -> ok", ("FS",), "-", "-"),
    "a store of the current copy": ("set 0 1 1 -> ok", ("FS",), "2.1", "-"),
    "a load": ("get 2 0 1 -> 2.1", ("FL", "HL"), "2.1", "2.1"),
    "a swap with null": ("xchg 2 0 1 9 -> 2.1", ("FX", "HL"), "-", "2.1"),
}
# The steps of a trace in which the command is a store, made once the control is done with the field; and how many more another
# command has, with its roots.
STEPS = 5405
MORE = {"cas": 3, "set": 0, "get": 2, "xchg": 3}


def crossings():
    """A command and the control at one field."""
    for what, (call, stops, field, root) in CALLS.items():
        for place in STOPS:
            for at in stops:
                for who in ("the thread", "the control"):
                    thread_first = who == "the thread"
                    verb = call.split()[0]
                    steps = STEPS + MORE[verb]
                    changes = verb != "get"
                    # Who comes second finds the field as the first has left it. A swap that is at HL has come first already.
                    swapped = verb == "xchg" and at == "HL"
                    if place == "UF" and changes and (thread_first or swapped):
                        steps -= 2
                    elif not thread_first and not swapped:
                        if verb == "cas":
                            steps += -1 if at == "FL" else 2
                        elif at in ("FL", "FX"):
                            steps -= 1
                    yield Case(
                        CROSSING.format(
                            what=what,
                            at=at,
                            place=place,
                            who=who,
                            steps=steps,
                            call=call,
                            made=MADE.format(n=2),
                            stops=STOPS[place],
                            first="1@LV" if thread_first else "3@I0",
                            then=f"1 at LV; 3 at {place}" if thread_first else f"1 at {at}; 3 at I0",
                            second="3@I0" if thread_first else "1@LV",
                            field=field,
                            root=root,
                        )
                    )


# The thread has its buffer in region 1, and an object there that names the old copy; it makes another object behind it.
MAKING = """# an object is made in a region that is updated: the thread at {at}, the control at {place}; {who} goes on first
heap 8 64 0, threads 2 0, 5477 steps, 4 pauses
1: new 1 2 0 -> 1.1; get 2 0 0 -> 2.1; set 1 1 2 -> ok; drop 2 -> ok; new 3 1 1 -> 1.2; set 3 0 1 -> ok; get 4 1 1 -> 2.1
2: {made}
! 1=1 2=8 1=4 2=9 3@EC 3@UL 3@I0 3@{place} 1@{at}
= 3 at {place}; 1 at {at}; claim 2; limit 1: 5; room 1: 1+{next} to 64; set {{2}}; limit 2: 0
! {first}
= {then}
! {second}
= 1 at LV; 3 at I0; claim 2; limit 1: 5; room 1: 1+10 to 64
! 1=7 3@P3
= phase 0; set {{}}; limit 1: 5; top 1: 64; top 2: 0
object 0.1 2.1*2 -*14 /
object 1.1 - 2.1 /
object 1.2 1.1 / 0
object 2.1 / 6
roots 1 0.1 1.1 - 1.2 2.1 -*11
roots 2 0.1 -*15"""
MAKER = ("TC", "TS", "IW", "RS")
UNIT = ("UL", "UT", "UG", "US", "UB", "UF", "UH", "UX")


def makings():
    """A thread that makes an object, and the control that updates what lies before it."""
    for place in UNIT:
        for at in MAKER:
            for who in ("the thread", "the control"):
                thread_first = who == "the thread"
                yield Case(
                    MAKING.format(
                        at=at,
                        place=place,
                        who=who,
                        made=MADE.format(n=2),
                        next=10 if at in ("IW", "RS") else 5,
                        first="1@LV" if thread_first else "3@I0",
                        then=f"1 at LV; 3 at {place}" if thread_first else f"1 at {at}; 3 at I0",
                        second="3@I0" if thread_first else "1@LV",
                    )
                )


# Machines 2 and 3 are helpers, and 4 is the control. All three have seen that no region is claimed.
SHARING = """# three machines claim regions: machine {a} the hub's, {b} that of the set, and {c} the next one
heap 8 64 0, threads 1 2, 3980 steps, 3 pauses
1: {made}; get 1 0 0 -> 1.1; rd 1 0 -> 6
! 1=9 4@EC 4@UC 2@KX 3@KX 4@KX
= phase 3; set {{1}}; claim 0; 2 at KX; 3 at KX; 4 at KX
! {a}:1
= {a} at UL; claim 1
! {b}:1 {c}:1
= {b} at UC; {c} at UC; claim 1
! {b}:2
= {b} at {set_done}; claim 2
! {c}:2
= {c} at UL; claim 3
! {a}@UX 1=11
= {a} at UX; {c} at UL; claim 3
! {c}@{c_done} {a}@{a_done} {b}@{b_home} {c}@{c_home} {a}@{a_home}
= claim 3; phase 3
object 0.1 1.1*2 -*14 /
object 1.1 / 6
roots 1 0.1 1.1 -*14"""


def sharings():
    """Three machines, in each order."""
    for a, b, c in permutations((2, 3, 4)):
        done = {2: "LV", 3: "LV", 4: "I0"}
        home = {2: "H0", 3: "H0", 4: "I0"}
        yield Case(
            SHARING.format(
                a=a,
                b=b,
                c=c,
                made=MADE.format(n=1),
                set_done=done[b],
                a_done=done[a],
                c_done=done[c],
                a_home=home[a],
                b_home=home[b],
                c_home=home[c],
            )
        )


# The last thread ends, and with it the control, once its unit is done; a helper may still be in a unit.
ENDING = """# the last thread ends while {who} is at {place}
heap 8 64 0, threads 1 1, {steps} steps, 3 pauses
1: {made}
! 1=9 3@EC 3@UC {machine}@{place} 1:1
= 1 has ended; {machine} at {place}; phase 3; claim 1
! 3@I0 3:2
= 3 has ended; phase 3; set {{1}}; claim {claim}
! 2@H0 2:1
= 2 has ended; phase 3; set {{1}}; claim {claim}; header 1.1: 1027; free {{4 5 6 7}}; top 3: 64
object 0.1 1.1*2 -*14 /
object 1.1 / 6
roots 1 0.1 -*15"""


def endings():
    """The thread ends: the control leaves the rest as it is."""
    for place in UNIT:
        for who, machine in (("the control", 3), ("the helper", 2)):
            yield Case(
                ENDING.format(
                    place=place,
                    who=who,
                    machine=machine,
                    made=MADE.format(n=1),
                    # Where the helper is in the unit, the control has claimed the set's before it looks whether a thread is left.
                    claim=1 if machine == 3 else 2,
                    steps=3903 if machine == 3 else 3911,
                )
            )


def main():
    if not (program("shenrun") and program("shensteps")):
        print("test_updating.py: there are no proved programs yet: rt ci makes them", file=sys.stderr)
        return 2
    number, failed = count_failures([*crossings(), *makings(), *sharings(), *endings(), *cases("updating.txt")], fails)
    print(f"{number - failed} traces with updating are as the rules say, {failed} are not")
    return 1 if failed else 0


if __name__ == "__main__":
    sys.exit(main())
