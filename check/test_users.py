#!/usr/bin/env python3
"""Holds random users of the queue, on threads of the system, to the law of a queue, while the heap is collected all the time.

usage: test_users.py [FIRST [MANY [JOBS]]]   so many seeds from this one on (7, 4), with so many jobs for each user (60)

check/users is a program on the calls of managed_queue and table_heap: three to six users put and take as random numbers say, and ask for cycles,
each by `Bundle::drive`, in as many threads as there are machines or in fewer. `rt try` runs it from the sources, in a throwaway copy:
the program is not proved, so this is a test, of the sources as they stand. A gate lets no user get far ahead of the control, so that cycles
come to their ends also where processors are few, and looks before each step of the control at the phase, the word of the pauses and where
the hub lies; for that the copy of table_heap has one call more, `Heap::peek`.

Each operation is told with two ticks of one clock, between which it took effect. So of a queue it has to be true:
    what is got was put, was not got before, and was not got before it was put;
    of two numbers of which one was put before the other the first is got, and not after the other, where the other is got;
    at some time between the two ticks of a take that answers Empty no number is one that was put before and is not got until after.
These are all the ways in which such a history fails to be one of a queue (Henzinger, Sezgin and Vafeiadis, "Aspect-Oriented Linearizability
Proofs", CONCUR 2013). The judge itself is tried first, on a table of histories. The test fails where it is wrong of one, where the program or
an operation is, or where no run evacuated and updated.
"""
import os
import shutil
import subprocess
import sys
import tempfile

TOP = os.path.dirname(os.path.dirname(os.path.abspath(__file__)))
NODE = 5
LINE = "queue_users: shen_graph heap_words managed_queue table_heap\n"
PEEK = """
impl Heap {
    /// A word of the table, as it is now.
    pub fn peek(&self, at: usize) -> u64 {
        self.table.shared.peek(at)
    }
}
"""
NEVER = (float("inf"), float("inf"))

# Histories, and the first words of what is wrong with them. An operation is put or got with its number, or empty, and its two ticks.
JUDGED = {
    "put 1 1 2, got 1 3 4": None,
    "empty 1 2, put 1 3 4, got 1 5 6, empty 7 8": None,
    "put 1 1 2, put 2 3 4, got 1 5 6, got 2 7 8": None,
    "put 1 1 4, put 2 2 3, got 2 5 6, got 1 7 8": None,
    "put 1 1 2, put 2 3 4, got 2 5 8, got 1 6 7": None,
    "put 1 1 2, put 2 3 4, got 1 5 6": None,
    "put 1 1 4, got 1 2 3": None,
    "put 1 1 4, empty 2 3": None,
    "put 1 1 2, empty 3 6, got 1 4 5": None,
    "put 1 1 2, got 1 3 6, put 2 4 7, empty 5 8, got 2 9 10": None,
    # made up, got twice, got too soon
    "put 1 1 2, got 2 3 4": "2 is got, and was not put",
    "put 1 1 2, got 1 3 4, got 1 5 6": "1 is got twice",
    "put 1 1 2, got 1 3 6, got 1 4 5": "1 is got twice",
    "got 1 1 2, put 1 3 4": "1 is got before it is put",
    # lost: a later number comes, or none is found
    "put 1 1 2, put 2 3 4, got 2 5 6": "2 is got before 1",
    "put 1 1 2, got 1 3 4, put 2 5 6, put 3 7 8, got 3 9 10": "3 is got before 2",
    "put 1 1 2, put 2 3 4, got 1 5 6, empty 7 8": "Empty from tick 7 to 8",
    # swapped
    "put 1 1 2, put 2 3 4, got 2 5 6, got 1 7 8": "2 is got before 1",
    # a false Empty: one number stays all the time, or one comes before the other goes
    "put 1 1 2, empty 3 4, got 1 5 6": "Empty from tick 3 to 4",
    "put 1 1 2, put 2 3 5, empty 4 8, got 1 6 9, got 2 10 11": "Empty from tick 4 to 8",
    "put 1 1 2, empty 3 8, put 2 4 5, got 1 6 7, got 2 9 10": "Empty from tick 3 to 8",
}


def wrong(told):
    """What no queue could have done, if there is such. Each operation has its two ticks."""
    puts = {value: when for what, value, when in told if what == "put"}
    gots = {}
    for what, value, when in told:
        if what == "got":
            if value not in puts:
                return f"{value} is got, and was not put"
            if value in gots:
                return f"{value} is got twice"
            if when[1] <= puts[value][0]:
                return f"{value} is got before it is put"
            gots[value] = when
    for first, (_, ended) in puts.items():
        for second, (began, _) in puts.items():
            if ended <= began and second in gots and gots[second][1] <= gots.get(first, NEVER)[0]:
                return f"{second} is got before {first}, which was put before it"
    # from the end of its put until its get begins a number is in the queue
    inside = sorted((ended, gots.get(value, NEVER)[0]) for value, (_, ended) in puts.items())
    for what, _, (began, ended) in told:
        if what == "empty":
            until = began
            for since, left in inside:
                if since <= until < left:
                    until = left
            if until >= ended:
                return f"Empty from tick {began} to {ended}, and all the time there was a number in the queue"
    return None


def misjudged():
    """Which histories of the table are judged otherwise than it says."""
    for text, why in JUDGED.items():
        words = [it.split() for it in text.split(", ")]
        found = wrong([(it[0], it[1] if len(it) == 4 else "-", (int(it[-2]), int(it[-1]))) for it in words])
        if found != why and not (found and why and found.startswith(why)):
            yield f"{text}: {found or 'a queue'}"


def lay_out(room):
    """Copies the sources, with the program among them."""
    shutil.copy(os.path.join(TOP, "HANDLES"), room)
    with open(os.path.join(TOP, "crates.txt"), encoding="utf-8") as old, open(os.path.join(room, "crates.txt"), "w", encoding="utf-8") as new:
        new.write(old.read() + LINE)
    for name in os.listdir(os.path.join(TOP, "crates")):
        for part in ("src", "specs"):
            if os.path.isdir(os.path.join(TOP, "crates", name, part)):
                shutil.copytree(os.path.join(TOP, "crates", name, part), os.path.join(room, "crates", name, part))
    with open(os.path.join(room, "crates", "table_heap", "src", "heap.rt"), "a", encoding="utf-8") as heap:
        heap.write(PEEK)
    into = os.path.join(room, "crates", "queue_users")
    shutil.copytree(os.path.join(TOP, "check", "users"), into)
    # (the gate wants no source outside crates/, so these have an ending more)
    for at, _, names in os.walk(into):
        for name in names:
            os.rename(os.path.join(at, name), os.path.join(at, name.removesuffix(".text")))


def runs(words):
    """The lines that the program writes, seed by seed."""
    with tempfile.TemporaryDirectory() as room:
        lay_out(room)
        ran = subprocess.run(
            ["rt", "try", "--steps", "1", "--seconds", "600", "--", *words],
            cwd=os.path.join(room, "crates", "queue_users"),
            capture_output=True,
            text=True,
            check=False,
        )
    if "run=ended status=0" not in ran.stdout + ran.stderr:
        sys.exit(f"test_users.py: the program did not end well: {(ran.stdout + ran.stderr)[-600:]}")
    lines = [line.split() for line in ran.stdout.split("\n") if line and line.split()[0] in ("seed", "users") or line[:1].isdigit()]
    starts = [at for at, line in enumerate(lines) if line[0] == "seed"]
    return [lines[start:end] for start, end in zip(starts, [*starts[1:], len(lines)])]


def numbered(words):
    """Names and numbers in turn."""
    return dict(zip(words[::2], map(int, words[1::2])))


def judged(lines):
    """What is wrong with a run, a line on it, and whether objects were evacuated and references updated meanwhile."""
    sizes, seen = numbered(lines[0]), numbered(lines[-1])
    told = [(what, number, (int(began), int(ended))) for _, what, number, began, ended in lines[1:-1]]
    count = {kind: sum(1 for what, _, _ in told if what == kind) for kind in ("put", "got", "empty", "full")}
    used = count["put"] * NODE / (sizes["regions"] * sizes["words"])
    line = ", ".join(
        [
            " ".join(lines[0]),
            " ".join(f"{number} {kind}" for kind, number in count.items()),
            f"{seen['users']} steps of users and {seen['control']} of the control",
            f"the heap's words given out {used:.1f} times",
            f"{seen['pauses']} pauses, {seen['marking']} began to mark, {seen['evacuating']} to evacuate and {seen['updating']} to update",
            f"{seen['whole']} cycles came to their ends",
            f"the hub moved {seen['hub']} times",
        ]
    )
    return wrong(told), line, seen["evacuating"] > 0 and seen["updating"] > 0


def main():
    bad = list(misjudged())
    for it in bad:
        print(f"the judge is wrong: {it}")
    print(f"{len(JUDGED)} histories, {len(bad)} of which are misjudged")
    numbers = [*map(int, sys.argv[1:]), *[7, 4, 60][len(sys.argv) - 1 :]]
    failed, collected = 0, 0
    for lines in runs([str(it) for it in numbers]):
        why, line, was_collected = judged(lines)
        failed += why is not None
        collected += was_collected
        print(f"{line}: {why or 'a queue'}")
    print(f"{numbers[1]} seeds from {numbers[0]} on, {failed} of which fail; the heap was evacuated and updated under {collected}")
    return failed > 0 or collected == 0 or bool(bad)


if __name__ == "__main__":
    sys.exit(main())
