#!/usr/bin/env python3
"""Measures what it buys, and what it costs, that all seats carve their buffers out of one shared region.

usage: measure_carving.py [--counts | --instructions | --times] [FOLDER]

FOLDER is another checkout with programs in crates/*/out, for instance one in which each seat has a region of its own; its numbers stand
behind those of this one. Counts are the same in each run; times mean something only beside each other, from one run.

Counts: in heaps of several sizes so many seats have taken room, and then the threads make objects, all of which live, by turns; or all but
the first have stopped behind their first object, and that one goes on alone. Objects have 16 words, or 4 to 35. Twelve seats are eight threads, three
helpers and the control, which have copied an object each in a cycle before. Of each heap the script writes how many words live when
somebody waits for the first time, which is when the heap is collected in full, and when the first request is answered `full`, each in per
cent of the heap's words. For objects of one size it writes how many words only fill when somebody waits, and the steps of a `new`.

Instructions of the whole process by valgrind, where there is one, a command: of the scripts of a churn, and of eight threads that only
allocate in 64 regions of 1024 words, under `replay` in rounds and under `run --workers 1`. Times: commands a second of `churn`, and of
those eight threads under `run`, by the clock and by the time of processors, the best of five runs, in which the checkouts take turns.
"""
import collections
import itertools
import json
import os
import random
import shutil
import subprocess
import sys
import tempfile

from compare import MOST_STEPS, churn_trace, instructions, run

TOP = os.path.dirname(os.path.dirname(os.path.abspath(__file__)))
HEAPS = [(4, 64), (16, 64), (64, 64), (16, 256), (64, 256), (4, 1024), (16, 1024), (64, 1024)]
SEATS = [1, 2, 4, 8, 12]
# Behind the first wait each object costs a full collection, so larger heaps are not filled up.
MOST_FILLED = 16384
HUB, UNIT = 19, 16
SIZES, MIXED = [5, 8, 16, 19, 35], "4 to 35"
ROUNDS, CHURN, ALLOCATED = 5, 20000, 20000
# How many times fewer rounds and objects are made where instructions are counted.
PART = 20


class Programs:
    """The programs of a checkout."""

    def __init__(self, top):
        self.run, self.steps = (self.path(top, name) for name in ("shenrun", "shensteps"))

    @staticmethod
    def path(top, name):
        places = [os.path.join(top, "crates", name, "out", name), os.path.join(top, "out", name)]
        found = next((it for it in places if os.access(it, os.X_OK)), None)
        if not found:
            raise SystemExit(f"measure_carving.py: there is no {name} in {top}")
        return found


class Trace:
    """A trace on its way: its lines, its schedule, and the words of the objects that each thread makes, 0 for those that are dropped."""

    def __init__(self, regions, words, seats):
        self.heap, self.words = regions * words, words
        self.threads, self.helpers = min(seats, 8), 3 if seats == 12 else 0
        self.lines, self.items = [f"heap {regions} {words} 0", f"threads {self.threads} {self.helpers}"], []
        self.made = {it: [] for it in range(1, self.threads + 1)}
        self.replies = collections.Counter()

    def text(self):
        return "\n".join(["shen 1", *self.lines, "! " + " ".join(self.items), ""])

    def say(self, thread, *commands):
        """Commands of a thread, and the item by which they are given."""
        self.lines += [f"{thread} {it}" for it in commands]
        self.replies[thread] += len(commands)
        self.items.append(f"{thread}={self.replies[thread]}")

    def make(self, thread, refs, nums):
        """An object that lives, as the first of a list that the thread has."""
        self.say(thread, f"new 1 {refs} {nums}", "set 1 0 2", "copy 2 1")
        self.made[thread].append(3 + refs + nums)

    def copy_each(self):
        """A cycle in which each helper and the control copies an object: one lives in each of four regions."""
        each = self.words // UNIT
        for number in range(4 * each + 1):
            if number % each == 0 and number < 4 * each:
                self.say(1, f"new 3 0 {UNIT - 3}", f"set 0 {number // each} 3")
                self.made[1].append(UNIT)
            else:
                self.say(1, f"new 15 0 {UNIT - 3}")
                self.made[1].append(0)
        self.say(1, "drop 3", "drop 15", "gc")
        self.items += ["12@EC", *(f"{it}@XS" for it in (9, 10, 11, 12)), *(f"{it}@H0" for it in (9, 10, 11)), "12@UC", "12@I2"]

    def living(self, counts):
        """The words of the hub and of the first objects of each thread, so many as are told, in per cent."""
        return 100 * (HUB + sum(sum(self.made[thread][:count]) for thread, count in counts.items())) / self.heap


def filled(regions, words, seats, shapes, is_alone):
    """A trace that fills a heap with objects that live."""
    trace = Trace(regions, words, seats)
    if trace.helpers:
        trace.copy_each()
    for thread in range(2 if trace.helpers else 1, trace.threads + 1):
        trace.make(thread, *next(shapes))
    turns = itertools.cycle([1] if is_alone else range(1, trace.threads + 1))
    while sum(map(sum, trace.made.values())) <= trace.heap:
        trace.make(next(turns), *next(shapes))
    return trace


def shapes_of(size, seed=1):
    """Shapes of so many words, or of 4 to 35; each has a reference at least."""
    if size == MIXED:
        rand = random.Random(seed)
        while True:
            yield rand.randint(1, 16), rand.randint(0, 16)
    refs = min(16, size - 3)
    yield from itertools.repeat((refs, size - 3 - refs))


def listed(programs, text, *words):
    """The objects of a listing, as they come; its program is stopped where nobody asks for more."""
    with tempfile.TemporaryFile() as file:
        file.write(text.encode())
        file.seek(0)
        with subprocess.Popen([programs.steps, "--json", "--steps", MOST_STEPS, *words], stdin=file, stdout=subprocess.PIPE) as run:
            try:
                yield from map(json.loads, run.stdout)
            finally:
                run.kill()


def lives(programs, trace, to_full):
    """How many words live before somebody waits, in per cent, and the event; and before the first request is answered `full`."""
    counts, waiting, first = collections.Counter(), set(), (None, None)
    for it in listed(programs, trace.text(), "--place", "RS,WS,WC"):
        if it["kind"] == "stuck":
            raise SystemExit(f"measure_carving.py: an item never ends: {it}\n{trace.text()}")
        if it["kind"] != "event":
            continue
        thread, place = it["machine"], it["at"]
        if place == "RS" and it.get("settles", "-")[0].isdigit():
            counts[thread] += 1
            waiting.discard(thread)
        elif place == "WS":
            waiting.add(thread)
            first = first if first[1] else (trace.living(counts), it["event"])
        elif place == "WC" and thread in waiting:
            return *first, trace.living(counts)
        if first[1] and not to_full:
            break
    return *first, None


def fills(programs, trace, event):
    """How many words only fill behind an event, in per cent; None of a listing that does not tell them."""
    words = ("--heap-at", str(event), "--from", str(event), "--to", str(event))
    heap = next(it for it in listed(programs, trace.text(), *words) if it["kind"] == "heap")
    others = [other for region in heap["regions"] for other in region.get("others", [])]
    told = sum(it["words"] for it in others if it["kind"] == "filler")
    return 100 * told / trace.heap if "others" in heap["regions"][0] else None


def steps_of_new(programs, size, count=500):
    """How many steps a `new` takes, on an average, besides one for each reference and number: of one thread in regions of 1024 words."""
    refs, nums = next(shapes_of(size))
    text = "\n".join(["shen 1", "heap 64 1024 0", "threads 1 0", *[f"1 new 1 {refs} {nums}"] * count, f"! 1={count}", ""])
    return sum(it["kind"] == "event" for it in listed(programs, text, "--item", "1")) / count - refs - nums


def told(numbers):
    """Numbers of each checkout, as a text."""
    return "  |  ".join("  ".join("   -" if it is None else f"{it:4.0f}" for it in one) for one in numbers)


def heap_rows(every, size):
    """How much lives in heaps of several sizes."""
    print(f"objects of {size} words\nregions  words  seats  by turns: live before waiting, before full; one alone: the same (per cent)")
    for (regions, words), seats in itertools.product(HEAPS, SEATS):
        if seats == 12 and regions < 16:
            continue
        columns = []
        for is_alone in (False, True)[: 1 if seats == 1 else 2]:
            trace = filled(regions, words, seats, shapes_of(size, seats), is_alone)
            columns.append(told([lives(it, trace, trace.heap <= MOST_FILLED)[::2] for it in every]))
        print(f"{regions:7}  {words:5}  {seats:5}  {'      '.join(columns)}", flush=True)


def size_rows(every):
    """What objects of one size, and of mixed sizes, cost one thread in 16 regions of 1024 words."""
    print("words of an object  live before waiting, words that fill (per cent), steps of a new besides one for each reference and number")
    for size in [*SIZES, MIXED]:
        numbers = []
        for programs in every:
            trace = filled(16, 1024, 1, shapes_of(size), True)
            live, event, _ = lives(programs, trace, False)
            numbers.append((live, fills(programs, trace, event)))
        steps = "-" if size == MIXED else "  |  ".join(f"{steps_of_new(it, size):.1f}" for it in every)
        print(f"{size!s:>18}  {told(numbers)}      {steps}", flush=True)


def allocating(count):
    """The trace of eight threads that only allocate, and how many commands it has."""
    lines = [f"{thread} new 1 1 12" for _ in range(count) for thread in range(1, 9)]
    return "\n".join(["shen 1", "heap 64 1024 8", "threads 8 2", *lines, ""]), len(lines)


def instructions_of(every):
    """Instructions a command, of a churn and of threads that allocate."""
    text, count = allocating(ALLOCATED // PART)
    with tempfile.TemporaryDirectory() as folder:
        made = os.path.join(folder, "made")
        with open(made, "w") as file:
            file.write(text)
        churned = churn_trace(folder, "churned", CHURN // PART, "")
        for name, trace, commands in ("churn", churned, 3 * (2 + 8 * (CHURN // PART))), ("eight that allocate", made, count):
            for words in ("replay", "--steps", MOST_STEPS), ("run", "--workers", "1"):
                told_of = "  |  ".join(f"{instructions(it.run, trace, words) / commands:.0f}" for it in every)
                print(f"instructions a command, {name}, {words[0]}: {told_of}", flush=True)


def times(every):
    """Commands a second of a churn, and of threads that allocate."""
    text, count = allocating(ALLOCATED)
    with tempfile.NamedTemporaryFile("w") as file:
        file.write(text)
        file.flush()
        churned = None, ("churn", "0", str(CHURN)), 3 * (2 + 8 * CHURN)
        for name, (trace, words, commands) in ("churn", churned), ("eight that allocate", (file.name, ("run",), count)):
            runs = [[run(it.run, trace, words) for it in every] for _ in range(ROUNDS)]
            for at, of_what in enumerate(("second", "second of processors")):
                rates = "  |  ".join(f"{commands / min(it[one][at] for it in runs):.0f}" for one in range(len(every)))
                print(f"commands a {of_what}, {name}: {rates}", flush=True)


def main():
    words = [it for it in sys.argv[1:] if not it.startswith("--")]
    every = [Programs(it) for it in [TOP, *words[:1]]]
    asked = [it for it in ("--counts", "--instructions", "--times") if it in sys.argv] or ["--counts", "--instructions", "--times"]
    if "--counts" in asked:
        heap_rows(every, UNIT)
        heap_rows(every, MIXED)
        size_rows(every)
    if "--instructions" in asked and shutil.which("valgrind"):
        instructions_of(every)
    if "--times" in asked:
        times(every)


main()
