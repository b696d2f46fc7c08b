#!/usr/bin/env python3
"""Holds the taking of room out of shared regions to the rules, where machines meet in it.

usage: test_carving.py [TRACES]

Two threads, or three, are stopped at places of a taking, at each of them in turn, in heaps with regions of several sizes: while a unit
of evacuation or of updating walks, while a pause asks, while a copier gives its copy back, and while a mutator ends. The shared region
is full then, and each thread has free words left, so that a taking comes by all places; that each machine stands where it was stopped is
looked at, too. Then three threads that take room where none is shared yet, the two worked examples of words, and random traces with
regions of many sizes. carving.py follows the words of each, and a graph of objects that never move has to be answered the same, in the
order in which calls are settled, and to be the same in the end. No answer was taken from the programs.
"""
import collections
import concurrent.futures
import itertools
import os
import random
import sys

sys.dont_write_bytecode = True
from cases import program  # pylint: disable=wrong-import-position
from carving import TAKING, Broken, follow  # pylint: disable=wrong-import-position
from listed import machine, objects  # pylint: disable=wrong-import-position
from settling import Graph, command  # pylint: disable=wrong-import-position

TRACES = 60
SIZES = (64, 65, 96, 128, 192, 1024)
# The size of which different places are tried, too.
MOST = 128
# The places before TV is done and behind it, on the way of one who finds the shared region full and has free words left.
BEFORE, BEHIND = ("TC", "TR", "TT", "TV"), ("TX", "TZ", "TS")
BUFFER, LARGE = 64, "16 16"


def alike():
    """Two and three at one place; who has lost at TV stands at TQ only where another is past TV."""
    for count in (2, 3):
        yield from ((it,) * count for it in (*BEFORE, *BEHIND))
        yield from (("TQ",) * (count - 1) + (it,) for it in BEHIND)


def unlike():
    """Two at different places, in whatever order they come there."""
    yield from itertools.permutations((*BEFORE, *BEHIND), 2)
    yield from ((it, "TQ") for it in BEHIND)


def all_unlike():
    """Three at different places."""
    yield from itertools.combinations((*BEFORE, *BEHIND), 3)
    yield from (("TQ", *it) for it in itertools.product(BEFORE, BEHIND))


def stops(places):
    """The items by which threads 1, 2 and so on come to their places: those who are to find the old region shared before those who share
    another one, and behind them those who have lost by that."""
    numbered = list(enumerate(places, 1))
    losers = [it for it, place in numbered if place == "TQ"]
    found = [f"{it}@{place}" for group in (BEFORE, BEHIND) for it, place in numbered if place in group]
    return [*(f"{it}@TV" for it in losers), *found, *(f"{it}@TQ" for it in losers)]


# What happens while they stand there: the items before they make their first objects, those before and behind their stops, and those by
# which the cycle goes on then; A is the thread that has asked for it, H a helper and C the control, and A=* are all replies of that
# thread. The last number says how many buffers are carved for copies before they make their first objects.
WHILE = {
    "a unit of evacuation walks": ("C@EC", "H@EF", "H:2", "A=* C@UC C@I2", 0),
    "a unit of updating walks": ("C@UC", "H@UG", "H:2", "A=* C@I2", 1),
    "a pause asks": ("", "", "C@P2 C:3", "C@EC A=*", 0),
    "a copier gives back": ("C@EC A@HX H@XS A@GB", "", "A:1", "A=* C@UC C@I2", 1),
    "a mutator ends": ("C@EC", "", "A@ML A:1 C:30", "C@UC C@I2", 0),
}


def asking(each, more):
    """The commands of the thread that asks for a cycle: it fills a region in which one object lives, and more buffers behind that."""
    return ["new 1 0 1", "wr 1 0 6", "set 0 0 1", *[f"new 15 {LARGE}"] * (each + more), "drop 1", "drop 15", "gc", "get 1 0 0", "rd 1 0"]


def trace(size, places, what, number):
    """A trace in which threads meet at these places; the number says who goes on first."""
    each, threads = size // BUFFER, range(1, len(places) + 1)
    before, walking, behind, ends, copied = WHILE[what]
    # The buffers up to those of the threads that meet fill regions.
    more = next(it for it in itertools.count(1) if (it + copied + len(places)) % each == 0)
    third = asking(each, more)
    lines = ["shen 1", f"heap {({1: 12, 16: 8}).get(each, 10)} {size} 0", f"threads {len(places) + 1} 1"]
    lines += [f"{len(places) + 1} {it}" for it in third]
    for thread in threads:
        lines += [f"{thread} {it}" for it in (f"new 1 {LARGE}", f"new 2 {LARGE}", f"set 0 {thread} 2", f"get 3 0 {thread}", "same 2 3")]
    first = [f"{it}=1" for it in threads]
    turns = [f"{threads[(number + it) % len(places)]}=2" for it in range(len(places))]
    items = " ".join([f"A={len(third) - 2}", before, *first, walking, *stops(places), behind, *turns, "H@H0", ends])
    return "\n".join([*lines, "! " + " ".join(named(it, len(places), len(third)) for it in items.split()), ""])


def named(item, count, replies):
    """An item with the number of its machine behind so many threads, and with all replies of the thread that asks."""
    numbers = {"A": count + 1, "H": count + 2, "C": count + 3}
    return f"{numbers.get(item[0], item[0])}{item[1:]}".replace("*", str(replies))


def meetings():
    """The sizes, places and happenings of the table, with a number that says who goes on first."""
    for size in SIZES:
        for number, places in enumerate((*alike(), *(unlike() if size == MOST else ()))):
            yield from ((size, places, what, number + turn) for turn, what in enumerate(WHILE))
    for number, places in enumerate(all_unlike()):
        yield MOST, places, list(WHILE)[number % len(WHILE)], number


def table():
    """The traces of the table, with their titles."""
    for size, places, what, number in meetings():
        yield f"{' and '.join(places)} in regions of {size} words, while {what}", trace(size, places, what, number)


# Three threads, and no region is shared yet: two lose to the third, and both give a region back.
FIRST = """shen 1
heap 8 {size} 0
threads 3 1
1 new 1 1 1
1 set 0 1 1
2 new 1 1 1
2 set 0 2 1
3 new 1 1 1
3 set 0 3 1
! 1@TV 2@TV 3@{place} 1@TQ 2@TQ {turns}
"""


def firsts():
    """The traces of three threads where no region is shared yet."""
    for size, place, turns in itertools.product(SIZES, ("TT", "TX", "TS", "IW"), ("1=1 2=1 3=1", "2=1 3=1 1=1")):
        yield f"three threads, the third at {place}, in regions of {size} words, then {turns}", FIRST.format(size=size, place=place, turns=turns)


def at_random(seed):
    """A trace of threads and helpers on a small heap with regions of some size, with a schedule whose items all end."""
    rand = random.Random(seed)
    threads, helpers, size = rand.randint(2, 4), rand.randint(0, 2), rand.choice([64, 64, 65, 67, 80, 96, 128, 150])
    shapes = rand.choice([[(16, 16)], [(0, 1), (1, 0), (2, 2), (16, 16)], [(0, 1), (3, 3), (8, 8)]])
    lines = ["shen 1", f"heap {rand.randint(4, 6)} {size} {rand.randint(0, 2)}", f"threads {threads} {helpers}"]
    for _ in range(rand.randint(4, 24)):
        lines += [f"{thread} {command(rand, shapes)}" for thread in range(1, threads + 1)]
    most = rand.choice([2, 12, 30])
    items = [f"{rand.randint(1, threads + helpers)}:{rand.randint(1, most)}" for _ in range(rand.randint(1, 200))]
    items += [f"{threads + helpers + 1}:{rand.choice([1, 2, 3, 30, 300])}" for _ in range(rand.randint(1, 40))]
    rand.shuffle(items)
    return "\n".join([*lines, "! " + " ".join(items)]) + "\n"


# The words behind the schedule of the worked examples.
EXAMPLES = [
    (
        "two buffers in one region",
        "shen 1\nheap 4 128 0\nthreads 2 0\n1 new 1 0 1\n2 new 1 0 1\n! 1=1 2=1\n",
        {("share",): 2, ("top", 1): 128, ("free",): 12, ("cur", 1): (320 << 32) + 260, ("cur", 2): (384 << 32) + 324},
    ),
    (
        "what is left of a buffer is filled",
        "shen 1\nheap 4 64 0\nthreads 1 0\n1 new 1 16 16\n1 new 2 16 16\n! 1=2\n",
        {("heap", 163): 118, ("top", 1): 64},
    ),
]


class Judge:
    """What has to be so besides the words. A graph is answered beside the calls, in the order in which they are settled; and a machine that
    an item has stopped at a place stands there."""

    def __init__(self):
        self.graph, self.calls = Graph(), {}
        self.goes, self.stops = {}, {}

    def take(self, told):
        """Takes an object of a listing; what is wrong with it, or None."""
        kind = told["kind"]
        if kind in ("item", "rounds"):
            self.stops |= self.goes
            number, _, place = told.get("text", "").partition("@")
            self.goes = {int(number): place} if place else {}
        if kind == "event":
            return self.strayed(told) or self.answered(told)
        if kind == "end" and self.stops:
            return f"stops that never came: {self.stops}"
        if kind == "graph" and not self.ends_as(told):
            return "another graph than that of the calls"
        return "an item never ends" if kind == "stuck" else None

    def strayed(self, event):
        """That a machine does not stand where it was stopped, or None. Of a pause that asks no event is listed."""
        place = self.stops.pop(event["machine"], event["at"])
        return None if place in (event["at"], "P2") else f"machine {event['machine']} is at {event['at']}, and was to be stopped at {place}"

    def answered(self, event):
        """What is wrong with a reply, or None."""
        who = machine(event)
        if "begins" in event:
            self.calls[who] = event["begins"]
        if "settles" in event:
            reply = self.graph.answer(who[-1], self.calls[who])
            if reply != event["settles"]:
                return f"{who} {self.calls[who]} is settled with {event['settles']}, and a graph replies {reply}"
        return None

    def ends_as(self, told):
        """Whether the objects of a listing's end, and its roots, are those of the graph."""
        roots = [self.graph.roots.get(str(it + 1), ["0.1"] + [None] * 15) for it in range(len(told["roots"]))]
        named_ones = {it["object"]: (it["fields"], it["numbers"]) for it in told["objects"]}
        return roots == told["roots"] and all((list(self.graph.objects[it][0]), list(self.graph.objects[it][1])) == parts for it, parts in named_ones.items())


def judged(listing, judge):
    """The objects of a listing, until one is wrong."""
    for it in listing:
        why = judge.take(it)
        if why:
            raise Broken(f"event {it.get('event', '-')}: {why}")
        yield it


def tried(case):
    """What is wrong with a trace, or None, and how often each place was seen; the words that it may have are those behind its schedule."""
    _, text, pauses, words = case
    status, listing = objects(text, "--pauses", pauses)
    if words:
        listing = list(itertools.takewhile(lambda it: it["kind"] != "rounds", listing))
    try:
        heap = follow(judged(listing, Judge()), pauses == "full")
    except (Broken, KeyError) as why:
        return repr(why), {}
    wrong = next((name for name, word in words.items() if heap.word(*name) != word), None)
    if wrong:
        return f"{wrong} has {heap.word(*wrong)}, and not {words[wrong]}", {}
    return None if status == 0 else f"status {status}", heap.seen


def every(count):
    """All traces: the title, the text, how pauses are listed, and the words to come."""
    yield from ((title, text, "full", words) for title, text, words in EXAMPLES)
    yield from ((title, text, "changed", {}) for title, text in (*table(), *firsts()))
    yield from ((f"random trace {it}", at_random(it), "full" if it % 4 == 0 else "changed", {}) for it in range(count))


def main():
    if not program("shensteps"):
        print("test_carving.py: there is no proved program yet: rt ci makes it", file=sys.stderr)
        return 2
    cases = list(every(int(sys.argv[1]) if sys.argv[1:] else TRACES))
    seen, failed = collections.Counter(), 0
    with concurrent.futures.ProcessPoolExecutor(os.cpu_count()) as workers:
        for case, (why, places) in zip(cases, workers.map(tried, cases, chunksize=8)):
            seen.update(places)
            if why:
                failed += 1
                print(f"{case[0]}: {why}\n{case[1]}")
    missing = [it for it in (*TAKING, "GB", "EF", "UG") if not seen[it]]
    print(f"{len(cases) - failed} traces take room, walk and pause by the rules, {failed} do not")
    if missing:
        print(f"no trace came by {' '.join(missing)}")
    return 1 if failed or missing else 0


if __name__ == "__main__":
    sys.exit(main())
