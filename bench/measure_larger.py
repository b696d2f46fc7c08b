#!/usr/bin/env python3
"""Measures the library for C on heaps of 1 to 256 MiB: how long each kind of pause stops a mutator, and what it costs to be collected all the time.

usage: measure_larger.py [pauses] [live] [eight] [lists]      all four where none is named

The archive and the programs are those of measure_library.py. A heap has 64 regions, so 32 MiB are 65,536 words each.
    pauses   of each kind of pause how long a mutator stood still, and where the time went, by the size of the heap; two fifths of it live
    live     the pause that ends marking, and a full collection, by the words that live and by the order in which they lie, on 32 MiB
    eight    calls of eight threads that make lists on 32 MiB: one cycle after the other, without helpers and with 3, and nobody collecting
    lists    the list program on 32 MiB beside Boehm's collector, to which 32 MiB are given as well
What is not there is named and passed over; nothing is installed. Each part tells the load before it and behind it: by the clock times say little
beside other work, by processor time more, and both mean something only beside each other, from one run. A pause is told once by a run of
bench/library/standstill.c, and a row is the median of some runs.
"""
import os
import statistics
import sys
import tempfile

sys.dont_write_bytecode = True
# pylint: disable=wrong-import-position
from measure_library import Bench, check_sum, median_of, tell, told

REGIONS = 64
# MiB of a heap, the words of each of its regions, and in how many runs its pauses are measured.
SIZES = [(1, 2048, 9), (4, 8192, 7), (16, 32768, 5), (32, 65536, 5), (256, 524288, 3)]
WIDE = 65536
# Lists of so many numbers, helpers, and behind how many objects a thread asks for a collection.
EIGHT = [(1000, 0, 0), (1000, 0, 100), (1000, 3, 100), (20000, 0, 0), (20000, 3, 100)]
# In the order of pause_kind in library/users/common/pauses.h.
KINDS = [
    "begins marking",
    "ends marking, begins evacuation",
    "ends evacuation, begins updating",
    "ends updating",
    "ends marking and the cycle",
    "cuts the cycle short",
    "collects in full",
]
ENDS_MARKING, FULL = 1, 6
# What standstill.c tells of a kind.
PARTS = 9
COUNT, SEEN, CLOCK, BUSY, LOADS, CHANGE, STORES, BESIDE, STEPS = range(PARTS)


def runs_of(many, *words):
    """The live words, and of each kind of pause the rows of so many runs, without those in which there was none."""
    rows = {kind: [] for kind in range(len(KINDS))}
    for _ in range(many):
        live, *rest = told(*words)
        for kind, those in rows.items():
            row = rest[kind * PARTS : kind * PARTS + PARTS]
            if row[COUNT]:
                those.append(row)
    return live, rows


def middle(rows, part):
    """The median of one part of some rows; a standstill that was not seen is none."""
    return statistics.median([row[part] for row in rows if part != SEEN or row[part]] or [float("nan")])


def pauses(bench):
    program = bench.over_heap("standstill")
    print("pauses: two fifths of the heap live, in objects of 8 words, each of which names a later one; medians, in ms. `seen` is how long a call of another")
    print("thread waited, `clock` the pause; the others are processor time of the thread that makes the pause: all, the least of all runs, up to the change of the")
    print("image, the change, behind it; and what the control did beside the mutators before this pause. `ns` is all for each word of the heap")
    print(f"{'MiB':>4} {'pause':34}{'runs':>5}{'seen':>10}{'clock':>10}{'all':>10}{'least':>10}{'loads':>10}{'change':>10}{'stores':>10}{'beside':>10}{'ns':>7}")
    for size, words, many in SIZES:
        _, rows = runs_of(many, program, REGIONS, words, 40, "ahead")
        for kind, those in rows.items():
            if those:
                cells = [middle(those, SEEN), middle(those, CLOCK), middle(those, BUSY), min(row[BUSY] for row in those)]
                cells += [middle(those, part) for part in (LOADS, CHANGE, STORES, BESIDE)]
                each = middle(those, BUSY) / (REGIONS * words)
                print(f"{size:4} {KINDS[kind]:34}{len(those):5}" + "".join(f"{cell * 1e3:10.3f}" for cell in cells) + f"{each * 1e9:7.1f}", flush=True)


def live(bench):
    program = bench.over_heap("standstill")
    print("live: 32 MiB, of which four fifths are filled; `ahead` where each object of the list names a later one, `behind` where an earlier one. Medians of 3")
    print("runs, ms of processor time: the pause that ends marking, its change; marking beside the mutators before it, and its steps for each live object; a full")
    print("collection, its change; and each change in ns for a live word")
    print(f"{'live words':>10} {'order':8}{'ends marking':>14}{'change':>10}{'ns':>7}{'beside':>10}{'steps':>8}{'in full':>10}{'change':>10}{'ns':>7}")
    for lives in (1, 20, 60):
        for order in ("ahead", "behind"):
            words, rows = runs_of(3, program, REGIONS, WIDE, lives, order)
            ends, full = rows[ENDS_MARKING], rows[FULL]
            steps = middle(ends, STEPS) / (words / 8)
            cells = [f"{middle(ends, BUSY) * 1e3:14.2f}{middle(ends, CHANGE) * 1e3:10.2f}{middle(ends, CHANGE) / words * 1e9:7.1f}"]
            cells += [f"{middle(ends, BESIDE) * 1e3:10.2f}{steps:8.2f}"]
            cells += [f"{middle(full, BUSY) * 1e3:10.2f}{middle(full, CHANGE) * 1e3:10.2f}{middle(full, CHANGE) / words * 1e9:7.1f}"]
            print(f"{words:10.0f} {order:8}" + "".join(cells), flush=True)


def eight(bench):
    program = bench.over_heap("list_heap")
    print("eight: threads that make lists, add them up and let them go, on 32 MiB; millions of calls of all in a second by the clock, by the clock without what")
    print("they waited, of their own processor time, and of that of all threads, the collector's among it; and times those of the row where nobody collects")
    for length, helpers, every in EIGHT:
        # Where nobody collects, less than half of the heap is made, so no cycle begins by itself.
        times = 240000 // (8 * length) * (4 if every else 1)
        total, seconds, all_busy, busy, longest, calls, waits, waited = median_of(1, program, length, times, 8, REGIONS, WIDE, helpers, every)
        check_sum(total, length, times, 8)
        rates = [calls / it / 1e6 for it in (seconds, seconds - waited, busy, all_busy)]
        beside = rates if not every else beside
        what = f"always collected, {helpers} helpers" if every else "nobody collects"
        cells = "".join(f"{rate:8.3f} ({rate / first:4.2f})" for rate, first in zip(rates, beside))
        print(f"  lists of {length:5}, {what:27}{cells}; a thread waited {waited:.2f} of {seconds:.2f} s, in {waits:.0f} calls, at most {longest:.0f} ms", flush=True)


def lists(bench):
    heap, boehm = bench.over_heap("list_heap"), bench.boehm("list_plain")
    os.environ["GC_INITIAL_HEAP_SIZE"] = os.environ["GC_MAXIMUM_HEAP_SIZE"] = str(REGIONS * WIDE * 8)
    for length in (1000, 20000):
        for threads in (1, 8):
            times = 1000000 // (threads * length)
            print(f"lists on 32 MiB: {threads} threads, lists of {length} numbers; nodes made, read and let go")
            total, seconds, busy, mutators, longest, _, _, waited = median_of(2, heap, length, times, threads, REGIONS, WIDE, 0, 0)
            check_sum(total, length, times, threads)
            ours = tell("covremuj", length * times * threads, seconds, busy, None)
            print(f"    of {busy:.3f} s of processor time {mutators:.3f} in the threads that make lists; a thread waited {waited:.3f} s, at most {longest:.0f} ms")
            if boehm:
                times *= 20
                total, seconds, busy = median_of(2, boehm, length, times, threads)
                check_sum(total, length, times, threads)
                tell("Boehm's collector", length * times * threads, seconds, busy, ours)


def main():
    known = {"pauses": pauses, "live": live, "eight": eight, "lists": lists}
    asked = sys.argv[1:] or list(known)
    if any(word not in known for word in asked):
        print(__doc__.split("\n\n")[1], file=sys.stderr)
        return 2
    with tempfile.TemporaryDirectory() as room:
        bench = Bench(room)
        for word in asked:
            before = os.getloadavg()[0]
            known[word](bench)
            print(f"{word}: a load of {before:.1f} before, and of {os.getloadavg()[0]:.1f} behind it, on {os.cpu_count()} processors", flush=True)
    return 0


if __name__ == "__main__":
    sys.exit(main())
