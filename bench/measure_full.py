#!/usr/bin/env python3
"""Measures full collections of a heap of 64 regions of 1024 words beside a plain copy of as many words.

usage: measure_full.py [ROUNDS]

ROUNDS is how many full collections are measured in one run of each of two traces, 1 to 300, 20 if left out. The traces are of one
thread and no helper, by `replay`, and objects have 16 words. Each time the thread asks for an object for which there is no room, while no
cycle runs, the schedule lets the control make a pause at once, and that collects the whole heap.

- all live: a list of 4094 objects fills the heap but for ten words, with the hub and one object of 3 words, and all of them live. Each
  further request is answered `full`, and nothing moves. One collection comes before and is not measured: it moves objects to the region
  of the hub, where the thread does not allocate.
- all dead: 4032 objects fill the other 63 regions, and all but the last one are dead. The request gets its object, and then the thread
  fills the regions again.

What is measured is the whole pause: each word of the image is loaded by a step of its own, the heap is collected, and each word of the
image is stored by a step. Times are those of the processor, the least of five runs, less those of the other commands: the same list with
no request behind it, and for each round what it takes to fill the regions once, without a pause. The copies are those of memmove, in this
script's process. How many pauses there are, and that each collects in full, is told by a listing of each trace, as measure_pauses.py says.
Times mean something only beside each other, from one run.
"""
import ctypes
import sys
import time

sys.dont_write_bytecode = True
# pylint: disable=wrong-import-position
from measure_marking import REGIONS, SHENRUN, SHENSTEPS, WORDS, text_of, written
from measure_pauses import told_of
from measure_threads import least

MOST = 300
COPIES = 1000
IN_REGION = WORDS // 16
BESIDE_HUB = (WORDS - 19) // 16
FILL = ["new 1 1 12"] * (IN_REGION * (REGIONS - 1))
LINKED = ["new 1 1 12", "set 1 0 2", "copy 2 1"]


def stop(why):
    print(f"measure_full.py: {why}", file=sys.stderr)
    sys.exit(2)


def trace(script, pauses):
    """The trace of a script with so many commands that wait, each for a pause of its own."""
    return text_of(1, 0, [script], ["1@WP 2@P3 2@I0 1:1"] * pauses + ["1@WP"])


def live(rounds):
    """The list, and so many requests behind it. The first pause, which makes the object of 3 words, frees one region: at first so many
    objects are dead that those that live fill the rest beside the hub, and all other regions but one."""
    dead = IN_REGION - BESIDE_HUB
    return trace(FILL[:dead] + LINKED * (len(FILL) - dead) + ["new 3 0 0"] + LINKED * IN_REGION + ["new 4 1 12"] * rounds, rounds + 1)


def spent(text):
    """The processor's seconds of a run."""
    with written(text) as file:
        return least(file.name, 0, SHENRUN, "replay")[1]


def collections(text):
    """How many pauses a trace has, all of which collect in full."""
    with written(text) as file:
        counts = told_of(file.name, 2)[1]
    if set(counts) != {"collect in full"}:
        stop(f"not all pauses collect in full: {dict(counts)}")
    return counts.total()


def copied(size):
    """The processor's seconds of one copy of so many bytes."""
    source, target = (ctypes.create_string_buffer(bytes([it]) * size, size) for it in (1, 2))
    times = []
    for _ in range(5):
        start = time.process_time()
        for _ in range(COPIES):
            ctypes.memmove(target, source, size)
        times.append(time.process_time() - start)
    return min(times) / COPIES


def main():
    words = sys.argv[1:]
    if words[1:] or not set(words) <= {str(it) for it in range(1, MOST + 1)}:
        stop(f"it wants the number of rounds, 1 to {MOST}, if not 20")
    if not SHENRUN or not SHENSTEPS:
        stop("there is no proved program yet: rt ci makes it")
    rounds = int(words[0]) if words else 20
    lives, dies = live(rounds), trace((FILL + FILL[:1]) * rounds, rounds)
    counts = [collections(lives) - collections(live(0)), collections(dies), COPIES]
    empty = spent(trace([], 0))
    filling = spent(trace(FILL, 0)) - empty
    copy = copied(8 * REGIONS * WORDS)
    seconds = [(spent(lives) - spent(live(0))) / rounds, (spent(dies) - empty) / rounds - filling, copy]
    print(f"{'':>24}{'how many':>10}{'us each':>10}{'million words a second':>24}{'times a copy':>14}")
    for name, count, each in zip(("collections, all live", "collections, all dead", "copies"), counts, seconds):
        print(f"{name:>24}{count:>10}{each * 1e6:>10.0f}{REGIONS * WORDS / each / 1e6:>24.1f}{each / copy:>14.1f}")


if __name__ == "__main__":
    main()
