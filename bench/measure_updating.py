#!/usr/bin/env python3
"""Measures how fast references are updated beside the threads, and how many cycles a churn makes.

usage: measure_updating.py

There are two tables. Times mean something only beside each other, from one run, and only where no other program wants the processors.

1. How fast references are updated under `run`, by the control and 0 to 3 helpers, each in a thread of its own, beside one thread that
   works on no field. What is counted are the words below the limits of the regions, of which 16 in 19 are references; the time is that
   from the first look behind the pause that begins updating to the first that finds all regions claimed, which may find the next pause
   wanted already. The last units may still be in work then, and the pauses do not count.
2. Whole cycles of two threads that churn under `run`, as measure_evacuation.py's second table has them: how many pauses begin and end a
   cycle, how many commands go by for each, and which part of the time outside pauses each phase takes.

How time goes is looked up in the words of the heap, as measure_marking.py says. Where that memory cannot be read there are no tables.
"""
import collections
import os
import struct
import subprocess
import sys
import time

sys.dont_write_bytecode = True
# pylint: disable=wrong-import-position
import measure_evacuation as evacuation
import measure_marking as marking
from measure_marking import PAUSE_BETWEEN_LOOKS, REGIONS, SHENRUN, text_of, written

CYCLES = 8
BOXES = 8
LEAVES = 7
BESIDE = 60_000
COMMANDS = 400_000

Sample = collections.namedtuple("Sample", "at paused phase claim limits")


class Table(marking.Table):
    """The words of a heap that runs, with what changes in updating."""

    def sample(self):
        """The time, whether a pause is wanted or runs, the phase, the regions that are claimed, and the words below the limits. None once
        the program has ended."""
        size = self.phase_at + 6 + 3 * REGIONS
        held = os.pread(self.memory, 8 * size, self.start)
        at = time.monotonic()
        if len(held) < 8 * size:
            return None
        words = struct.unpack(f"<{size}Q", held)
        limits = sum(words[self.phase_at + 6 + 2 * REGIONS :])
        return Sample(at, words[0], words[self.phase_at], words[self.phase_at + 4], limits) if words[0] < 2 else None


def sampled(trace, threads, helpers):
    """Runs a trace and looks at its words meanwhile. No samples where that cannot be done."""
    samples, table = [], None
    with open(trace, "rb") as source:
        child = subprocess.Popen((SHENRUN, "run"), stdin=source, stdout=subprocess.DEVNULL)
    try:
        table = Table(child.pid, threads, helpers)
        while child.poll() is None:
            time.sleep(0.005)
            if table.find():
                break
        while table.start and child.poll() is None:
            sample = table.sample()
            if sample is None:
                break
            samples.append(sample)
            time.sleep(PAUSE_BETWEEN_LOOKS)
    except OSError:
        pass
    finally:
        status = child.wait()
        if table and table.memory:
            os.close(table.memory)
    if status != 0:
        evacuation.stop(f"run ends with {status}")
    return samples


def updatings_of(samples):
    """For each updating that was seen whole, how many words were gone over beside the threads, and in which time."""
    found = evacuation.stretches(samples)
    for (before, _), (state, beside), (after, waited) in zip(found, found[1:], found[2:]):
        if (before, state, after) == ((1, 3), (0, 3), (1, 3)):
            last = next((it for it in beside + waited if it.claim >= REGIONS), None)
            if last and last.at > beside[0].at:
                yield last.limits, last.at - beside[0].at


def full_box(box):
    """Commands that make a box with boxes in it, and put it into root 4's box."""
    return ["new 5 16 0", *(line for leaf in range(LEAVES) for line in ("new 6 16 0", f"set 5 {leaf} 6")), f"set 4 {box} 5"]


def boxes():
    """The commands of a thread that makes boxes of boxes, all of references, puts others into each second place, and has a cycle run over
    them, again and again."""
    lines = []
    for field in range(BOXES):
        lines += ["new 4 16 0", f"set 0 {field} 4", *(line for box in range(16) for line in full_box(box))]
    for cycle in range(CYCLES):
        for field in range(BOXES):
            lines += [f"get 4 0 {field}", *(line for box in range(cycle % 2, 16, 2) for line in full_box(box))]
        lines += ["drop 4", "drop 5", "drop 6", "gc", *["same 0 1"] * BESIDE]
    return lines


def measure_updating():
    print(f"updating references under run, on {os.cpu_count()} processors, a thread of commands beside it")
    print(f"{'':>12}{'updatings':>11}{'words of each':>15}{'ms, the middle':>16}{'million references a second':>29}{'ratio':>7}")
    first = None
    for helpers in range(4):
        with written(text_of(1, helpers, [boxes()])) as trace:
            found = list(updatings_of(sampled(trace.name, 1, helpers)))
        name = f"{helpers} helper{'s' if helpers != 1 else ''}"
        if not found:
            print(f"{name:>12}{0:>11}")
            continue
        words, took = sum(it for it, _ in found) / len(found), evacuation.middle([it for _, it in found])
        rate = evacuation.middle([words / took for words, took in found]) * 16 / 19
        first = first or rate
        print(f"{name:>12}{len(found):>11}{words:>15.0f}{1000 * took:>16.2f}{rate / 1e6:>29.2f}{rate / first:>7.2f}")


def measure_cycles():
    script = evacuation.churn(COMMANDS, True)
    text = text_of(2, 1, [script, script]).replace(" 0\n", f" {evacuation.RESERVES['evacuation']}\n", 1)
    with written(text) as trace:
        samples = sampled(trace.name, 2, 1)
    if not samples:
        return
    states = [state for state, _ in evacuation.stretches(samples)]
    changes = collections.Counter(zip(states, states[1:]))
    whole, begun = changes[(1, 0), (0, 0)], changes[(1, 1), (0, 1)]
    took = collections.Counter()
    for now, then in zip(samples, samples[1:]):
        took["pauses" if now.paused else now.phase] += then.at - now.at
    all_in_all = sum(took.values())
    print(f"two threads that churn, {2 * len(script)} commands: {begun} cycles begun, {changes[(1, 3), (0, 3)]} updatings, {whole} pauses that ended a cycle")
    print("; ".join(f"{name}: {100 * took[key] / all_in_all:.1f} %" for name, key in (("pauses", "pauses"), ("idle", 0), ("marking", 1), ("evacuation", 2), ("updating", 3))))
    print(f"{begun / all_in_all:.1f} cycles a second")


def main():
    if len(sys.argv) > 1:
        evacuation.stop("measure_updating.py wants no word")
    if not SHENRUN:
        evacuation.stop("there is no proved program yet: rt ci makes it")
    print(f"load before: {os.getloadavg()[0]:.1f} on {os.cpu_count()} processors")
    measure_updating()
    measure_cycles()


if __name__ == "__main__":
    main()
