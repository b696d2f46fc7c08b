#!/usr/bin/env python3
"""Holds `run` to one order of exchanges that many threads of the system make at once.

usage: test_threads.py

Eight threads make an object and exchange it for what is in field 0 of the hub, two thousand times each, on a heap that is collected
meanwhile. Each object is got by one exchange at most, so what they got tells their one order: it begins with the exchange that got
nothing, and each next one got what the last one put in. It has to have all of them, those of each thread in the order of its script,
and the object that was put in last is in the field in the end. Each machine has a thread of its own, or as many threads as the words
say share them. All runs are judged, and there are more of them until one had all its threads at once and an order in which they took
turns.
"""
import os
import subprocess
import sys
import tempfile

sys.dont_write_bytecode = True
from cases import program  # pylint: disable=wrong-import-position

THREADS, ROUNDS, RUNS = 8, 2000, 3
MOST_RUNS = 50
# The mutators, a helper and the control.
MACHINES = THREADS + 2


def trace():
    """The trace."""
    lines = ["shen 1", "heap 32 256 0", f"threads {THREADS} 1"]
    for thread in range(1, THREADS + 1):
        lines += [f"{thread} new 1 0 0", f"{thread} xchg 2 0 0 1"] * ROUNDS
    return "\n".join([*lines, ""]).encode()


def ran(words, file):
    """What a run writes, and the most threads that the program was seen to have."""
    most = 0
    file.seek(0)
    with tempfile.TemporaryFile() as written:
        with subprocess.Popen([program("shenrun"), *words], stdin=file, stdout=written) as run:
            while run.poll() is None:
                try:
                    most = max(most, len(os.listdir(f"/proc/{run.pid}/task")))
                except FileNotFoundError:
                    pass
        written.seek(0)
        return run.returncode, written.read().decode().split("\n"), most


def judged(status, lines):
    """What is wrong with an answer, or None, and the order of the exchanges, by the objects that they put in."""
    if status or lines[2 * THREADS * ROUNDS :][:1] != ["graph"]:
        return f"status {status}, and another number of replies", []
    after, order = {}, []
    for number, line in enumerate(lines[: 2 * THREADS * ROUNDS : 2]):
        thread, count = number // ROUNDS + 1, number % ROUNDS + 1
        if line != f"{thread} {thread}.{count}":
            return f"another object is made: {line}", []
        after.setdefault(lines[2 * number + 1].split()[1], f"{thread}.{count}")
    last = "-"
    while last in after:
        last = after.pop(last)
        order.append(last)
    if after:
        return f"{len(after)} exchanges have no place behind those of which the last put in {last}", order
    for thread in range(1, THREADS + 1):
        counts = [int(it.split(".")[1]) for it in order if it.startswith(f"{thread}.")]
        if counts != list(range(1, ROUNDS + 1)):
            return f"the exchanges of thread {thread} have another order", order
    if lines[2 * THREADS * ROUNDS + 1] != f"object 0.1 {last} " + " ".join(["-"] * 15) + " /":
        return f"{last} was put in last, and is not in the field", order
    return None, order


def turns(order):
    """How often the next exchange is another thread's."""
    return sum(one.split(".")[0] != two.split(".")[0] for one, two in zip(order, order[1:]))


def main():
    if not program("shenrun"):
        print("test_threads.py: there is no proved program yet: rt ci makes it", file=sys.stderr)
        return 2
    with tempfile.TemporaryFile() as file:
        file.write(trace())
        for words, most in (["run", "--workers", "1"], 1), (["run", "--workers", "3"], 3), (["run"], MACHINES):
            met, number = False, 0
            while number < RUNS or (not met and number < MOST_RUNS):
                number += 1
                status, lines, threads = ran(words, file)
                why, order = judged(status, lines)
                if why or threads > most:
                    print(f"{' '.join(words)}: {why or f'it has {threads} threads'}")
                    return 1
                met = met or (threads == most and turns(order) >= THREADS)
            if not met:
                print(f"{' '.join(words)}: in {number} runs there were never {most} threads at once that took turns")
                return 1
    print(f"{THREADS * ROUNDS} exchanges of {THREADS} threads at once have one order")
    return 0


if __name__ == "__main__":
    sys.exit(main())
