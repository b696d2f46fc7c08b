#!/usr/bin/env python3
"""Measures dumps of a heap of the largest size, and going on from one beside replaying from the start.

usage: measure_dump.py

A thread makes a list of objects of four words in a heap of 64 regions of 1024 words, until a quarter, a half and nearly all of it are used.
For each it prints the objects and the bytes of the dump, and the seconds of `replay`, of `replay --dump`, and of `resume` on the dump without
a command and with one that makes no object, with the microseconds of each of the last three for an object. Then it prints by how much the
last is faster than the replay of the whole trace with that command behind it. Each time is the least of three runs. Times mean something only
beside each other, from one run.
"""
import os
import subprocess
import sys
import tempfile
import time

sys.dont_write_bytecode = True
TOP = os.path.dirname(os.path.dirname(os.path.abspath(__file__)))
sys.path.insert(0, os.path.join(TOP, "check"))
from cases import program  # pylint: disable=wrong-import-position

RUNS, MOST = 3, 16_000
HEAD = ["shen 1", "heap 64 1024 0", "threads 1 0"]
# The first object of the list in root 1 and the last in root 2; and one more behind the last.
FIRST = ["new 1 1 0", "copy 2 1"]
LONGER = ["new 3 1 0", "set 2 0 3", "copy 2 3"]


def text_of(lines):
    """The lines, each with its end."""
    return "".join(f"{it}\n" for it in lines)


def trace(objects):
    """A trace of a thread that keeps so many objects in a list, and lets go what does not belong to it."""
    return text_of(HEAD + [f"1 {it}" for it in FIRST + LONGER * (objects - 1) + ["drop 3"]])


def timed(words, text):
    """The seconds of the least of some runs of the program on this input, and what it writes."""
    seconds, written = [], b""
    with tempfile.TemporaryFile() as source:
        source.write(text.encode())
        for _ in range(RUNS):
            source.seek(0)
            start = time.monotonic()
            ran = subprocess.run([program("shenrun"), *words.split()], stdin=source, stdout=subprocess.PIPE, check=False)
            seconds.append(time.monotonic() - start)
            if ran.returncode:
                sys.exit(f"measure_dump.py: {words} ends with {ran.returncode}")
            written = ran.stdout.decode()
    return min(seconds), written


def main():
    """Makes the runs, and prints what they took."""
    if not program("shenrun"):
        sys.exit("measure_dump.py: there is no proved program yet: rt ci makes it")
    for objects in (MOST // 4, MOST // 2, MOST):
        text = trace(objects)
        replayed, _ = timed("replay", text)
        dumped, dump = timed("replay --dump", text)
        counts = dump.split("\n", 4)[3]
        if counts != f"counts {objects}":
            sys.exit(f"measure_dump.py: the dump has {counts}")
        resumed, same = timed("resume", dump + "trace\n")
        if dump.split("\n", 4)[4] not in same:
            sys.exit("measure_dump.py: the resumed heap has another graph")
        further, _ = timed("resume", dump + "trace\n1 rd 1 0\n")
        again, _ = timed("replay", text + "1 rd 1 0\n")
        each = [f"{it * 1e6 / objects:.2f}" for it in (dumped, resumed, further)]
        print(f"{objects} objects, {len(dump)} bytes: replay {replayed:.3f} s, with --dump {dumped:.3f} s, resume {resumed:.3f} s and {further:.3f} s")
        print(f"  microseconds for an object: {' '.join(each)}; replaying again takes {again / further:.1f} times as long as resuming")


main()
