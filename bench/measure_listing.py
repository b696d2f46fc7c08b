#!/usr/bin/env python3
"""Measures the listing of a trace whose control collects all the time, in each of its forms.

usage: measure_listing.py [EVENTS [OTHER]]     ten million events without words; OTHER is another program of the same kind, as of a parent

It prints the seconds and the most memory of each form, for so many events and for a tenth of them. Times mean something only beside each
other, from one run.
"""
import os
import re
import subprocess
import sys
import time

sys.dont_write_bytecode = True
TOP = os.path.dirname(os.path.dirname(os.path.abspath(__file__)))
sys.path.insert(0, os.path.join(TOP, "check"))
from cases import program  # pylint: disable=wrong-import-position

EVENTS = 10_000_000
FORMS = [[], ["--no-fold", "--pauses", "full"], ["--pauses", "full"], ["--json", "--pauses", "full"], ["--calls"]]
ROUND = ["new 1 1 2", "set 0 {0} 1", "new 2 16 16", "get 3 0 {0}", "wr 3 0 7", "rd 3 0", "new 2 16 16", "drop 2", "gc"]


def trace():
    """A trace of two threads and a helper that makes garbage and asks for cycles."""
    lines = ["shen 1", "heap 8 256 1", "threads 2 1"]
    for turn in range(8000):
        for thread in (1, 2):
            lines += [f"{thread} {it.format(thread + 2 * (turn % 4))}" for it in ROUND]
    return ("\n".join(lines) + "\n").encode()


def run(path, words, text):
    """The seconds of a listing, the bytes that the program had at most, and the bytes that it has written."""
    start, most = time.monotonic(), 0
    with subprocess.Popen([path, *words], stdin=subprocess.PIPE, stdout=subprocess.PIPE) as child:
        child.stdin.write(text)
        child.stdin.close()
        written = 0
        for count, piece in enumerate(iter(lambda: child.stdout.read1(1 << 20), b"")):
            written += len(piece)
            if count % 100 == 0:
                with open(f"/proc/{child.pid}/status", encoding="ascii") as status:
                    found = re.search(r"^VmHWM:\s+(\d+) kB", status.read(), re.M)
                most = max(most, int(found[1]) * 1024 if found else 0)
    return time.monotonic() - start, most, written


def main():
    events = int(sys.argv[1]) if len(sys.argv) > 1 else EVENTS
    own = program("shensteps")
    if not own:
        print("measure_listing.py: there is no proved program yet: rt ci makes it", file=sys.stderr)
        return 2
    forms = [(own, "this", words) for words in FORMS] + [(it, "the other", []) for it in sys.argv[2:3]]
    for path, name, words in forms:
        for steps in (events // 10, events):
            seconds, most, written = run(path, ["--steps", str(steps), *words], trace())
            print(f"{name} {' '.join(words) or 'without words'}: {steps} events, {seconds:.2f} s, {written / 1e6:.1f} MB, {most / 1e6:.1f} MB of memory")
    return 0


sys.exit(main())
