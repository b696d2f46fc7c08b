#!/usr/bin/env python3
"""Measures the proved program on a trace.

usage: measure.py FILE

It prints the commands of the trace, the steps that they take, the seconds from bytes to answer, the seconds of a run that
makes one step only (so nearly all of them are for reading), the most memory that the program had, and what `wc` takes for
the same file. Each time is the least of five runs. Times mean something only beside each other, from one run.
"""
import os
import re
import subprocess
import sys
import time

TOP = os.path.dirname(os.path.dirname(os.path.abspath(__file__)))
PLACES = [os.path.join(TOP, "crates", "shenrun", "out", "shenrun"), os.path.join(TOP, "out", "shenrun")]
MOST_STEPS = 100_000_000


def stop(why):
    print(f"measure.py: {why}", file=sys.stderr)
    sys.exit(2)


def run(trace, *words):
    """The seconds of a run, and its exit number."""
    with open(trace, "rb") as source:
        start = time.monotonic()
        status = subprocess.run(words, stdin=source, stdout=subprocess.DEVNULL).returncode
        return time.monotonic() - start, status


def least(trace, *words):
    return min(run(trace, *words)[0] for _ in range(5))


def memory(trace, *words):
    """The most memory of a run in bytes. What the system says of a child that has ended counts the fork of Python too, so
    the program is asked while it runs, for the first time when it has read all and waits for the end of its input."""
    most = 0
    with open(trace, "rb") as source:
        given = source.read()
    child = subprocess.Popen(words, stdin=subprocess.PIPE, stdout=subprocess.DEVNULL)
    child.stdin.write(given)
    child.stdin.flush()
    while child.poll() is None:
        with open(f"/proc/{child.pid}/status") as status:
            found = re.search(r"^VmHWM:\s+(\d+) kB", status.read(), re.M)
        most = max(most, int(found[1]) * 1024 if found else 0)
        child.stdin.close()
    return most


def steps(trace, program):
    """The steps that the trace takes: the fewest with which it is answered."""
    low, high = 0, MOST_STEPS
    while high - low > 1:
        middle = (low + high) // 2
        if run(trace, program, "replay", "--steps", str(middle))[1] == 0:
            high = middle
        else:
            low = middle
    return high


def main():
    if len(sys.argv) != 2:
        stop("it wants one word, the file of a trace")
    trace = sys.argv[1]
    if not os.path.isfile(trace) or not os.access(trace, os.R_OK):
        stop(f"there is no file {trace} that can be read")
    program = next((it for it in PLACES if os.access(it, os.X_OK)), None)
    if not program:
        stop("there is no proved program yet: rt ci makes it")
    status = run(trace, program, "replay")[1]
    if status:
        stop(f"the trace is not answered: the program ends with {status}, and docs/FORMATS.md says what that means")
    with open(trace, "rb") as source:
        commands = sum(1 for line in source if line[:1].isdigit())
    made = steps(trace, program)
    whole = least(trace, program, "replay")
    reading = least(trace, program, "replay", "--steps", "1")
    print(f"bytes {os.path.getsize(trace)}, commands {commands}, steps {made}")
    print(f"bytes to answer {whole:.3f} s, with one step {reading:.3f} s, wc {least(trace, 'wc', trace):.3f} s")
    print(f"most memory {memory(trace, program, 'replay') / 1e6:.1f} MB")
    if whole > reading:
        a_second = 1 / (whole - reading) / 1e6
        print(f"{made * a_second:.1f} million steps a second, {commands * a_second:.2f} million commands a second")


main()
