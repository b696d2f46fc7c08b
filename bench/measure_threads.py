#!/usr/bin/env python3
"""Measures the proved program under `run` beside `replay`.

usage: measure_threads.py [FILE..]

Without a file it writes three traces of its own, of four threads with 800000 commands in all: all exchange, compare-exchange,
load and store one field of the hub (`one field`); each does so with a field of an object of its own (`own fields`); each asks
only whether two of its roots are the same (`no field`), so it shares no word with another, but its state word stands beside
theirs. For each trace it prints the commands and the steps of `replay`, and for `replay` and for `run` with 1, 2 and 4 threads
of the system the time, the processor's time, the commands a second, also beside those of `replay`, and how many steps a second
the four threads of the trace make, without those of the control: as many as where one thread runs after the other, and more where
they meet, since who loses tries again. Each time is the least of
five runs, less the least of runs that read the same bytes and are refused at the last line. Times mean something only beside
each other, from one run, and those of several threads only where no other program wants the processors.
"""
import os
import subprocess
import sys
import tempfile
import time

TOP = os.path.dirname(os.path.dirname(os.path.abspath(__file__)))
PLACES = [os.path.join(TOP, "crates", "shenrun", "out", "shenrun"), os.path.join(TOP, "out", "shenrun")]
WAYS = [("replay",), ("run", "--workers", "1"), ("run", "--workers", "2"), ("run", "--workers", "4")]
ROUNDS = 5
UNFINISHED = 4
THREADS = 4
COMMANDS = 800_000
OWN_TRACES = {
    "one field": ["set 0 0 1", "get 2 0 0", "cas 0 0 2 1", "xchg 3 0 0 1"],
    "own fields": ["set 1 0 1", "get 2 1 0", "cas 1 0 2 1", "xchg 3 1 0 1"],
    "no field": ["same 0 1"],
}


def stop(why):
    print(f"measure_threads.py: {why}", file=sys.stderr)
    sys.exit(2)


def text_of(commands):
    """A trace in which each thread makes an object and then does these commands in turn."""
    lines = ["shen 1", "heap 16 256 0", f"threads {THREADS} 0"]
    for thread in range(1, THREADS + 1):
        lines.append(f"{thread} new 1 1 0")
        lines += [f"{thread} {commands[at % len(commands)]}" for at in range(COMMANDS // THREADS - 1)]
    return "\n".join(lines) + "\n"


def run(trace, *words):
    """The seconds of a run, those of the processor, and the exit number."""
    with open(trace, "rb") as source:
        start = time.monotonic()
        child = subprocess.Popen(words, stdin=source, stdout=subprocess.DEVNULL)
        _, status, used = os.wait4(child.pid, 0)
        seconds = time.monotonic() - start
    child.returncode = os.waitstatus_to_exitcode(status)
    return seconds, used.ru_utime + used.ru_stime, child.returncode


def least(trace, wanted, *words):
    """The least seconds, and the least of the processor."""
    runs = [run(trace, *words) for _ in range(ROUNDS)]
    if any(status != wanted for _, _, status in runs):
        stop(f"{' '.join(words[1:])} ends with {[status for _, _, status in runs]}, not {wanted}")
    return min(it[0] for it in runs), min(it[1] for it in runs)


def steps(program, trace):
    """The steps of the replay: the least number that it can be given."""
    low, high = 0, 1
    while run(trace, program, "replay", "--steps", str(high))[2] == UNFINISHED:
        low, high = high, high * 2
    while high - low > 1:
        middle = (low + high) // 2
        if run(trace, program, "replay", "--steps", str(middle))[2] == UNFINISHED:
            low = middle
        else:
            high = middle
    return high


def measure(program, name, trace):
    with open(trace, "rb") as source:
        given = source.read()
    count = sum(1 for line in given.splitlines() if line[:1].isdigit())
    with tempfile.NamedTemporaryFile() as refused:
        refused.write(given + b"?\n")
        refused.flush()
        reading = least(refused.name, 3, program, "replay")
    made = steps(program, trace)
    with tempfile.NamedTemporaryFile() as apart:
        threads = int(given.split(b"\n", 3)[2].split()[1])
        items = b" ".join(b"%d=%d" % (t, count) for t in range(1, threads + 1))
        apart.write(given + (b"" if b"\n!" in given else b"! " + items + b"\n"))
        apart.flush()
        own = steps(program, apart.name)
    print(f"{name}: {count} commands, {made} steps by replay, {reading[0]:.3f} s to read")
    replayed = None
    for way in WAYS:
        seconds, used = (max(it - read, 1e-6) for it, read in zip(least(trace, 0, program, *way), reading))
        replayed = replayed or seconds
        each = f", {(made if way[0] == 'replay' else own) / seconds / 1e6:.1f} million steps a second"
        print(
            f"  {' '.join(way):16} {seconds:6.3f} s, {used:6.3f} s of processors, {count / seconds / 1e6:6.2f} million"
            f" commands a second, {replayed / seconds:5.2f} of replay's{each}"
        )


def main():
    program = next((place for place in PLACES if os.access(place, os.X_OK)), None)
    if program is None:
        stop("there is no proved program yet: rt ci makes it")
    print(f"load before: {os.getloadavg()[0]:.1f} on {os.cpu_count()} processors")
    for trace in sys.argv[1:]:
        if not os.path.isfile(trace) or not os.access(trace, os.R_OK):
            stop(f"there is no file {trace} that can be read")
        measure(program, trace, trace)
    if len(sys.argv) == 1:
        for name, commands in OWN_TRACES.items():
            with tempfile.NamedTemporaryFile("w") as trace:
                trace.write(text_of(commands))
                trace.flush()
                measure(program, name, trace.name)


if __name__ == "__main__":
    main()
