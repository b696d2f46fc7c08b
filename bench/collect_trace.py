#!/usr/bin/env python3
"""Writes a trace of three threads that must be collected all the time, for `./shenrun replay`.

usage: collect_trace.py [COMMANDS [REGIONS WORDS]] > FILE

The heap has 16 regions of 256 words, or as many as are named, and the threads have so many commands in all (30000 if left
out). Each keeps an object of 16 references below its own field of the hub, and stores a new object into one of its fields
again and again, so all but the last 16 are garbage. The same commands on a heap of 64 regions of 4096 words are never
collected as long as they are few: what the steps of the two differ by is what the pauses and the waiting take.
"""
import itertools
import sys


def script_of_collect(thread):
    """The commands of a thread, without end."""
    yield from ["new 1 16 0", f"set 0 {thread} 1"]
    for i in itertools.count():
        yield from ["new 2 1 2", f"wr 2 0 {i % 1000}", f"set 1 {i % 16} 2", f"get 3 1 {(i + 5) % 16}", "same 2 3"]


def collect(commands):
    """The lines of three threads, one command of each in turn."""
    scripts = [itertools.islice(script_of_collect(t), commands // 3) for t in (1, 2, 3)]
    return [f"{t} {command}" for row in zip(*scripts) for t, command in enumerate(row, 1)]


words = sys.argv[1:]
if len(words) not in (0, 1, 3) or not all(word.isdecimal() for word in words):
    print("collect_trace.py: it wants no words, a number of commands, or that and regions and words of a region", file=sys.stderr)
    sys.exit(2)
commands = int(words[0]) if words else 30000
regions, size = (int(words[1]), int(words[2])) if len(words) == 3 else (16, 256)
sys.stdout.write(f"shen 1\nheap {regions} {size} 0\nthreads 3 0\n")
sys.stdout.writelines(line + "\n" for line in collect(commands))
