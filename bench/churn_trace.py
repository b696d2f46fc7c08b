#!/usr/bin/env python3
"""Writes a trace of three busy threads for `./shenrun replay`.

usage: churn_trace.py [COMMANDS] > FILE

The heap has 64 regions of 1024 words, and the threads have so many commands in all (200000 if left out). Each works below
its own field of the hub, on an object of 16 references and on 16 small ones, by stores, loads, compare-exchanges and
exchanges. It makes no more objects than fit, so that hardly any step is one of a pause.
"""
import itertools
import sys


def script_of_churn(thread):
    """The commands of a thread, without end."""
    yield from ["new 1 16 0", f"set 0 {thread} 1"]
    for k in range(16):
        yield from ["new 2 1 1", f"wr 2 0 {k}", f"set 1 {k} 2"]
    for i in itertools.count():
        k, other = i % 16, (i + 5) % 16
        yield from [
            f"get 3 1 {k}",
            f"wr 3 0 {i}",
            f"get 4 1 {other}",
            "set 3 0 4",
            f"xchg 5 1 {k} 4",
            f"cas 1 {k} 4 3",
            "rd 3 0",
            "same 3 5",
        ]


def churn(commands):
    """The lines of three threads, one command of each in turn."""
    scripts = [itertools.islice(script_of_churn(t), commands // 3) for t in (1, 2, 3)]
    return [f"{t} {command}" for row in zip(*scripts) for t, command in enumerate(row, 1)]


words = sys.argv[1:]
if len(words) > 1 or not all(word.isdecimal() for word in words):
    sys.exit("churn_trace.py: it wants the number of commands, if not 200000")
number = int(words[0]) if words else 200_000
sys.stdout.write("shen 1\nheap 64 1024 0\nthreads 3 0\n")
sys.stdout.writelines(line + "\n" for line in churn(number))
