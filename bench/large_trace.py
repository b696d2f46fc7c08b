#!/usr/bin/env python3
"""Writes a large trace for `./shenrun replay`.

usage: large_trace.py short|mixed [BYTES] > FILE

`short` has as many commands as the bytes hold: each asks for a cycle. `mixed` has eight threads, all commands and a long
schedule, and few enough objects for its heap. The trace has at most BYTES bytes, 16777216 if left out.
"""
import sys

words = sys.argv[1:]
if len(words) not in (1, 2) or words[0] not in ("short", "mixed") or not all(word.isdecimal() for word in words[1:]):
    sys.exit("large_trace.py: it wants short or mixed, and then the most bytes, if not 16777216")
kind = words[0]
limit = int(words[1]) if len(words) > 1 else 16_777_216
state = 12345


def below(n):
    """A number from 0 to n - 1, the same in each run."""
    global state
    state = (state * 6364136223846793005 + 1442695040888963407) % 2**64
    return (state >> 33) % n


def root():
    return below(16)


def target():
    """A root that may be written: root 0 goes on naming the hub."""
    return 1 + below(15)


# How often of forty, and the words behind the thread, of each command that makes no object.
COMMANDS = [
    (5, lambda: f"get {target()} {root()} {root()}"),
    (4, lambda: f"set {root()} {root()} {root()}"),
    (4, lambda: f"cas {root()} {root()} {root()} {root()}"),
    (3, lambda: f"xchg {target()} {root()} {root()} {root()}"),
    (3, lambda: f"rd {root()} {root()}"),
    (3, lambda: f"wr {root()} {root()} {below(100)}"),
    (3, lambda: f"copy {target()} {root()}"),
    (2, lambda: f"same {root()} {root()}"),
    (1, lambda: f"drop {8 + below(8)}"),
    (11, lambda: "gc"),
]
WRITERS = [write for often, write in COMMANDS for _ in range(often)]


def command(words):
    """The words of a command behind the thread, and the words of the object that it makes."""
    which = below(40)
    if which == 0 and words > 35:
        refs, nums = below(17), below(17)
        return f"new {target()} {refs} {nums}", 3 + refs + nums
    return WRITERS[max(which - 1, 0)](), 0


def item():
    if below(2) == 0:
        return f" {1 + below(12)}:{1 + below(30)}"
    return f" {1 + below(8)}@" + ["FL", "CX", "LV", "RS", "PH"][below(5)]


def short():
    head = "shen 1\nheap 4 64 0\nthreads 1 0\n"
    return head + "1 gc\n" * ((limit - len(head)) // 5)


def mixed():
    out = ["shen 1\nheap 64 1024 2\nthreads 8 3\n"]
    size = len(out[0])
    words = 50 * 900
    while size < limit * 39 // 40:
        text, made = command(words)
        words -= made
        out.append(f"{1 + below(8)} {text}\n")
        size += len(out[-1])
    while size + 240 < limit:
        line = "!"
        while len(line) < 200:
            line += item()
        out.append(line + "\n")
        size += len(out[-1])
    return "".join(out)


sys.stdout.write(short() if kind == "short" else mixed())
