#!/usr/bin/env python3
"""Holds the counts of ./shenfind to a model, and to itself.

usage: test_finding.py [COUNT]   (of random tests, 30)

Each test is searched whole, and the numbers of different histories and outcomes have to be those of `interleaving.py`, which knows commands and no
steps: tests of examples/find with up to 2 preemptions, and random small ones. Then some are searched with and without `--unreduced`, also with
`--cycles`: the same numbers again, and the same kinds of verdicts.
"""
import itertools
import os
import random
import subprocess
import sys

from interleaving import explored

TOP = os.path.dirname(os.path.dirname(os.path.abspath(__file__)))
MODELLED = [("increment", 2), ("stack", 1), ("stack_again", 1), ("lock", 2), ("lock_kept", 2), ("queue", 1), ("queue_tail_first", 2), ("list", 1), ("list_lost", 2)]
UNREDUCED = [
    ("increment", 2, []),
    ("increment", 1, ["--cycles"]),
    ("lock", 1, []),
    ("lock_kept", 1, []),
    ("list_lost", 1, []),
    ("queue", 1, []),
    ("stack_again", 1, []),
]
REPLIES = ("yes", "no", "null", "object", "ok", "bad", "0", "1")


def example(name, preemptions):
    """A test of examples/find with so many preemptions."""
    with open(f"{TOP}/examples/find/{name}.test", encoding="ascii") as file:
        lines = file.read().split("\n")
    lines[3] = f"bounds {preemptions} " + lines[3].split(" ", 2)[2]
    return "\n".join(lines)


def command(rand):
    """A command on the first field of the hub, where threads meet, or on what two roots have."""
    own, b, c = rand.choice("ab"), rand.choice("ab"), rand.choice("ab")
    return rand.choice([
        *[f"get {own} hub 0"] * 3,
        *[f"set hub 0 {own}"] * 2,
        *[f"cas hub 0 {b} {c}"] * 3,
        f"xchg {own} hub 0 {b}",
        f"xchg {own} hub 0 none",
        *[f"rd {own} 0"] * 2,
        *[f"wr {own} 0 {rand.randint(0, 1)}"] * 2,
        f"set {b} 0 {c}",
        f"get {own} {b} 0",
        f"same {b} {c}",
    ])


def lines_of(rand, count, depth):
    """Some statements, in which loops and conditions stand."""
    lines = []
    for _ in range(count):
        kind = rand.randint(0, 7) if depth else 7
        if kind == 0:
            lines += ["loop", command(rand), f"until {rand.choice(REPLIES)}", *lines_of(rand, 1, depth - 1), "end"]
        elif kind == 1:
            lines += [f"if {rand.choice(REPLIES)}", *lines_of(rand, 1, depth - 1), *rand.choice([[], ["else", *lines_of(rand, 1, depth - 1)]]), "end"]
        elif kind == 2:
            lines.append(f"keep {rand.choice('mn')}")
        else:
            lines.append(command(rand))
    return lines


def small(seed):
    """A random test of two or three threads."""
    rand = random.Random(seed)
    threads = rand.randint(2, 3)
    lines = ["shen 1", "heap 8 64 0", f"threads {threads} 0", f"bounds {rand.randint(0, 4 - threads)} 10000 {rand.randint(0, 3)}", "note m", "note n"]
    for _ in range(threads):
        lines += ["thread", "root none", "root a", "root b", "new a 1 1", *lines_of(rand, rand.randint(2, 4), 2)]
    return "\n".join(lines) + "\n"


def racing(count):
    """So many random tests, each of which has more than three histories, with what the model has of it."""
    tests = ((seed, small(seed)) for seed in itertools.count(1))
    modelled = ((f"random test {seed}", text, explored(text)) for seed, text in tests)
    return list(itertools.islice((it for it in modelled if it[2]["histories"] > 3), count))


def counts(text, *words):
    """The report on all schedules of a test, as a dictionary."""
    ran = subprocess.run([f"{TOP}/shenfind", "all", "--through", *words], input=text, text=True, capture_output=True, check=False)
    told = dict(line.rsplit(" ", 1) for line in ran.stderr.splitlines() if " " in line and not line.startswith("shenfind"))
    if ran.returncode not in (0, 10, 11) or told["unrun"] != "0" or told["cut"] != "0":
        sys.exit(f"check/test_finding.py: status {ran.returncode}: {ran.stderr}\n{text}")
    return told


def differ(told, wanted, found, what):
    """Says where two reports differ in these counts; whether they do."""
    wrong = [it for it in what if str(wanted[it]) != str(found[it])]
    for it in wrong:
        print(f"check/test_finding.py: {told}: {found[it]} {it}, and not {wanted[it]}")
    return bool(wrong)


def kinds(report):
    """A report in which only tells whether a run fails, and whether one is stuck."""
    return {**report, "failing": report["failing"] != "0", "stuck": report["stuck"] != "0"}


def main():
    modelled = [(f"{name}, {it} preemptions", example(name, it)) for name, most in MODELLED for it in range(most + 1)]
    modelled = [(told, text, explored(text)) for told, text in modelled]
    modelled += racing(int(sys.argv[1]) if len(sys.argv) > 1 else 30)
    failed = 0
    for told, text, wanted in modelled:
        failed += differ(told, wanted, counts(text), ("histories", "outcomes"))
    for name, preemptions, words in UNREDUCED:
        text = example(name, preemptions)
        told = f"{name}, {preemptions} preemptions {' '.join(words)}".strip()
        failed += differ(told, kinds(counts(text, *words, "--unreduced")), kinds(counts(text, *words)), ("histories", "outcomes", "failing", "stuck"))
    if not failed:
        print(f"{len(modelled)} searches met what the model has, and {len(UNREDUCED)} the same without the reduction")
    return int(failed > 0)


if __name__ == "__main__":
    sys.exit(main())
