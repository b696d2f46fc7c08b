#!/usr/bin/env python3
"""Measures ./shenfind beside a plain replay, and how the schedules of a test grow with its preemptions.

usage: measure_find.py [TEST [MOST]]   a test (examples/find/queue.test), and the most preemptions (3)

It runs what ./shenfind and ./shenrun run, so the proved programs where they are there. A row for each number of preemptions: schedules, steps,
histories, seconds, and schedules and steps a second; with the reduction, and up to one preemption less without it. The last row is a replay of the
trace of a test that is broken, many times. loom is no crate here, so it is not measured; its model of a program has no collector, and its steps
are accesses of atomics of the program, where a step here is one access of one word of the heap's table.
"""
import os
import subprocess
import sys
import time

TOP = os.path.dirname(os.path.dirname(os.path.abspath(__file__)))


def timed(command, text):
    """The seconds that a command takes on this input, and what it writes among the errors."""
    begin = time.monotonic()
    ran = subprocess.run(command, input=text, text=True, capture_output=True, check=False)
    return time.monotonic() - begin, ran


def row(lines, preemptions, words):
    """One row of the table."""
    lines = list(lines)
    lines[3] = f"bounds {preemptions} " + lines[3].split(" ", 2)[2]
    seconds, ran = timed([f"{TOP}/shenfind", "all", "--through", *words], "\n".join(lines))
    counts = dict(line.rsplit(" ", 1) for line in ran.stderr.splitlines() if " " in line and not line.startswith("shenfind"))
    schedules, steps = int(counts["schedules"]), int(counts["steps"])
    kind = "whole" if words else "reduced"
    print(f"{preemptions:11} {kind:8} {schedules:10} {steps:12} {counts['histories']:>10} {seconds:8.2f} {schedules / seconds:12.0f} {steps / seconds:12.0f}")


def main():
    path = sys.argv[1] if len(sys.argv) > 1 else f"{TOP}/examples/find/queue.test"
    most = int(sys.argv[2]) if len(sys.argv) > 2 else 3
    with open(path, encoding="ascii") as file:
        lines = file.read().split("\n")
    print("preemptions kind      schedules        steps  histories  seconds  schedules/s      steps/s")
    for preemptions in range(most + 1):
        row(lines, preemptions, [])
        if preemptions < most:
            row(lines, preemptions, ["--unreduced"])
    with open(f"{TOP}/examples/find/stack_again.trace", encoding="ascii") as file:
        trace = file.read()
    runs = 20
    seconds = sum(timed([f"{TOP}/shenrun", "replay"], trace)[0] for _ in range(runs))
    print(f"a replay of stack_again.trace, with the start of the program: {seconds / runs:.4f} s")


if __name__ == "__main__":
    main()
