#!/usr/bin/env python3
"""Measures the proved program on a churn, beside the same workload on the JDK's Shenandoah.

usage: measure_churn.py [SEED COUNT]

The two numbers are 7 and 20000 where they are not given. It prints the seconds of the whole process, the median of five, and the
commands a second; the steps and the pauses of the same scripts under `replay`, in rounds, since of threads nobody counts
them (how they are found, measure_pauses.py says); then, where there is a JDK with Shenandoah, the same of bench/Churn.java, also of its threads alone,
since most of that process is the start of the machine. Both have to write the same eight lines. Times mean something only
beside each other, from one run.
"""
import os
import statistics
import subprocess
import sys
import tempfile
import time

import measure_pauses

TOP = os.path.dirname(os.path.dirname(os.path.abspath(__file__)))
PLACES = [os.path.join(TOP, "crates", "shenrun", "out", "shenrun"), os.path.join(TOP, "out", "shenrun")]
SHENANDOAH = ["java", "-XX:+UseShenandoahGC"]


def stop(why):
    print(f"measure_churn.py: {why}", file=sys.stderr)
    sys.exit(2)


def run(*words):
    """The seconds of a process, what it writes, and its standard error."""
    start = time.monotonic()
    ended = subprocess.run(words, stdin=subprocess.DEVNULL, capture_output=True, text=True)
    seconds = time.monotonic() - start
    if ended.returncode:
        stop(f"{' '.join(words)} ends with {ended.returncode}: {ended.stdout}{ended.stderr}")
    return seconds, ended.stdout, ended.stderr


def tell(name, seconds, commands):
    middle = statistics.median(seconds)
    print(f"{name}: {middle:.3f} s, {commands / middle / 1e6:.2f} million commands a second")
    return middle


def script(seed, count, thread):
    """The commands of a thread of the workload."""
    yield from ("new 1 16 0", f"set 0 {thread} 1")
    for i in range(count):
        k = i % 16
        yield from (f"new 2 {(seed + i) % 4} {1 + i % 8}", f"wr 2 0 {seed + i + 1}", f"set 1 {k} 2", "drop 2")
        yield from (f"get 3 1 {k}", "rd 3 0", f"cas 1 {k} 3 3", f"xchg 4 1 {k} 3")


def count_steps(numbers, commands):
    """Prints what the scripts take under `replay`, with the two helpers of a churn."""
    seed, count = map(int, numbers)
    with tempfile.NamedTemporaryFile("w", suffix=".trace") as trace:
        trace.write("shen 1\nheap 16 256 2\nthreads 3 2\n")
        for thread in (1, 2, 3):
            trace.writelines(f"{thread} {command}\n" for command in script(seed, count, thread))
        trace.flush()
        steps, pauses = measure_pauses.told_of(trace.name, 6)
    kinds = ", ".join(f"{number} {what}" for what, number in sorted(pauses.items()))
    print(f"the same scripts under replay: {steps} steps, {steps / commands:.1f} a command, and {sum(pauses.values())} pauses ({kinds})")


def has_shenandoah():
    try:
        return subprocess.run([*SHENANDOAH, "-version"], capture_output=True).returncode == 0
    except OSError:
        return False


def measure_java(numbers, lines, commands, ours):
    with tempfile.TemporaryDirectory() as room:
        subprocess.run(["javac", "-d", room, os.path.join(TOP, "bench", "Churn.java")], check=True)
        runs = [run(*SHENANDOAH, "-cp", room, "Churn", *numbers) for _ in range(5)]
    if any(written != lines for _, written, _ in runs):
        stop(f"Churn.java writes other lines:\n{runs[0][1]}")
    whole = tell("Shenandoah of the JDK, whole process", [seconds for seconds, _, _ in runs], commands)
    threads = tell("Shenandoah of the JDK, its threads", [float(said.split()[-1]) for _, _, said in runs], commands)
    print(f"shenrun takes {ours / whole:.1f} times the process and {ours / threads:.1f} times the threads of the JDK")


def main():
    numbers = sys.argv[1:] or ["7", "20000"]
    program = next((it for it in PLACES if os.access(it, os.X_OK)), None)
    if not program:
        stop("there is no proved program yet: rt ci makes it")
    runs = [run(program, "churn", *numbers) for _ in range(5)]
    lines = runs[0][1]
    if any(written != lines for _, written, _ in runs):
        stop("two runs write other lines")
    print(lines, end="")
    commands = int(lines.splitlines()[2].split()[1])
    ours = tell("shenrun churn, whole process", [seconds for seconds, _, _ in runs], commands)
    count_steps(numbers, commands)
    if has_shenandoah():
        measure_java(numbers, lines, commands, ours)
    else:
        print("no JDK with Shenandoah is here, so nothing stands beside it")


if __name__ == "__main__":
    main()
