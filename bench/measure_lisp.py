#!/usr/bin/env python3
"""Measures the Lisp of library/users/lisp over the heap, beside the same source over malloc with nothing freed and over Boehm's collector.

usage: measure_lisp.py [ROUNDS]

ROUNDS is 5 where it is not given. The three are compiled alike, by CC (cc) with -O2, and run in turn in each round; all have to print the same. What is told
are medians, of the programs alone, without the start: seconds on the clock; seconds of processors, which are the threads that collect too; the
nanoseconds of processors for a command, of which the Lisp over malloc counts how many there are; and how many times as much of both the heap takes as
each other memory. The heap is tried with collections where it wants room, and with one always asked for; and with 4 threads, each of which runs the same
program. Times mean something only beside each other, from one run.

The archive is the one that COVREMUJ_ARCHIVE names, or else that of library/build.sh. Boehm's collector is Debian's libgc-dev; nothing is installed,
and what is missing is named and passed over.
"""
import os
import re
import shutil
import statistics
import subprocess
import sys
import tempfile

TOP = os.path.dirname(os.path.dirname(os.path.abspath(__file__)))
LISP = os.path.join(TOP, "library", "users", "lisp")
PROGRAMS = os.path.join(LISP, "programs")
CC = os.environ.get("CC", "cc")

# A program, its size, and what it is: calls and numbers, calls, lists, lists and vectors, strings, lists that stay for a while.
SIZES = [("fib", 21), ("tak", 18), ("queens", 7), ("sort", 300), ("text", 2000), ("churn", 3000)]

# The heap, by what its collector does.
HEAPS = {
    "collecting where it wants room": ["--regions", "64", "--words", "1024", "--helpers", "1"],
    "always collecting": ["--regions", "64", "--words", "1024", "--helpers", "1", "--every", "100"],
}


def stop(why):
    print(f"measure_lisp.py: {why}", file=sys.stderr)
    sys.exit(2)


def say(what):
    print(what, flush=True)


def sources():
    return sorted(
        os.path.join(LISP, name) for name in os.listdir(LISP) if name.endswith(".c") and not name.startswith("test_")
    )


def compiled(folder, name, flags, libraries):
    """The Lisp over one memory; None where it does not compile, with the first line of why."""
    program = os.path.join(folder, name)
    words = [CC, "-std=c11", "-O2", *flags, "-I", LISP, *sources(), *libraries, "-pthread", "-o", program]
    done = subprocess.run(words, capture_output=True, text=True)
    if done.returncode:
        errors = [line for line in done.stderr.splitlines() if "error" in line or "undefined" in line]
        say(f"  {name} is not measured: {errors[0] if errors else done.stderr.strip()}")
        return None
    return program


def archive(folder):
    """The library for C, which library/build.sh makes."""
    built = subprocess.run([os.path.join(TOP, "library", "build.sh"), folder], capture_output=True, text=True)
    if built.returncode:
        say(f"  covremuj is not measured: {built.stderr.strip()}")
        return None
    return os.path.join(folder, "libcovremuj.a")


def all_compiled(folder):
    """Each memory with its program, and the one that counts commands."""
    lisps = {}
    library = archive(folder)
    if library:
        lisps["covremuj"] = compiled(folder, "covremuj", ["-I", os.path.join(TOP, "include")], [library])
    lisps["malloc"] = compiled(folder, "malloc", ["-DLISP_OVER_MALLOC"], [])
    lisps["boehm"] = compiled(folder, "boehm", ["-DLISP_OVER_BOEHM"], ["-lgc"])
    if lisps["boehm"] is None:
        say("  Boehm's collector is Debian's package libgc-dev")
    counting = compiled(folder, "counting", ["-DLISP_OVER_MALLOC", "-DLISP_COUNTING"], [])
    return {name: program for name, program in lisps.items() if program}, counting


def run(program, name, size, threads, words):
    """What it prints, its seconds on the clock and of processors, and all that it tells."""
    orders = [program, "--counts", "--threads", str(threads), "--size", str(size), *words]
    done = subprocess.run([*orders, os.path.join(PROGRAMS, name + ".lisp")], capture_output=True, text=True, timeout=600)
    told = re.search(r"([0-9.]+) seconds, ([0-9.]+) of processors", done.stderr)
    if done.returncode or not told:
        stop(f"{program} {name}: {done.stdout}{done.stderr}")
    return done.stdout, (float(told.group(1)), float(told.group(2))), done.stderr.strip()


def commands(counting, name, size):
    """How many commands one thread gives in the program."""
    told = re.search(r"([0-9]+) commands", run(counting, name, size, 1, [])[2])
    return int(told.group(1))


def rounds(lisps, name, size, threads, heap, count):
    """The medians of the seconds of each memory, and what the heap told last."""
    seconds = {memory: [] for memory in lisps}
    printed = set()
    told = ""
    for _ in range(count):
        for memory, program in lisps.items():
            text, took, said = run(program, name, size, threads, HEAPS[heap] if memory == "covremuj" else [])
            seconds[memory].append(took)
            printed.add(text)
            told = said if memory == "covremuj" else told
    if len(printed) != 1:
        stop(f"{name}: they print {printed}")
    return {memory: [statistics.median(kind) for kind in zip(*took)] for memory, took in seconds.items()}, told


def turns(told, heap):
    """How many times the words of the heap its objects took: the collector had to free that many, but for one."""
    words = dict(zip(HEAPS[heap][::2], HEAPS[heap][1::2]))
    found = re.search(r"([0-9]+) words", told)
    return int(found.group(1)) / (int(words["--regions"]) * int(words["--words"])) if found else 0


def times(ours, other):
    return f"{ours / other:.0f}" if other > 0 else "?"


def tell(name, size, given, middle, told, heap):
    """One line: of each memory the seconds and the nanoseconds of a command, and the ratios."""
    parts = [
        f"{memory} {clock:.3f} s, {used:.3f} s of processors ({1e9 * used / given:.1f} ns a command)" for memory, (clock, used) in middle.items()
    ]
    ours = middle.get("covremuj")
    if ours:
        others = [(memory, both) for memory, both in middle.items() if memory != "covremuj"]
        parts += [f"{times(ours[0], clock)} and {times(ours[1], used)} times {memory}" for memory, (clock, used) in others]
        parts.append(f"{turns(told, heap):.1f} times the words of its heap")
    say(f"  {name} {size}, {given} commands: " + "; ".join(parts))


def main():
    count = 5
    if len(sys.argv) > 2 or (len(sys.argv) == 2 and not re.fullmatch("[1-9][0-9]?", sys.argv[1])):
        stop("usage: measure_lisp.py [ROUNDS]")
    if len(sys.argv) == 2:
        count = int(sys.argv[1])
    if not shutil.which(CC):
        stop(f"there is no {CC}")
    with tempfile.TemporaryDirectory() as folder:
        lisps, counting = all_compiled(folder)
        if not counting:
            stop("the Lisp does not compile")
        given = {name: commands(counting, name, size) for name, size in SIZES}
        for heap in HEAPS:
            for threads in (1, 4):
                say(f"{heap}, {threads} thread{'s' if threads > 1 else ''}, medians of {count}:")
                for name, size in SIZES:
                    middle, told = rounds(lisps, name, size, threads, heap, count)
                    tell(name, size, threads * given[name], middle, told, heap)


main()
