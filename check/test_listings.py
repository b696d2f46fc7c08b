#!/usr/bin/env python3
"""Compares the listings in pages with what the program writes, and checks where listings say that calls are settled.

In a page an indented line that begins with ./shensteps is a command, to be run at the top of the repository; the indented
lines behind it are what it writes. With --write the pages get what it writes now; read them then. The other listings are of
random traces, as settling.py makes them and checks them. A table of calls says what refusals and short listings write, and
with which status they end. No answer of it was taken from the program.

usage: test_listings.py [--write]
"""
import collections
import os
import pathlib
import subprocess
import sys

sys.dont_write_bytecode = True
from listed import objects  # pylint: disable=wrong-import-position
from settling import trace, wrong  # pylint: disable=wrong-import-position

TOP = pathlib.Path(__file__).resolve().parent.parent
PAGES = ["README.md", "docs/RACES.md", "docs/QUEUE.md"]
INDENT = "    "
PROGRAMS = [TOP / "crates" / "shensteps" / "out" / "shensteps", TOP / "out" / "shensteps"]
TRACES = 60
# Each command with each reply that it can be given, where all references are one and all numbers are.
KINDS = 26

# Words, what is read, the status and what is written.
FORM = (
    "bad words: the form is shensteps [--steps N] [--from N] [--to N] [--item N] [--only MACHINE,..] [--place CODE,..] [--object NAME]"
    " [--word WORD] [--calls] [--pauses line|changed|full] [--no-fold] [--columns] [--heap [changed]] [--heap-at N] [--json]"
    " [--color always|never|auto] [--progress]\n"
)
ASKS = "shen 1\nheap 4 64 0\nthreads 1 0\n1 gc\n"
# The control looks first whether a mutator is left, as in each round after that of the mutator.
LISTED = """ event  machine   at  access (@3+0: in region 3 at word 0, from 0)  found             says
-- rounds
     3  thread 1  E2  load pause word                               0
     5  thread 1  PH  load phase                                    0
machines: thread 1 at CS, control at I0
replies of thread 1:
unfinished after 6 steps
"""
MAKES = "shen 1\nheap 4 64 0\nthreads 1 0\n1 new 1 0 0\n"
NOTHING = f"{LISTED.splitlines()[0]}\nno event is listed that names 1.1\n"
NO_EVENT = f"{LISTED.splitlines()[0]}\nthere is no event 4000, behind which the heap was to be shown\n"
HAS = "in this heap, which has 1 thread, 0 helpers and the control\n"
REFUSED = (
    "replay",
    "--steps",
    "--steps 0",
    "--steps 4000000001",
    "--steps 1 --steps 1",
    "--heap --heap",
    "--only 1000000000",
    "--only 1,",
    "--only thread",
    "--pauses some",
    "--from 01",
    "--heap ",
    "--heap changed --heap",
    "--color some",
)
CALLS = [
    *((words, ASKS, 2, FORM) for words in REFUSED),
    ("", "heap 1\n", 3, "bad line 1: header wanted\n"),
    ("--only 1 --steps 6 --from 2", ASKS, 4, LISTED),
    ("--only 1,3", ASKS, 2, f"bad words: there is no machine 3 {HAS}"),
    ("--only 13", ASKS, 2, f"bad words: there is no machine 13 {HAS}"),
    ("--only thread_9,1", ASKS, 2, f"bad words: there is no thread 9 {HAS}"),
    ("--only helper_4", ASKS, 2, f"bad words: there is no helper 4 {HAS}"),
    ("--only control,4", ASKS, 2, f"bad words: there is no machine 4 {HAS}"),
    ("--only helper_1,1", ASKS, 2, f"bad words: there is no helper 1 {HAS}"),
    ("--only thread_2", ASKS, 2, f"bad words: there is no thread 2 {HAS}"),
    ("--place HX,ZZ", ASKS, 2, "bad words: there is no place ZZ\n"),
    *((f"--object {it}", ASKS, 2, f"bad words: there is no object {it} in this trace\n") for it in ("1.1", "2.1", "0.2", "1", "x.1")),
    *((f"--object {it}", MAKES, 2, f"bad words: there is no object {it} in this trace\n") for it in ("1.2", "1.01", "1.0")),
    ("--object 1.1 --from 9 --to 8", MAKES, 0, NOTHING),
    ("--heap-at 4000 --from 3 --to 2", MAKES, 0, NO_EVENT),
    ("--item 1", ASKS, 2, "bad words: there is no item 1 in this schedule, which has 0\n"),
]


def written(command):
    """What a command writes, as indented lines."""
    wide = {**os.environ, "COLUMNS": "200"}
    run = subprocess.run(["sh", "-c", command], cwd=TOP, env=wide, stdout=subprocess.PIPE, text=True, check=False)
    return [(INDENT + line).rstrip() for line in run.stdout.splitlines()]


def renewed(lines):
    """The lines of a page with what its commands write now, and how many commands there are."""
    new, count, at = [], 0, 0
    while at < len(lines):
        line = lines[at]
        new.append(line)
        at += 1
        if line.startswith(INDENT + "./shensteps"):
            count += 1
            new += written(line.strip())
            while at < len(lines) and lines[at].startswith(INDENT):
                at += 1
    return new, count


def is_settled_well():
    """Whether the listings of random traces say rightly where each call is settled."""
    kinds = collections.Counter()
    for seed in range(TRACES):
        status, listing = objects(trace(seed), "--pauses", "full")
        event = wrong(listing, kinds)
        if status or event:
            print(f"trace({seed}) of settling.py, status {status}: {event}")
            return False
    print(f"{sum(kinds.values())} calls are settled where the listings of {TRACES} random traces say so")
    return len(kinds) == KINDS


def has_bars(program, columns):
    """Whether the heap is shown with bars in a terminal of so many columns."""
    env = {**os.environ, "COLUMNS": columns}
    run = subprocess.run([program, "--heap"], input=trace(0), env=env, stdout=subprocess.PIPE, text=True, check=False)
    return "[#" in run.stdout


def answers(program, words, text, status, wanted):
    """Whether a call ends with the status, and writes what is wanted: a listing, or a line on the standard error. `_` is a space in a word."""
    split = [it.replace("_", " ") for it in words.split(" ")] if words else []
    run = subprocess.run([program, *split], input=text, capture_output=True, text=True, check=False)
    if (run.returncode, run.stdout, run.stderr) == (status, *((wanted, "") if status in (0, 4) else ("", wanted))):
        return True
    print(f"shensteps {words} ends with {run.returncode}, and writes:\n{run.stdout}{run.stderr}")
    return False


def tells_full_disk(program):
    """Whether a call ends with the status of a write that failed."""
    with open("/dev/full", "w", encoding="utf-8") as full:
        run = subprocess.run([program, "--heap", "--steps", "9"], input=ASKS, stdout=full, text=True, check=False)
    if run.returncode != 6:
        print(f"shensteps ends with {run.returncode} where it cannot write")
    return run.returncode == 6


def is_well():
    """Whether the program does what the pages do not show."""
    program = next((it for it in PROGRAMS if os.access(it, os.X_OK)), None)
    if not program:
        print("there is no proved program yet: rt ci makes it")
        return False
    bars = [has_bars(program, columns) for columns in ("99", "100", "")]
    if bars != [False, True, True]:
        print("the heap does not have bars exactly where a line may have 100 columns")
    calls = [answers(program, *call) for call in CALLS]
    return all(calls) and tells_full_disk(program) and is_settled_well() and bars == [False, True, True]


def main():
    failed, listings = "--write" not in sys.argv and not is_well(), 0
    for page in PAGES:
        path = TOP / page
        lines = path.read_text().splitlines()
        new, count = renewed(lines)
        listings += count
        if "--write" in sys.argv:
            path.write_text("\n".join(new) + "\n")
        elif new != lines:
            failed = True
            for number, (old, now) in enumerate(zip(lines, new), 1):
                if old != now:
                    print(f"{page}:{number}: the program writes another line: {now.strip()}")
                    break
            else:
                print(f"{page}: the program writes more or fewer lines")
    if listings < 5:
        failed = True
        print(f"only {listings} listings were found")
    print(f"{listings} listings were compared")
    return failed


sys.exit(main())
