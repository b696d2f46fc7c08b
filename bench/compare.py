#!/usr/bin/env python3
"""Measures two programs side by side, of two commits say.

usage: compare.py BEFORE AFTER [COUNT]

The two are files of the program, as crates/shenrun/out/shenrun of two checkouts. Both get the same inputs by turns, seven times
each, and have to answer the same. It prints the median of the seconds of each and of those of the processor, and what the second
takes beside the first; and, where there is valgrind, the instructions of both on inputs of a tenth of the size. The inputs, for COUNT rounds of a churn, 20000 where it is not given:

- the scripts of `churn 7 COUNT` under `replay`, in rounds: nearly all steps are those of pauses;
- the same where the schedule runs one thread after the other until it has given its replies, so that the items run the pauses;
- the same under `run` with one thread of the system;
- `churn 7 COUNT` itself, each machine in a thread of its own;
- a churn that nobody collects (churn_trace.py): what a step takes outside pauses.

Times mean something only beside each other, from one run.
"""
import os
import shutil
import statistics
import subprocess
import sys
import tempfile
import time

from measure_churn import script

HERE = os.path.dirname(os.path.abspath(__file__))
MOST_STEPS = "4000000000"
ROUNDS = 7


def stop(why):
    print(f"compare.py: {why}", file=sys.stderr)
    sys.exit(2)


def churn_trace(folder, name, count, schedule):
    """Writes the scripts of a churn as a trace, with this schedule in front of them."""
    path = os.path.join(folder, name)
    with open(path, "w") as trace:
        trace.write("shen 1\nheap 16 256 2\nthreads 3 2\n")
        for thread in (1, 2, 3):
            trace.writelines(f"{thread} {command}\n" for command in script(7, count, thread))
        trace.write(schedule)
    return path


def uncollected_trace(folder, name, commands):
    """Writes a churn that nobody collects."""
    path = os.path.join(folder, name)
    with open(path, "wb") as trace:
        subprocess.run([sys.executable, os.path.join(HERE, "churn_trace.py"), str(commands)], stdout=trace, check=True)
    return path


def inputs(folder, count):
    """What is run: its name, the trace or none, and the words of the program."""
    replies = 8 * count + 2
    in_turn = f"! 1={replies} 2={replies} 3={replies}\n"
    rounds = churn_trace(folder, f"rounds.{count}", count, "")
    items = churn_trace(folder, f"items.{count}", count, in_turn)
    calm = uncollected_trace(folder, f"calm.{count}", 12 * count)
    replay = ("replay", "--steps", MOST_STEPS)
    return [
        ("replay of the churn scripts, in rounds", rounds, replay),
        ("replay of the churn scripts, by items", items, replay),
        ("run --workers 1 of the churn scripts", rounds, ("run", "--workers", "1")),
        (f"churn 7 {count}", None, ("churn", "7", str(count))),
        ("replay of a churn that nobody collects", calm, replay),
    ]


def run(program, trace, words, before=()):
    """The seconds of a run, those of the processor, and what it writes."""
    with open(trace or os.devnull, "rb") as source, tempfile.TemporaryFile() as answer, tempfile.TemporaryFile() as said:
        start = time.monotonic()
        child = subprocess.Popen([*before, program, *words], stdin=source, stdout=answer, stderr=said)
        _, status, used = os.wait4(child.pid, 0)
        seconds = time.monotonic() - start
        child.returncode = os.waitstatus_to_exitcode(status)
        if child.returncode:
            stop(f"{program} {' '.join(words)} ends with {child.returncode}")
        answer.seek(0)
        return seconds, used.ru_utime + used.ru_stime, answer.read()


def instructions(program, trace, words):
    with tempfile.NamedTemporaryFile() as counts:
        run(program, trace, words, ("valgrind", "--tool=callgrind", f"--callgrind-out-file={counts.name}"))
        with open(counts.name) as lines:
            return next(int(line.split()[1]) for line in lines if line.startswith(("summary:", "totals:")))


def tell(what, before, after, digits):
    print(f"  {what}: {before:,.{digits}f} and {after:,.{digits}f}, {after / before:.2f} times")


def compare(programs, name, trace, words):
    print(name)
    runs = [[], []]
    for _ in range(ROUNDS):
        for at, program in enumerate(programs):
            runs[at].append(run(program, trace, words))
    if len({written for each in runs for _, _, written in each}) > 1 and words[0] != "run":
        stop(f"{name}: the answers differ")
    tell("seconds", *(statistics.median(it[0] for it in each) for each in runs), 3)
    tell("seconds of the processor", *(statistics.median(it[1] for it in each) for each in runs), 3)


def main():
    words = sys.argv[1:]
    if len(words) not in (2, 3) or not all(os.access(it, os.X_OK) for it in words[:2]):
        stop("it wants the files of two programs, and a number of rounds")
    programs = [os.path.abspath(it) for it in words[:2]]
    count = int(words[2]) if len(words) == 3 else 20000
    with tempfile.TemporaryDirectory() as folder:
        small = inputs(folder, max(count // 10, 1))
        for at, (name, trace, ways) in enumerate(inputs(folder, count)):
            compare(programs, name, trace, ways)
            if shutil.which("valgrind") and ways[0] != "churn":
                tell("instructions, a tenth of it", *(instructions(it, *small[at][1:]) for it in programs), 0)


if __name__ == "__main__":
    main()
