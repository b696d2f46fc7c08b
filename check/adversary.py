#!/usr/bin/env python3
"""Plays schedules that an adversary would choose, and judges each answer.

usage: adversary.py [COUNT [SECONDS [SEED [JOBS]]]]

A trace lets a thread make objects and garbage and ask for a cycle, brings the control into a phase, stops up to three machines at places of
it, lets others go on, and so on: with preference where exchanges are lost, at the word of the copiers, at the last unit, and where
allocations wait. Where a schedule does not end, since a place of it never comes, the machines make some steps instead. `replay --history` says in which order the calls took effect; a graph of objects that never move answers them in that
order, and has to give the same replies and the same last graph, with each thread's script whole; where a call is answered `full`, what
lives and what the others want next has to crowd the regions. Every fiftieth trace is run with threads, too, which has to end with as
many replies. It ends after so many schedules (100,000), or seconds (1500), from a seed (0), with so many processes (2), says what was
judged, by seeds, and ends with 1 at an answer that is wrong, whose seed it prints. No test runs it; `adversary.py trace SEED` writes a trace.
"""
import collections
import multiprocessing
import random
import re
import subprocess
import sys
import time

sys.dont_write_bytecode = True
from cases import program  # pylint: disable=wrong-import-position
from settling import Graph  # pylint: disable=wrong-import-position
from soak import ROOTS, is_crowded, reached, run_fails  # pylint: disable=wrong-import-position

STEPS = 40000
# Where a mutator is stopped: where it may lose an exchange, at the word of the copiers, where it takes room, waits, enters or stores.
LOSES = ["HX", "CX", "XC", "OX", "TG"]
COUNTER = ["XL", "XC", "SL", "XS", "OL", "OX", "XW", "HR"]
WAITS = ["WS", "WK", "WO", "WP", "WL", "WC"]
OTHERS = ["E1", "E2", "E3", "PH", "CS", "RL", "SH", "FL", "FS", "FX", "HL", "CL", "CP", "HI", "GB", "NM", "RS", "LV", "NL", "NS", "BC", "BE", "BN", "TC", "TR", "TT", "TX", "TF", "TV", "TQ", "TZ", "TS", "IW", "AK", "ML"]
# What the control and helpers do in each phase, and the code by which the control gets there.
UNITS = {"MC": ["KX", "MG", "MB", "MO"], "EC": ["KX", "ES", "HX", "XC", "XS", "CP"], "UC": ["KX", "UL", "UB", "UX"]}


def tail(rand, heavy):
    """Commands that meet those of other threads on a few fields of the hub."""
    lines = []
    for _ in range(rand.randint(1, 7)):
        field, one, two = rand.randint(0, 2), rand.randint(1, 3), rand.choice([1, 2, 3, 9])
        large = f"new {rand.choice([2, 3])} 16 {rand.choice([7, 10, 16])}"
        lines.append(
            rand.choice([
                *[f"get {one} 0 {field}"] * 4,
                *[f"cas 0 {field} {two} {one}"] * 2,
                f"xchg {one} 0 {field} {two}",
                f"set 0 {field} {one}",
                f"wr {one} 0 {rand.randint(1, 9)}",
                f"rd {one} 0",
                f"get {one} {one} 0",
                f"same {one} {two}",
                f"copy {one} {two}",
                f"drop {one}",
                large if heavy else f"new {one} {rand.randint(0, 2)} 1",
                large if heavy else "gc",
                "gc",
            ])
        )
    return lines


def setting(rand):
    """Objects below the hub with garbage beside them, and the wish for a cycle."""
    lines = []
    for field in range(rand.randint(1, 3)):
        lines += [f"new 1 {rand.randint(0, 1)} 1", f"wr 1 0 {rand.randint(1, 9)}", f"set 0 {field} 1"]
    # The second one begins another region, so that the first region may be evacuated.
    lines += ["new 2 16 16"] * 2 + [f"new 2 16 {rand.choice([7, 16])}"] * rand.randint(0, 1)
    return [*lines, "drop 1", "drop 2", "gc"]


def stop(rand, who, threads, control, phase):
    """An item that stops a machine somewhere, or lets it make a few steps."""
    if who > threads:
        return f"{who}:{rand.randint(1, 40)}" if rand.random() < 0.6 else f"{who}@{rand.choice(UNITS[phase])}"
    kind = rand.choices([LOSES, COUNTER, WAITS, OTHERS, None], [4, 4, 2, 4, 3])[0]
    return f"{who}@{rand.choice(kind)}" if kind else f"{who}:{rand.randint(1, 25)}"


def trace(seed):
    """The heap, the scripts, and the text of a trace."""
    rand = random.Random(seed)
    threads, helpers = rand.choice([2, 2, 2, 3, 4]), rand.choice([0, 0, 1, 2])
    heavy = rand.random() < 0.35
    regions, reserve = rand.choice([4, 5, 6] if heavy else [4, 6, 8]), rand.choice([0, 0, 1])
    control = threads + helpers + 1
    first = setting(rand)
    scripts = {it: tail(rand, heavy) for it in range(1, threads + 1)}
    scripts[1] = first + scripts[1]
    phase = rand.choice(["MC", "EC", "EC", "EC", "UC"])
    items = [f"1={len(first)}", f"{control}@{phase}"]
    if rand.random() < 0.25:
        # All units but the last one.
        items += [f"{control}@KX", f"{control}:1"] * (regions - 1)
    for _ in range(rand.randint(1, 3)):
        machines = rand.sample(range(1, control + 1), rand.randint(1, min(3, control)))
        items += [stop(rand, who, threads, control, phase) for who in machines]
        for who in rand.sample(range(1, threads + 1), rand.randint(1, 2)):
            items.append(rand.choice([f"{who}:{rand.randint(1, 60)}", f"{who}={len(scripts[who])}", f"{control}:{rand.randint(1, 60)}"]))
    lines = ["shen 1", f"heap {regions} 64 {reserve}", f"threads {threads} {helpers}"]
    lines += [f"{thread} {call}" for thread, script in scripts.items() for call in script]
    return (regions, 64), scripts, "\n".join([*lines, "! " + " ".join(items)]) + "\n"


def written(graph, scripts, replies):
    """The answer with these replies and this graph."""
    lines = [f"{thread} {reply}" for thread in sorted(replies) for reply in replies[thread]] + ["graph"]
    for name in sorted(reached(graph), key=lambda it: list(map(int, it.split(".")))):
        refs, nums = graph.objects[name]
        lines.append(" ".join(["object", name, *(it or "-" for it in refs), "/", *map(str, nums)]))
    return lines + [" ".join(["roots", str(thread), *(it or "-" for it in graph.roots[str(thread)])]) for thread in sorted(scripts)]


def wrong(heap, scripts, lines):
    """What is wrong with an answer and its history, or None."""
    if "history" not in lines:
        return "there is no history"
    cut = lines.index("history")
    graph, settled = Graph(), dict.fromkeys(scripts, 0)
    replies = {it: [] for it in scripts}
    for thread in scripts:
        graph.roots[str(thread)] = ["0.1"] + [None] * (ROOTS - 1)
    for number, line in enumerate(lines[cut + 1 :]):
        call, reply = line.split(" : ")
        thread, words = int(call.split()[0]), call.split(" ", 1)[1]
        if settled[thread] >= len(scripts[thread]) or scripts[thread][settled[thread]] != words:
            return f"entry {number}: not the next command of its thread"
        if reply == "full":
            if not words.startswith("new") or not is_crowded(graph, heap, thread, scripts, settled):
                return f"entry {number}: the heap is not crowded"
        elif graph.answer(str(thread), words) != reply:
            return f"entry {number}: another reply was due"
        settled[thread] += 1
        replies[thread].append(reply)
    if any(settled[it] != len(scripts[it]) for it in scripts):
        return "a script is not whole"
    return None if lines[:cut] == written(graph, scripts, replies) else "another answer"


def softened(text, seed):
    """The same trace, where no machine is stopped by a place that may never come: it makes a few steps instead."""
    rand = random.Random(-seed - 1)
    lines, items = text.rsplit("! ", 1)[0], text.rsplit("! ", 1)[1].split()
    return lines + "! " + " ".join([*items[:2], *(re.sub(r"@..", f":{rand.randint(1, 30)}", it) for it in items[2:])]) + "\n"


def replayed(text):
    """How a replay ends, and what it writes."""
    words = [program("shenrun"), "replay", "--steps", str(STEPS), "--history"]
    ran = subprocess.run(words, input=text.encode(), stdout=subprocess.PIPE, check=False)
    return ran.returncode, ran.stdout.decode().splitlines()


def play(seed):
    """What came of a seed: how it ended, what is wrong, and how often a call was answered `full`."""
    heap, scripts, text = trace(seed)
    status, lines = replayed(text)
    how = "judged"
    if status == 4:
        how, text = "judged, with steps for places", softened(text, seed)
        status, lines = replayed(text)
    if status == 4:
        return "not ended", None, 0
    if status:
        return "failed", f"status {status}", 0
    why = wrong(heap, scripts, lines)
    if not why and seed % 50 == 0:
        why = run_fails(scripts, text, [])
    return how, why, sum(it.endswith(" full") for it in lines[lines.index("history") :]) if "history" in lines else 0


def worker(tasks):
    """Plays the seeds of a slice until the time is up."""
    first, jobs, count, end = tasks
    counted, seed = collections.Counter(), first
    while counted["judged"] + counted["judged, with steps for places"] < count and time.monotonic() < end:
        how, why, full = play(seed)
        if why:
            return counted, seed, why
        counted[how] += 1
        counted["answered full"] += full
        seed += jobs
    return counted, seed, None


def main():
    if sys.argv[1:2] == ["trace"]:
        sys.stdout.write(trace(int(sys.argv[2]))[2])
        return 0
    if not program("shenrun"):
        print("adversary.py: there is no proved program yet: rt ci makes it", file=sys.stderr)
        return 2
    count, seconds, first, jobs = (list(map(int, sys.argv[1:])) + [100000, 1500, 0, 2][len(sys.argv) - 1 :])[:4]
    end = time.monotonic() + seconds
    with multiprocessing.Pool(jobs) as pool:
        results = pool.map(worker, [(first + it, jobs, -(-count // jobs), end) for it in range(jobs)])
    counted = sum((it[0] for it in results), collections.Counter())
    print(f"seeds {first} to {max(it[1] for it in results)}: " + ", ".join(f"{it} {counted[it]}" for it in sorted(counted)))
    for _, seed, why in results:
        if why:
            print(f"seed {seed}: {why}")
    return 1 if any(it[2] for it in results) else 0


if __name__ == "__main__":
    sys.exit(main())
