#!/usr/bin/env python3
"""Runs random traces of eight threads on small heaps for a while, and judges each answer.

usage: soak.py [MINUTES [SEED]]

Each trace is of eight threads, up to three helpers and a heap of 4 to 8 regions, with a schedule. The events that `shensteps` lists say
where each call takes effect; a graph of objects that never move answers the calls in that order, and has to give the same replies, and
in the end the graph that `shenrun replay` writes with them. Where a call is answered `full`, the objects that the graph reaches and what
the other threads want next have to crowd the regions. The same scripts are run with threads of the system, and with one, which has to
end with as many replies of each thread, and with names in the order in which a thread gives them. What came out is counted: the commands,
those that were answered `full`, and the pauses by what they did. Without minutes it takes an hour. It ends with 1 at the first trace
that is judged otherwise, which it writes to soak_failed.trace. No test runs it.
"""
import collections
import os
import random
import re
import subprocess
import sys
import time

sys.dont_write_bytecode = True
from cases import program  # pylint: disable=wrong-import-position
from listed import objects  # pylint: disable=wrong-import-position
from settling import Graph, command, pinning, race, said, takes_event  # pylint: disable=wrong-import-position

THREADS = 8
ROOTS = 16
SHAPES = [
    [(16, 16)],
    [(0, 1), (1, 0), (2, 2), (16, 16)],
    [(0, 0), (1, 1), (3, 5), (16, 10), (16, 16)],
    [(0, 1), (1, 0), (2, 2)],
]


def tending(rand, rounds):
    """The commands of a thread that puts small objects below the hub, leaves garbage, and asks for cycles."""
    lines = []
    for _ in range(rounds):
        field = rand.randint(0, 5)
        for _ in range(rand.randint(1, 3)):
            refs, nums = rand.choice([(1, 1), (2, 0), (0, 2), (1, 0), (3, 1)])
            lines.append(f"new 1 {refs} {nums}")
            if refs and rand.random() < 0.6:
                lines.append(f"set 1 0 {rand.choice([0, 2, 3])}")
            lines.append(rand.choice([f"set 0 {field} 1", f"xchg 2 0 {field} 1", f"cas 0 {field} {rand.choice([9, 2])} 1", f"get 3 0 {field}"]))
        lines += [f"new 5 16 {rand.choice([10, 16])}" for _ in range(rand.choice([0, 0, 1, 1, 2]))] + ["drop 5"]
        lines += [f"drop {rand.choice([1, 2, 3])}" for _ in range(rand.randint(0, 2))] + ["gc"] * (rand.random() < 0.4)
        for _ in range(rand.randint(0, 6)):
            field, one, two = rand.randint(0, 5), rand.choice([1, 2, 3]), rand.choice([1, 2, 9])
            lines.append(
                rand.choice([
                    f"get {one} 0 {field}",
                    "get 2 1 0",
                    f"set 0 {field} {two}",
                    f"cas 0 {field} {one} {two}",
                    f"xchg 3 0 {field} {two}",
                    f"wr 1 0 {rand.randint(0, 9)}",
                    "rd 2 0",
                    "same 1 2",
                    f"copy 3 {two}",
                    "cas 1 0 2 3",
                ])
            )
    return lines


def trace(seed):
    """A trace: its heap, the scripts of its threads, and its text."""
    rand = random.Random(seed)
    regions, words, reserve = rand.randint(4, 8), rand.choice([64, 70, 96, 200]), rand.choice([0, 1, 1, 2, 3])
    helpers, commands, shapes = rand.randint(0, 3), rand.randint(4, 60), rand.choice(SHAPES)
    tends, meets = rand.random() < 0.7, rand.random() < 0.5
    if tends:
        # Not all threads make objects, so that there are regions for those that do.
        regions, reserve, makers = rand.randint(6, 8), rand.choice([0, 0, 1]), rand.randint(1, 3)
        scripts = {it: tending(rand, rand.randint(2, 6)) for it in range(1, THREADS + 1)}
        for thread in range(makers + 1, THREADS + 1):
            scripts[thread] = [it for it in scripts[thread] if not it.startswith("new")]
    else:
        scripts = {it: [race(rand) if meets else command(rand, shapes) for _ in range(commands)] for it in range(1, THREADS + 1)}
    version = 1 + seed % 2
    if version == 2:
        pins = rand.choice([0.05, 0.2])
        for thread, script in scripts.items():
            scripts[thread] = [it for call in script for it in ([pinning(rand), call] if rand.random() < pins else [call])]
    lines = [f"shen {version}", f"heap {regions} {words} {reserve}", f"threads {THREADS} {helpers}"]
    lines += [f"{thread} {call}" for thread, script in scripts.items() for call in script]
    most = rand.choice([2, 12, 30])
    items = [f"{rand.randint(1, THREADS + helpers)}:{rand.randint(1, most)}" for _ in range(rand.randint(1, 400))]
    items += [f"{THREADS + helpers + 1}:{rand.choice([1, 2, 3, 30, 300, 2000])}" for _ in range(rand.randint(1, 80))]
    rand.shuffle(items)
    return (regions, words), scripts, "\n".join([*lines, "! " + " ".join(items)]) + "\n"


def size(refs, nums):
    """The words of an object."""
    return 3 + refs + nums


def wanted(words):
    """The words that a command wants."""
    verb, *numbers = words.split()
    return size(int(numbers[1]), int(numbers[2])) if verb == "new" else 0


def reached(graph):
    """The objects that roots and pin slots lead to."""
    found, todo = set(), [it for roots in graph.roots.values() for it in roots if it] + [name for name, _ in graph.pins.values()]
    while todo:
        name = todo.pop()
        if name not in found:
            found.add(name)
            todo += [it for it in graph.objects[name][0] if it]
    return found


def is_crowded(graph, heap, thread, scripts, settled):
    """Whether a thread may be answered `full`."""
    regions, words = heap
    pinned = {name for name, _ in graph.pins.values()}
    shut = {place // words for _, place in graph.pins.values()}
    live = sum(size(len(graph.objects[it][0]), len(graph.objects[it][1])) for it in reached(graph) - pinned)
    others = [other for other in scripts if other != thread and settled[other] < len(scripts[other])]
    open_words = sum(wanted(scripts[other][settled[other]]) for other in others)
    return live + open_words >= (regions - len(shut)) * (words - wanted(scripts[thread][settled[thread]]) + 1)


def history_fails(heap, scripts, listing, version=1):
    """What is wrong with the calls as a listing settles them, and the graph and the replies behind them."""
    graph, calls, settled = Graph(), {}, dict.fromkeys(scripts, 0)
    replies = {it: [] for it in scripts}
    for thread in scripts:
        graph.roots[str(thread)] = ["0.1"] + [None] * (ROOTS - 1)
    for event in listing:
        told = said(event)
        if not told:
            continue
        who, what, reply = told
        if what == "settles":
            thread = int(who[-1])
            if reply == "full" and not is_crowded(graph, heap, thread, scripts, settled):
                return f"the heap is not crowded: {event}", None
            settled[thread] += 1
            replies[thread].append(reply)
        if not takes_event(graph, calls, told):
            return f"another reply was due: {event}", None
    for thread, those in replies.items():
        if len(those) != len(scripts[thread]):
            return f"thread {thread} has {len(those)} replies", None
    lines = [f"{thread} {reply}" for thread in sorted(replies) for reply in replies[thread]] + ["graph"]
    for name in sorted(reached(graph), key=lambda it: list(map(int, it.split(".")))):
        refs, nums = graph.objects[name]
        lines.append(" ".join(["object", name, *(it or "-" for it in refs), "/", *map(str, nums)]))
    lines += [" ".join(["roots", str(thread), *(it or "-" for it in graph.roots[str(thread)])]) for thread in sorted(scripts)]
    if version == 2:
        held = {thread: [graph.pins.get((str(thread), slot), ["-"])[0] for slot in range(4)] for thread in scripts}
        lines += [" ".join(["pins", str(thread), *held[thread]]) for thread in sorted(scripts)]
    return None, "\n".join(lines) + "\n"


def run_fails(scripts, text, words):
    """What is wrong with a run on threads of the system."""
    ran = subprocess.run([program("shenrun"), "run", *words], input=text, stdout=subprocess.PIPE, text=True, check=False)
    if ran.returncode:
        return f"run ends with {ran.returncode}"
    lines = ran.stdout.splitlines()
    for thread, script in scripts.items():
        replies = [it.split()[1] for it in lines[: lines.index("graph")] if it.startswith(f"{thread} ")]
        names = [reply for call, reply in zip(script, replies) if call.startswith("new") and reply != "full"]
        if len(replies) != len(script) or names != [f"{thread}.{it + 1}" for it in range(len(names))]:
            return f"run gives thread {thread} other replies"
    return None


def fails(seed, counted):
    """What is wrong with the answers to a trace, which is counted."""
    heap, scripts, text = trace(seed)
    status, listing = objects(text, "--pauses", "full")
    if status:
        return f"shensteps ends with {status}"
    why, answer = history_fails(heap, scripts, listing, 1 + seed % 2)
    if why:
        return why
    replayed = subprocess.run([program("shenrun"), "replay"], input=text, stdout=subprocess.PIPE, text=True, check=False)
    if (replayed.returncode, replayed.stdout) != (0, answer):
        return "replay writes another answer"
    for it in listing:
        if it["kind"] == "pause":
            counted[f"from phase {it['phase_before']} to {it['phase_after']}"] += 1
    counted["traces"] += 1
    counted["commands"] += sum(map(len, scripts.values()))
    counted["full"] += len(re.findall(r"^\d full$", answer, re.M))
    counted["events"] += sum(it["kind"] == "event" for it in listing)
    return run_fails(scripts, text, []) or run_fails(scripts, text, ["--workers", "1"])


def main():
    if not (program("shenrun") and program("shensteps")):
        print("soak.py: there are no proved programs yet: rt ci makes them", file=sys.stderr)
        return 2
    minutes = float(sys.argv[1]) if len(sys.argv) > 1 else 60
    seed = int(sys.argv[2]) if len(sys.argv) > 2 else 0
    counted, end = collections.Counter(), time.monotonic() + 60 * minutes
    while time.monotonic() < end:
        why = fails(seed, counted)
        if why:
            print(f"trace {seed}: {why}")
            with open("soak_failed.trace", "w", encoding="utf-8") as file:
                file.write(trace(seed)[2])
            return 1
        seed += 1
    print("; ".join(f"{it}: {counted[it]}" for it in sorted(counted)))
    return 0


if __name__ == "__main__":
    sys.exit(main())
