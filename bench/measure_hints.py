#!/usr/bin/env python3
"""Measures marking by one sweep with hints, beside the same program with two sweeps.

usage: measure_hints.py [--commands N] [FOLDER]

FOLDER is a checkout with programs in crates/*/out that go over each word of grey bits twice; its numbers stand behind those of this one, and
behind them the ratio. Counts are the same in each run; times mean something only beside each other, from one run, and only where no other
program wants the processors. There are three tables, each of the control with no, one, two and three helpers. Marked is a tree of objects in the order
in which they were made: each before those that it names, or behind them, where a sweep comes to each too early.

1. Steps of marking under `replay`, which has no hints, for each object that lives: all of the helpers and the control from the end of the
   pause that begins marking until the control wants the one that ends it, in rounds beside a thread that changes nothing. With them how many
   of the objects are black by then: the others that pause marks.
2. Commands under `run` of two threads that set, load, compare-exchange and exchange a field of an object of their own, N of each (400000 where
   it is not given), while one marking follows the other, the best of three runs in which the checkouts take turns. In one further run the words
   of the heap are looked at from outside (as measure_marking.py does): how long marking takes, how many of the objects that are black in
   the end were not when the pause was wanted, and how long that pause takes to its first store, when it has loaded all words and closed the
   marks; of each the middle.
3. Of all addresses that machines made grey, how many one of them took as a hint, out of the deque of its own thread or out of another's. What
   the program does not tell bench/hints counts: it gives turns as `Bundle::run` does, and is built by `rt try`, unproved, in a throwaway copy, so
   its times say nothing. What is not taken was overtaken by the end of its marking or of the run, or is left in a deque.
"""
import json
import os
import re
import shutil
import statistics
import subprocess
import sys
import tempfile
import time

import measure_marking
from measure_marking import Table, text_of, worker, written

TOP = os.path.dirname(os.path.dirname(os.path.abspath(__file__)))
ORDERS = {"names first": True, "named first": False}
HELPERS = range(4)
ROUNDS = 3
# The boxes below each field of the hub, and the heap, where steps are counted and where time is taken.
FEW, SMALL, MANY = 1, (64, 256), 8
# The places of a round in which a helper or the control marks.
MARKING = set("MC KX MG MB MO MS MF GO I0 I1 H0 E1 E2 PH CS LV".split())
LINE = "marking_hints: shen_base shen_graph heap_words trace_reading heap_machines table_heap crossbeam_utils\n"
COUNTED = re.compile(r"^== (\d+)\ngreyed (\d+) own (\d+) stolen (\d+) hinted (\d+)$", re.M)


def stop(why):
    raise SystemExit(f"measure_hints.py: {why}")


class Programs:
    """The programs of a checkout."""

    def __init__(self, name, top):
        self.name = name
        self.run, self.steps = (self.path(top, it) for it in ("shenrun", "shensteps"))

    @staticmethod
    def path(top, name):
        places = [os.path.join(top, "crates", name, "out", name), os.path.join(top, "out", name)]
        return next((it for it in places if os.access(it, os.X_OK)), None) or stop(f"there is no {name} in {top}: rt ci makes it")


def node_lines(root, leaves, top_down):
    """The commands that make a node of five leaves in a root: the node first, or its leaves."""
    if top_down:
        return [f"new {root} 5 0", *(it for leaf in range(5) for it in (f"new {leaves} 0 3", f"set {root} {leaf} {leaves}"))]
    made = [f"new {leaves + leaf} 0 3" for leaf in range(5)]
    return [*made, f"new {root} 5 0", *(f"set {root} {leaf} {leaves + leaf}" for leaf in range(5))]


def tree(boxes, top_down):
    """The commands that build a tree below the hub, and how many objects and words it has with the hub: 15 objects of 16 fields, so many
    boxes of five nodes of five leaves below each."""
    lines = []
    for shelf in range(15):
        lines += ["new 4 16 0", f"set 0 {shelf} 4"]
        for box in range(boxes):
            if top_down:
                lines += ["new 5 5 0", f"set 4 {box} 5"]
                for node in range(5):
                    lines += [*node_lines(6, 7, top_down), f"set 5 {node} 6"]
            else:
                for node in range(5):
                    lines += node_lines(6 + node, 11, top_down)
                lines += ["new 5 5 0", *(f"set 5 {node} {6 + node}" for node in range(5)), f"set 4 {box} 5"]
    return lines + [f"drop {root}" for root in range(4, 16)], 1 + 15 * (1 + 31 * boxes), 19 + 15 * (19 + 198 * boxes)


def marked(programs, trace):
    """The steps of the first marking of a trace, and how many objects are black when its end is wanted."""
    words = [programs.steps, "--json", "--pauses", "full", "--place", ",".join(sorted(MARKING | {"P1", "P3"}))]
    steps = black = begun = 0
    with open(trace, "rb") as source:
        listing = subprocess.run(words, stdin=source, stdout=subprocess.PIPE, text=True, check=False).stdout
    for line in listing.splitlines():
        if not line.startswith('{"kind":"event"'):
            continue
        event = json.loads(line)
        if event["at"] == "P1" and begun:
            return steps, black
        begun += event["at"] == "P3"
        if begun and event["role"] != "thread" and event["at"] in MARKING:
            steps += 1
            black += event["at"] == "MO" and not {it["object"] for it in event["value"]["objects"]} <= {it["object"] for it in event["found"]["objects"]}
    return stop("a trace has no whole marking")


def measure_steps(checkouts):
    print("steps of marking for each object that lives, under replay, and how many of them are black before the pause")
    for name, top_down in ORDERS.items():
        built, objects, _ = tree(FEW, top_down)
        for helpers in HELPERS:
            script = [*built, "gc", *["same 0 1"] * 4000]
            items = [f"1={len(built) + 1}", f"{helpers + 2}@P3", f"{helpers + 2}@I0"]
            with written(text_of(1, helpers, [script], items, SMALL)) as trace:
                found = [marked(it, trace.name) for it in checkouts]
            told = [f"{steps / objects:8.2f} {100 * black / objects:6.1f} %" for steps, black in found]
            ratio = f"  ratio {found[0][0] / found[1][0]:.2f}" if len(found) > 1 else ""
            print(f"  {name:12} {helpers} helpers {''.join(told)}{ratio}")


class Seen:
    """What is seen of the markings of a run: how long they took, the share of what is black in the end that was not before the pause, and how
    long the pause took from where it was wanted to the first word that it stored."""

    def __init__(self):
        self.took, self.left, self.closed = [], [], []

    def told(self):
        if not self.took:
            return "no marking seen"
        took, left, closed = (statistics.median(it) for it in (self.took, self.left, self.closed))
        return f"{len(self.took):5} markings of {1000 * took:7.2f} ms, {100 * left:5.1f} % left to the pause, {1000 * closed:6.2f} ms to its first store"


class Marking:
    """A marking that is watched: when it began, when the pause was wanted that ends it, when that stored its first word, and how many
    objects were black when it was wanted, and are in the end."""

    def __init__(self, begun):
        self.begun, self.wanted, self.stored, self.black, self.whole = begun, None, None, 0, 0

    def note(self, seen):
        if self.stored and self.whole:
            seen.took.append(self.wanted - self.begun)
            seen.left.append(max(self.whole - self.black, 0) / self.whole)
            seen.closed.append(self.stored - self.wanted)


def watched(programs, trace, threads, helpers, words):
    """Runs a trace and looks at its words meanwhile, from where so many are in use."""
    seen, marking, before = Seen(), None, None
    with open(trace, "rb") as source:
        child = subprocess.Popen((programs.run, "run"), stdin=source, stdout=subprocess.DEVNULL)
    try:
        table = Table(child.pid, threads, helpers)
        while child.poll() is None and not table.find():
            time.sleep(0.02)
        while table.start and child.poll() is None:
            now, at = table.look(), time.monotonic()
            if now is None or now[0] > 1 or now[1] > 3:
                break
            if marking and before[1] != 1 and now[1] == 1:
                marking.note(seen)
                marking = None
            if before == (1, 1) and now == (0, 1) and table.used() >= words:
                marking = Marking(at)
            elif marking and before == (0, 1) and now == (1, 1):
                marking.wanted, marking.black = at, table.black()
            elif marking and marking.wanted and now[1] != 1:
                # (black bits stand until the next marking begins, and the pause stores them late)
                marking.stored = marking.stored or at
                marking.whole = max(marking.whole, table.black())
            before = now
            time.sleep(measure_marking.PAUSE_BETWEEN_LOOKS)
    except OSError:
        pass
    if marking:
        marking.note(seen)
    if child.wait() != 0:
        stop(f"run of {programs.name} ends with {child.returncode}")
    return seen


def seconds(programs, trace, wanted, *words):
    with open(trace, "rb") as source:
        start = time.monotonic()
        status = subprocess.run((programs.run, *words), stdin=source, stdout=subprocess.DEVNULL, check=False).returncode
    if status != wanted:
        stop(f"{' '.join(words)} of {programs.name} ends with {status}, not {wanted}")
    return time.monotonic() - start


def measure_commands(checkouts, commands):
    print(f"two threads under run, {commands} commands each, while one marking follows the other, on {os.cpu_count()} processors")
    for name, top_down in ORDERS.items():
        built, _, words = tree(MANY, top_down)
        for helpers in HELPERS:
            text = text_of(2, helpers, [worker(commands, True, built), worker(commands, True, [])])
            with written(text) as trace, written(text + "?\n") as refused:
                took = [min(times) for times in zip(*([seconds(it, trace.name, 0, "run") for it in checkouts] for _ in range(ROUNDS)))]
                reading = [seconds(it, refused.name, 3, "run") for it in checkouts]
                seen = [watched(it, trace.name, 2, helpers, words) for it in checkouts]
            rates = [2 * commands / max(run - read, 1e-6) for run, read in zip(took, reading)]
            ratio = f", ratio {rates[0] / rates[1]:.2f}" if len(rates) > 1 else ""
            print(f"  {name:12} {helpers} helpers: {', '.join(f'{it / 1e6:.3f}' for it in rates)} million commands a second{ratio}")
            for programs, it in zip(checkouts, seen):
                print(f"    {programs.name:12} {it.told()}")


def lay_out(room):
    """Copies the sources, with the program that counts among them."""
    shutil.copy(os.path.join(TOP, "HANDLES"), room)
    with open(os.path.join(TOP, "crates.txt"), encoding="utf-8") as old, open(os.path.join(room, "crates.txt"), "w", encoding="utf-8") as new:
        new.write(old.read() + LINE)
    for name in os.listdir(os.path.join(TOP, "crates")):
        for part in ("src", "specs"):
            if os.path.isdir(os.path.join(TOP, "crates", name, part)):
                shutil.copytree(os.path.join(TOP, "crates", name, part), os.path.join(room, "crates", name, part))
    into = os.path.join(room, "crates", "marking_hints", "src")
    os.makedirs(into)
    # (the gate wants no source outside crates/, so these have an ending more)
    for name in os.listdir(os.path.join(TOP, "bench", "hints", "src")):
        shutil.copy(os.path.join(TOP, "bench", "hints", "src", name), os.path.join(into, name.removesuffix(".text")))


def measure_travel(commands):
    print(f"addresses made grey, and taken as hints, of {commands} commands of one thread while one marking follows the other")
    with tempfile.TemporaryDirectory() as room, tempfile.TemporaryDirectory() as traces:
        lay_out(room)
        names = []
        for name, top_down in ORDERS.items():
            for helpers in HELPERS:
                with open(os.path.join(traces, str(len(names))), "w", encoding="utf-8") as file:
                    file.write(text_of(1, helpers, [worker(commands, True, tree(FEW, top_down)[0])], (), SMALL))
                names.append(f"{name:12} {helpers} helpers")
        words = ["rt", "try", "--steps", "1", "--seconds", "300", "--cases", traces]
        ran = subprocess.run(words, cwd=os.path.join(room, "crates", "marking_hints"), capture_output=True, text=True, check=False)
    counted = {int(at): list(map(int, rest)) for at, *rest in COUNTED.findall(ran.stdout)}
    for at, name in enumerate(names):
        if at not in counted:
            print(f"  {name}: no answer: {(ran.stdout + ran.stderr)[-300:]}")
            continue
        greyed, own, stolen, hinted = counted[at]
        if hinted != own + stolen:
            stop("the machines count other hints than they were given")
        print(f"  {name} {greyed:9} grey, {100 * hinted / max(greyed, 1):6.1f} % taken: {100 * own / max(greyed, 1):.1f} % of their own, {100 * stolen / max(greyed, 1):.1f} % of others")


def main():
    words, commands = sys.argv[1:], measure_marking.COMMANDS
    if words[:1] == ["--commands"]:
        if len(words) < 2 or not words[1].isdecimal():
            stop("--commands wants a number")
        commands, words = int(words[1]), words[2:]
    if len(words) > 1:
        stop("it wants one folder, or none")
    checkouts = [Programs("this one", TOP), *(Programs("two sweeps", it) for it in words)]
    print(f"load before: {os.getloadavg()[0]:.1f} on {os.cpu_count()} processors")
    measure_steps(checkouts)
    measure_commands(checkouts, commands)
    measure_travel(max(commands // 20, 2000))


if __name__ == "__main__":
    main()
