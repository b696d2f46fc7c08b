#!/usr/bin/env python3
"""Cuts random runs in two, and holds what `resume` makes of the second half to the run that was not cut.

usage: test_dumps.py [TRACES]

In each trace the threads take turns by the schedule, a whole command at a time, so that a graph of objects that never move says what each
run has to answer. For each number of commands the first of them are replayed with `--dump`, and the dump has to be that of the graph there,
to the byte; from it are resumed the other commands, no command, and some of the commands, and what is written has to be their replies, the
graph after them, and that nothing is pinned. So a dump that is made of such a graph is again one of the dumps that were resumed from. A
trace with an allocation that is refused is left out, since a resumed heap is packed in another way. In each dump one line is left out, cut
or told twice, and the first line at fault has to be named. Without a number there are 12 traces.
"""
import random
import subprocess
import sys

sys.dont_write_bytecode = True
from cases import program  # pylint: disable=wrong-import-position
from settling import Graph, command  # pylint: disable=wrong-import-position
from soak import reached  # pylint: disable=wrong-import-position

SHAPES = [(0, 1), (1, 0), (2, 2), (3, 1), (16, 16)]


def runs(jobs):
    """The exit numbers and the outputs of the program on these words and inputs."""
    done = []
    for words, text in jobs:
        ran = subprocess.run([program("shenrun"), *words.split()], input=text.encode(), stdout=subprocess.PIPE, check=False)
        done.append((ran.returncode, ran.stdout.decode()))
    return done


class Run:
    """Turns of threads, each a thread and a command, with the heap that they work on."""

    def __init__(self, seed):
        rand = random.Random(seed)
        self.threads, helpers = rand.randint(1, 4), rand.randint(0, 3)
        self.heap = f"heap {rand.randint(4, 8)} {rand.choice([64, 96, 128])} {rand.randint(0, 3)}"
        self.sizes = f"threads {self.threads} {helpers}"
        shapes = SHAPES[: rand.randint(2, 5)]
        self.turns = [(rand.randint(1, self.threads), command(rand, shapes)) for _ in range(rand.randint(1, 24))]

    def lines(self, first, last):
        """The lines of the turns from one on up to another, and the schedule by which they are taken in turn."""
        told, items = dict.fromkeys(range(1, self.threads + 1), 0), []
        for thread, _ in self.turns[first:last]:
            told[thread] += 1
            items.append(f"{thread}={told[thread]}")
        schedule = ["! " + " ".join(items)] if items else []
        return [f"{thread} {words}" for thread, words in self.turns[first:last]] + schedule

    def trace(self, last):
        """The trace of the first turns."""
        return "".join(f"{it}\n" for it in ["shen 1", self.heap, self.sizes, *self.lines(0, last)])

    def replies(self, first, last):
        """The lines of the replies to these turns, by thread."""
        graph, told = self.opening(), {it: [] for it in range(1, self.threads + 1)}
        for at, (thread, words) in enumerate(self.turns[:last]):
            reply = graph.answer(thread, words)
            if at >= first:
                told[thread].append(f"{thread} {reply}")
        return [it for thread in sorted(told) for it in told[thread]]

    def opening(self):
        """The graph before the first turn."""
        graph = Graph()
        graph.roots = {it: ["0.1"] + [None] * 15 for it in range(1, self.threads + 1)}
        return graph

    def after(self, last):
        """The lines of the objects and the roots after so many turns, and how many objects each thread made."""
        graph = self.opening()
        for thread, words in self.turns[:last]:
            graph.answer(thread, words)
        lines = []
        for name in sorted(reached(graph), key=lambda it: list(map(int, it.split(".")))):
            refs, nums = graph.objects[name]
            lines.append(" ".join(["object", name, *(it or "-" for it in refs), "/", *map(str, nums)]))
        lines += [" ".join(["roots", str(it), *(to or "-" for to in graph.roots[it])]) for it in sorted(graph.roots)]
        return lines, [str(graph.made.get(it, 0)) for it in sorted(graph.roots)]

    def dump(self, last):
        """The lines of the dump after so many turns."""
        lines, made = self.after(last)
        return ["dump 1", self.heap, self.sizes, " ".join(["counts", *made]), *lines]

    def resumed(self, first, last):
        """What `resume` reads to make these turns, and what it is to write."""
        pins = [f"pins {it} - - - -" for it in range(1, self.threads + 1)]
        answer = [*self.replies(first, last), "graph", *self.after(last)[0], *pins]
        return text_of([*self.dump(first), "trace", *self.lines(first, last)]), text_of(answer)


def text_of(lines):
    """The lines, each with its end."""
    return "".join(f"{it}\n" for it in lines)


def faults(run, rand):
    """Inputs that are no dump, and the line at fault of each."""
    lines = run.dump(len(run.turns)) + ["trace"]
    at = rand.randrange(len(lines))
    yield text_of(lines[:at]), f"bad line {at + 1}: dump wanted\n"
    yield text_of(lines[:at]) + lines[at], f"bad line {at + 1}: end of line wanted\n"
    yield text_of(lines[: at + 1] + lines[at:]), f"bad line {at + 2}: " + ("command wanted\n" if at + 1 == len(lines) else "dump wanted\n")
    objects = [it for it, line in enumerate(lines) if line.startswith("object")]
    gone = rand.choice(objects)
    yield text_of(lines[:gone] + lines[gone + 1 :]), f"bad line {len(lines) - 1}: dump wanted\n"
    lost = f"object {run.threads}.4000000000 /"
    counts = " ".join(["counts", *run.dump(len(run.turns))[3].split()[1:-1], "4000000000"])
    yield text_of([*lines[:3], counts, *lines[4 : objects[-1] + 1], lost, *lines[objects[-1] + 1 :]]), f"bad line {len(lines) + 1}: dump wanted\n"


def main(words):
    """Makes all runs, and tells what differs first."""
    traces, left_out, jobs, wanted = int(words[0]) if words else 12, 0, [], []
    many = [Run(seed) for seed in range(traces)]
    for run, (status, out) in zip(many, runs([("replay --steps 1000000", it.trace(len(it.turns))) for it in many])):
        turns = len(run.turns)
        if status != 0 or any(line.endswith(" full") for line in out.splitlines()):
            left_out += 1
            continue
        if out != text_of([*run.replies(0, turns), "graph", *run.after(turns)[0]]):
            print("a run that is not cut differs:", run.trace(turns), out, sep="\n")
            return 1
        rand = random.Random(turns)
        for cut in range(turns + 1):
            jobs.append(("replay --steps 1000000 --dump", run.trace(cut)))
            wanted.append((0, text_of(run.dump(cut))))
            for last in sorted({cut, rand.randint(cut, turns), turns}):
                text, answer = run.resumed(cut, last)
                jobs.append(("resume --steps 1000000", text))
                wanted.append((0, answer))
        for text, line in faults(run, rand):
            jobs.append(("resume", text))
            wanted.append((3, line))
    for job, got, want in zip(jobs, runs(jobs), wanted):
        if got != want:
            print(f"shenrun {job[0]}", job[1], "wrote, with its status:", *got, "and not:", *want, sep="\n")
            return 1
    print(f"{traces - left_out} traces, {len(jobs)} runs as wanted; {left_out} traces left out")
    return 1 if left_out * 2 > traces else 0


if __name__ == "__main__":
    sys.exit(main(sys.argv[1:]))
