"""Traces with their answers, as the tables of this folder write them, and the proved program that answers them."""
import os
import re
import subprocess

HERE = os.path.dirname(os.path.abspath(__file__))
TOP = os.path.dirname(HERE)


def program(name):
    """The proved program of this name, or None."""
    places = [os.path.join(TOP, "crates", name, "out", name), os.path.join(TOP, "out", name)]
    return next((it for it in places if os.access(it, os.X_OK)), None)


def replay(trace, steps):
    """The exit number of a replay, and what it writes."""
    words = [program("shenrun"), "replay", "--steps", str(steps)]
    ran = subprocess.run(words, input=trace, stdout=subprocess.PIPE, check=False)
    return ran.returncode, ran.stdout


def unfinished(steps):
    """What a replay writes that needs more steps."""
    return f"unfinished after {steps} steps\n".encode()


class Case:
    """A trace with its answer, as a table writes it: the title behind `#`, a line with the heap, the threads, the steps and
    the pauses, the commands of each thread with their replies, the schedule behind `!`, and the lines of the graph. `word*n`
    stands for that word n times. A trace with lines of pin slots is of version 2. What a table says besides, behind `=` and `end:`, is kept: with the number of the items
    behind which it holds, or None at the end."""

    def __init__(self, text, items=None, steps=None):
        title, head, *rest = text.split("\n")
        self.title = title[2:]
        self.heap, self.threads, *counts = head.split(", ")
        self.steps = steps or int(counts[0].split()[0])
        self.pauses = int(counts[1].split()[0]) if counts[1:] else None
        self.told, self.items = [], items.split() if items else []
        version = 2 if any(line.startswith("pins ") for line in rest) else 1
        lines, replies, graph = [f"shen {version}", self.heap, self.threads], [], ["graph"]
        for line in rest:
            calls = re.match(r"(\d): (.*)", line)
            if calls:
                for call in calls[2].split("; "):
                    command, reply = call.split(" -> ")
                    lines.append(f"{calls[1]} {command}")
                    replies.append(f"{calls[1]} {reply}")
            elif line.startswith("! "):
                self.items += line[2:].split()
            elif line.startswith("= "):
                self.told.append((len(self.items), line[2:]))
            elif line.startswith("end: "):
                self.told.append((None, line[5:]))
            else:
                graph.append(re.sub(r"(\S+)\*(\d+)", lambda it: " ".join([it[1]] * int(it[2])), line))
        schedule = ["! " + " ".join(self.items)] if self.items else []
        self.trace = "\n".join([*lines, *schedule, ""]).encode()
        self.answer = "\n".join([*replies, *graph, ""]).encode()

    def fails(self):
        """What is wrong with the program's answers to it."""
        status, written = replay(self.trace, self.steps)
        if (status, written) == (4, unfinished(self.steps)):
            yield f"it takes more than {self.steps} steps"
        elif (status, written) != (0, self.answer):
            yield f"another answer, with status {status}:\n{written.decode(errors='replace')}"
        elif replay(self.trace, self.steps - 1) != (4, unfinished(self.steps - 1)):
            yield f"it takes fewer than {self.steps} steps"


def cases(name):
    """The traces of a table."""
    with open(os.path.join(HERE, name), encoding="utf-8") as file:
        for block in file.read().strip().split("\n\n"):
            yield Case(block)


def count_failures(those, fails):
    """How many of these traces there are, and how many fail; each failure is printed."""
    number, failed = 0, 0
    for case in those:
        number += 1
        whys = list(fails(case))
        for why in whys:
            print(f"{case.title}: {why}")
        failed += bool(whys)
    return number, failed
