#!/usr/bin/env python3
"""Holds `check` to a small model of the graph, on histories of random traces that were changed a little.

usage: test_checks.py [TRACES]

Each history that `replay --history` writes has to be judged `yes`, with its own answer. Then one thing is changed: a reply, the command
of an entry, the order of two entries of different threads, an entry that is left out, told twice or told at another place, or a line,
a byte or the order of the body. A graph of objects that never move judges what comes of it, entry by entry, and writes the answer that
the history has; the program has to say the same. What was said is counted: each of the four verdicts has to come. Without a number
there are 60 traces, of which the threads meet, wait for room and are refused.
"""
import collections
import random
import subprocess
import sys

sys.dont_write_bytecode = True
from cases import program  # pylint: disable=wrong-import-position
from settling import Graph, trace  # pylint: disable=wrong-import-position
from soak import is_crowded, reached  # pylint: disable=wrong-import-position

CHANGES = 12
REPLIES = ["@64", "@128", "@129", "@4096", "-", "ok", "yes", "no", "bad", "full", "0", "1", "18446744073709551615", "0.1", "1.1", "1.2", "2.1", "7.4294967295"]
COMMANDS = ["pin 0 1", "unpin 0", "gc", "drop 1", "copy 2 1", "same 1 2", "new 1 1 1", "new 1 16 16", "get 1 0 0", "set 0 0 1", "rd 1 0", "wr 1 0 5"]


class Claim:
    """A trace, and what is claimed for it: the lines of a body, and entries of a thread, a command and a reply."""

    def __init__(self, text, body, entries):
        self.text, self.body, self.entries = text, body, entries
        lines = text.splitlines()
        regions, words, _ = map(int, lines[1].split()[1:])
        self.heap, threads = (regions, words), int(lines[2].split()[1])
        self.version, self.places = int(lines[0].split()[1]), range(words, (regions + 1) * words)
        self.scripts = {it: [] for it in range(1, threads + 1)}
        for line in lines[3:]:
            if not line.startswith("!"):
                thread, command = line.split(" ", 1)
                self.scripts[int(thread)].append(command)

    def pair(self):
        """The text that `check` reads."""
        entries = "".join(f"{thread} {command} : {reply}\n" for thread, command, reply in self.entries)
        return f"{self.text}answer\n{self.body}history\n{entries}"

    def verdict(self):
        """What the model says of it."""
        graph, settled = Graph(), dict.fromkeys(self.scripts, 0)
        told = {it: [] for it in self.scripts}
        for thread in self.scripts:
            graph.roots[thread] = ["0.1"] + [None] * 15
        for at, (thread, command, reply) in enumerate(self.entries):
            if settled[thread] >= len(self.scripts[thread]) or self.scripts[thread][settled[thread]] != command:
                return f"no: entry {at}"
            if reply == "full":
                fits = command.startswith("new") and is_crowded(graph, self.heap, thread, self.scripts, settled)
            else:
                fits = graph.answer(thread, command, reply, self.places) == reply
            if not fits:
                return f"no: entry {at}"
            settled[thread] += 1
            told[thread].append(reply)
        for thread, script in self.scripts.items():
            if settled[thread] < len(script):
                return f"no: script {thread}"
        lines = [f"{thread} {reply}" for thread in sorted(told) for reply in told[thread]] + ["graph"]
        for name in sorted(reached(graph), key=lambda it: list(map(int, it.split(".")))):
            refs, nums = graph.objects[name]
            lines.append(" ".join(["object", name, *(it or "-" for it in refs), "/", *map(str, nums)]))
        lines += [" ".join(["roots", str(thread), *(it or "-" for it in graph.roots[thread])]) for thread in sorted(told)]
        if self.version == 2:
            held = {thread: [graph.pins.get((thread, slot), ["-"])[0] for slot in range(4)] for thread in told}
            lines += [" ".join(["pins", str(thread), *held[thread]]) for thread in sorted(told)]
        return "yes" if self.body == "".join(f"{it}\n" for it in lines) else "no: text"


def changed(claim, rand):
    """The claim with one change, and what was changed."""
    entries, body = list(claim.entries), claim.body.splitlines()
    at = rand.randrange(len(entries))
    thread, command, reply = entries[at]
    kind = rand.choice(["reply", "command", "order", "order", "order", "left out", "cut", "twice", "moved", "line", "byte", "lines"])
    if kind == "reply":
        entries[at] = thread, command, rand.choice(REPLIES)
    elif kind == "command":
        entries[at] = thread, rand.choice(COMMANDS[2 * (claim.version == 1) :]), reply
    elif kind == "order":
        others = [it for it in range(len(entries) - 1) if entries[it][0] != entries[it + 1][0]] or [0]
        at = rand.choice(others)
        entries[at : at + 2] = reversed(entries[at : at + 2])
    elif kind == "left out":
        del entries[at]
    elif kind == "cut":
        del entries[at:]
    elif kind == "twice":
        entries.insert(at, entries[at])
    elif kind == "moved":
        entries.insert(rand.randrange(len(entries)), entries.pop(at))
    elif kind == "line":
        body[rand.randrange(len(body))] = rand.choice(["", "graph", "1 ok", "answer", " history", "roots 1 0.1"])
    elif kind == "byte":
        line = rand.randrange(len(body))
        body[line] = body[line][:-1] + rand.choice([" ", "-", "1", "x", "\r", "\0"])
    else:
        one, two = rand.randrange(len(body)), rand.randrange(len(body))
        body[one], body[two] = body[two], body[one]
    return kind, Claim(claim.text, "".join(f"{it}\n" for it in body), entries)


def claimed(text, answer):
    """What an answer with its history claims."""
    body, _, history = answer.partition("history\n")
    entries = []
    for line in history.splitlines():
        words, reply = line.rsplit(" : ", 1)
        thread, command = words.split(" ", 1)
        entries.append((int(thread), command, reply))
    return Claim(text, body, entries)


def said(words, text):
    """The status of the program, and what it writes."""
    ran = subprocess.run([program("shenrun"), *words], input=text.encode(), stdout=subprocess.PIPE, check=False)
    return ran.returncode, ran.stdout.decode()


def fails(seed, counted):
    """What is wrong with what the program says of a trace, which is counted."""
    text, rand = trace(seed), random.Random(seed)
    status, answer = said(["replay", "--history"], text)
    if status:
        return f"replay ends with {status}"
    claim = claimed(text, answer)
    counted["full"] += sum(it[2] == "full" for it in claim.entries)
    claims = [("nothing", claim)] + [changed(claim, rand) for _ in range(CHANGES)]
    for kind, it in claims:
        wanted, got = it.verdict(), said(["check"], it.pair())
        if kind == "nothing" and wanted != "yes":
            return f"the model says {wanted} of the program's own history"
        if got != (0, wanted + "\n"):
            return f"{kind} is changed: {got[1].strip()} with status {got[0]}, and not {wanted}"
        counted[" ".join(wanted.split()[:2]) + (" after a change" if wanted == "yes" and kind != "nothing" else "")] += 1
    return None


def main():
    if not program("shenrun"):
        print("test_checks.py: there is no proved program yet: rt ci makes it", file=sys.stderr)
        return 2
    traces = int(sys.argv[1]) if len(sys.argv) > 1 else 60
    counted = collections.Counter()
    for seed in range(traces):
        why = fails(seed, counted)
        if why:
            print(f"trace {seed}: {why}")
            return 1
    missing = [it for it in ("yes", "yes after a change", "no: entry", "no: script", "no: text", "full") if not counted[it]]
    print(f"{traces} traces: " + "; ".join(f"{it}: {counted[it]}" for it in sorted(counted)))
    if missing:
        print("none was " + ", ".join(missing))
    return 1 if missing else 0


if __name__ == "__main__":
    sys.exit(main())
