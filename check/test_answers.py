#!/usr/bin/env python3
"""Holds the answers of the proved program to answers.txt, to the byte, and its status.

usage: test_answers.py

A block of the table begins with a title behind `#`. Then come the words, the trace behind `<`, and behind `->` the status and what is
written; `; ` ends a line, as the end of a line does, and `word*n` stands for that word n times. Behind `turns` stands which thread's
command takes effect in each turn: a graph of objects that never move has to reply the same in that order. In a block with `->` in each
line, each line is a row, with the trace in quotes, where `head` stands for three lines before it, and the one line that is written.
Where the table has no trace the standard input fails when it is read. An answer of `--steps N` takes all of them: with one less it is
unfinished. No answer was taken from the program.

The first example is also cut behind each byte, with the end of the input there and with a fault of it, and its answer is written to a
file that may have so many bytes and no more, and to one that takes none. Traces of 16777216 bytes, of one more and without an end are
read. Two threads change one field, and the first stops after each number of steps of its command.
"""
import itertools
import json
import os
import pty
import re
import resource
import shlex
import signal
import subprocess
import sys
import tempfile
import tty

sys.dont_write_bytecode = True
from cases import HERE, TOP, program, unfinished  # pylint: disable=wrong-import-position
from settling import Graph  # pylint: disable=wrong-import-position

HEAD = "shen 1\nheap 4 64 0\nthreads 1 0\n"
MOST = 16777216
WORDS = re.compile(r"([^<]*?)(?: ?< (.*))?$")
ROW = re.compile(r"([^<]*?)(?: ?< (head )?(\".*\"))? ?-> (\d) (.*)$")


class Row:
    """Words, a trace or None, the turns of its threads, and the status and the bytes that are wanted."""

    def __init__(self, title, words, trace, status, answer, turns=()):
        self.title, self.words, self.turns = title, shlex.split(words), turns
        self.trace = None if trace is None else trace.encode()
        self.wanted = int(status), answer.encode()


def opened(text):
    """A text with `word*n` written out, and `; ` as the end of a line, without its last end of line."""
    return re.sub(r"(\S+)\*(\d+)", lambda it: " ".join([it[1]] * int(it[2])), text).replace("; ", "\n")


def rows():
    """The rows of the table."""
    with open(os.path.join(HERE, "answers.txt"), encoding="utf-8") as file:
        blocks = file.read().strip().split("\n\n")
    for block in blocks:
        title, *lines = block.split("\n")
        if all(ROW.match(line) for line in lines):
            for line in lines:
                words, head, trace, status, answer = ROW.match(line).groups()
                yield Row(title[2:], words, trace and (HEAD if head else "") + json.loads(trace), status, answer + "\n")
            continue
        at = next(number for number, line in enumerate(lines) if line.startswith("-> "))
        turns = [opened(line[6:]).split() for line in lines[:at] if line.startswith("turns ")]
        words, first = WORDS.match(lines[0]).groups()
        trace = first and "\n".join([first, *(line for line in lines[1:at] if not line.startswith("turns "))])
        answer = opened("\n".join(lines[at + 1 :])) + "\n"
        yield Row(title[2:], words, first and opened(trace) + "\n", lines[at][3:], answer, *turns)


def ran(words, trace=None, **how):
    """The status of the program, and what it writes. Without a trace its input is a folder, which cannot be read."""
    call = [program("shenrun"), *words]
    if trace is None:
        how["stdin"] = os.open(HERE, os.O_RDONLY)
    done = subprocess.run(call, input=trace, check=False, **{"stdout": subprocess.PIPE, **how})
    if trace is None:
        os.close(how["stdin"])
    return done.returncode, done.stdout


def ran_to_fault(words, front):
    """The same, where the input fails behind these bytes: it is a terminal whose other side was closed."""
    ours, theirs = pty.openpty()
    tty.setraw(theirs)
    os.write(theirs, front)
    os.close(theirs)
    done = subprocess.run([program("shenrun"), *words], stdin=ours, stdout=subprocess.PIPE, check=False)
    os.close(ours)
    return done.returncode, done.stdout


def ran_into(room, words, trace):
    """The same, where the output may have so many bytes."""

    def limit():
        signal.signal(signal.SIGXFSZ, signal.SIG_IGN)
        resource.setrlimit(resource.RLIMIT_FSIZE, (room, room))

    with tempfile.TemporaryFile() as file:
        status, _ = ran(words, trace, stdout=file, preexec_fn=limit)
        file.seek(0)
        return status, file.read()


def replied(row):
    """The replies of a plain graph to the scripts of a row, in its turns."""
    graph, replies, scripts = Graph(), {}, {}
    for line in row.trace.decode().split("\n")[3:]:
        if line[:1].isdigit():
            scripts.setdefault(line[0], []).append(line[2:])
    for thread in row.turns:
        replies.setdefault(thread, []).append(f"{thread} {graph.answer(thread, scripts[thread].pop(0))}\n")
    return "".join(line for thread in sorted(scripts) for line in (*replies[thread], *scripts[thread])).encode()


def fails(row):
    """What is wrong with the program's answers to a row."""
    got = ran(row.words, row.trace)
    if got != row.wanted:
        yield f"another answer, with status {got[0]}:\n{got[1].decode(errors='replace')}"
    elif row.words[1:2] == ["--steps"] and got[0] == 0:
        fewer = int(row.words[2]) - 1
        if ran([*row.words[:2], str(fewer)], row.trace) != (4, unfinished(fewer)):
            yield f"{fewer} steps are enough"
    if row.turns and got[1].split(b"graph\n")[0] != replied(row):
        yield f"a plain graph replies otherwise:\n{replied(row).decode()}"


def example(name):
    """The bytes of a file of the first example."""
    with open(os.path.join(TOP, "examples", f"first.{name}"), "rb") as file:
        return file.read()


def fronts():
    """The first example, cut behind each byte: the line that is cut is named, or that of the head which is to come."""
    trace = example("trace")
    for length in range(len(trace) + 1):
        front = trace[:length]
        lines = front.count(b"\n")
        status, written = ran(["replay"], front)
        if lines >= 3 and front.endswith(b"\n"):
            if status:
                yield f"the first {length} bytes of an example are not answered"
        elif (status, written) != (3, f"bad line {lines + 1}: end of line wanted\n".encode()):
            yield f"the first {length} bytes of an example are not refused: {written.decode(errors='replace')}"
        for words in ["replay"], ["run"]:
            if ran_to_fault(words, front) != (5, b"read fault\n"):
                yield f"{words[0]} does not tell of a fault behind {length} bytes"


def rooms():
    """The first example, with room for some of its answer: just that much is written."""
    trace, answer = example("trace"), example("answer")
    for room in range(len(answer) + 1):
        wanted = 6 if room < len(answer) else 0
        if ran_into(room, ["replay"], trace) != (wanted, answer[:room]):
            yield f"replay does not write the first {room} bytes of an answer"
    for words in ["replay"], ["run"], ["churn", "0", "1"], []:
        if ran_into(5, words, trace)[0] != 6:
            yield f"{words} does not tell that there is room for 5 bytes"
        with open("/dev/full", "wb") as full:
            if ran(words, trace, stdout=full)[0] != 6:
                yield f"{words} does not tell that nothing can be written"


def races():
    """Two threads change one field, which is null. The first stops after so many steps of its command, the second runs to its end, and
    then the first goes on: the step by which its access changes the field, or finds it changed, decides which comes first."""
    changes = {"set 0 0 1": 8, "xchg 2 0 0 1": 8, "cas 0 0 2 1": 10}
    for (command, settles), other, steps in itertools.product(changes.items(), changes, range(13)):
        trace = f"shen 1\nheap 8 64 0\nthreads 2 0\n1 new 1 0 0\n1 {command}\n2 new 1 0 0\n2 {other}\n! 1=1 2=1{f' 1:{steps}' * (steps > 0)} 2=2\n"
        graph, replies = Graph(), {}
        for thread, words in ("1", "new 1 0 0"), ("2", "new 1 0 0"), *[("1", command), ("2", other)][:: 1 if steps >= settles else -1]:
            replies[thread] = [*replies.get(thread, []), f"{thread} {graph.answer(thread, words)}"]
        hub = f"object 0.1 {graph.objects['0.1'][0][0]}"
        status, written = ran(["replay"], trace.encode())
        lines = written.decode().split("\n")
        if status or lines[:5] != [*replies["1"], *replies["2"], "graph"] or not lines[5].startswith(hub):
            yield f"{command}, stopped after {steps} steps beside {other}: {written.decode()}"


def longs():
    """Traces that are as long as one may be, and longer."""
    long = 3, f"too long: more than {MOST} bytes\n".encode()
    if ran(["replay"], b"x" * MOST) != (3, b"bad line 1: end of line wanted\n"):
        yield f"{MOST} bytes are not read"
    if ran(["replay"], b"x" * (MOST + 1)) != long:
        yield f"{MOST + 1} bytes are not too long"
    with open("/dev/zero", "rb") as endless:
        done = subprocess.run([program("shenrun"), "replay"], stdin=endless, stdout=subprocess.PIPE, check=False)
    if (done.returncode, done.stdout) != long:
        yield "a trace without an end is not too long"


def main():
    if not program("shenrun"):
        print("test_answers.py: there is no proved program yet: rt ci makes it", file=sys.stderr)
        return 2
    number, failed = 0, 0
    for row in rows():
        number += 1
        for why in fails(row):
            print(f"{row.title}, {shlex.join(row.words)}: {why}")
            failed += 1
    for why in (*races(), *fronts(), *rooms(), *longs()):
        print(why)
        failed += 1
    print(f"{number} rows of words, traces and answers were tried, and {failed} failed")
    return 1 if failed else 0


if __name__ == "__main__":
    sys.exit(main())
