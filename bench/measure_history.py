#!/usr/bin/env python3
"""Measures noting and checking of histories, beside a plain replay of the same trace.

usage: measure_history.py

Threads store, load and exchange, so that nothing is refused, in 100,000, 200,000 and 300,000 commands: it prints commands a second and the
most memory for each byte of input of `replay`, of `replay --history`, and of `check` on what the latter has written, with the pair's
own bytes as its input. Then one thread fills a heap and asks for more, so that each further allocation is refused: it prints the
milliseconds of `check` for each refusal, by how many objects live. Then one thread keeps all that it makes: it prints the seconds of
`replay --history` and of `check`. Each time is the least of three runs. Times mean something only beside each other, from one run.
"""
import os
import subprocess
import sys
import tempfile
import time

sys.dont_write_bytecode = True
TOP = os.path.dirname(os.path.dirname(os.path.abspath(__file__)))
sys.path.insert(0, os.path.join(TOP, "check"))
from cases import program  # pylint: disable=wrong-import-position

THREADS, RUNS = 4, 3
ROUND = ["set 0 1 1", "get 2 0 1", "wr 2 0 7", "rd 1 0", "xchg 3 0 1 1", "cas 0 1 3 1", "copy 4 2", "same 4 1"]
# A list of one object, with its first in root 3 and its last in root 2; and one more behind it.
LIST = ["new 1 1 0", "copy 2 1", "copy 3 1"]
LONGER = ["new 1 1 0", "set 2 0 1", "copy 2 1"]


def head(regions, words, threads):
    """The lines at the head of a trace."""
    return ["shen 1", f"heap {regions} {words} 0", f"threads {threads} 0"]


def plain(commands):
    """A trace of so many commands of which none is refused."""
    lines = [f"{thread} new 1 1 1" for thread in range(1, THREADS + 1)]
    while len(lines) < commands:
        lines += [f"{thread} {call}" for call in ROUND for thread in range(1, THREADS + 1)]
    return "\n".join(head(16, 256, THREADS) + lines[:commands]) + "\n"


def refused(words, live, times):
    """A trace of a thread that keeps so many objects in a list, fills the rest of its heap, and asks so many times in vain."""
    lines = LIST + LONGER * live
    lines += ["new 1 1 16", "set 2 0 1", "copy 2 1"] * (8 * words // 20)
    return "\n".join(head(8, words, 1) + [f"1 {call}" for call in lines + ["new 1 16 16"] * times]) + "\n"


def kept(live):
    """A trace of a thread that keeps so many objects in a list."""
    return "\n".join(head(64, 1024, 1) + [f"1 {call}" for call in LIST + LONGER * live]) + "\n"


def measured(words, text):
    """The seconds of the least of some runs, the most memory of one in bytes, and what it writes."""
    seconds, most, written = [], 0, b""
    with tempfile.TemporaryFile() as source:
        source.write(text)
        for _ in range(RUNS):
            source.seek(0)
            with tempfile.TemporaryFile() as sink:
                start = time.monotonic()
                child = subprocess.Popen([program("shenrun"), *words], stdin=source, stdout=sink)
                _, status, used = os.wait4(child.pid, 0)
                seconds.append(time.monotonic() - start)
                if status:
                    sys.exit(f"measure_history.py: {' '.join(words)} ends with {os.waitstatus_to_exitcode(status)}")
                most = max(most, used.ru_maxrss * 1024)
                sink.seek(0)
                written = sink.read()
    return min(seconds), most, written


def main():
    if not program("shenrun"):
        sys.exit("measure_history.py: there is no proved program yet: rt ci makes it")
    for commands in (100_000, 200_000, 300_000):
        trace = plain(commands).encode()
        alone, noted = measured(["replay"], trace), measured(["replay", "--history"], trace)
        pair = trace + b"answer\n" + noted[2]
        judged = measured(["check"], pair)
        if judged[2] != b"yes\n":
            sys.exit(f"measure_history.py: check says {judged[2].decode()}")
        for what, it, size in (("replay", alone, trace), ("replay --history", noted, trace), ("check", judged, pair)):
            print(f"{commands} commands, {what}: {commands / it[0] / 1e6:.3f} million a second, {it[1] / len(size):.1f} bytes of memory a byte")
    for words, live in ((64, 16), (256, 160), (1024, 640)):
        without, with_them = (refused(words, live, times).encode() for times in (1, 1001))
        spent = []
        for trace in (without, with_them):
            noted = measured(["replay", "--history"], trace)[2]
            spent.append(measured(["check"], trace + b"answer\n" + noted))
        fulls = noted.count(b" : full\n")
        objects = noted.split(b"history\n")[0].count(b"\nobject ")
        print(f"{objects} live objects, {fulls} refusals: {(spent[1][0] - spent[0][0]):.3f} ms each; {spent[1][2].decode().strip()}")
    for live in (3500, 7000, 14000):
        trace = kept(live).encode()
        noted = measured(["replay", "--history"], trace)
        judged = measured(["check"], trace + b"answer\n" + noted[2])
        print(f"{live} objects kept: replay --history {noted[0]:.3f} s, check {judged[0]:.3f} s; {judged[2].decode().strip()}")
    return 0


if __name__ == "__main__":
    sys.exit(main())
