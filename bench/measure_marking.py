#!/usr/bin/env python3
"""Measures what marking beside the threads costs the proved program, and how fast it goes.

usage: measure_marking.py [COMMANDS]

COMMANDS is how many commands each of the two threads of the first table makes, 400000 if left out. There are three tables. Times
mean something only beside each other, from one run, and those of several threads only where no other program wants the
processors.

1. Commands under `run` while objects are marked all the time, beside the same commands while nobody marks. Two threads set, load,
   compare-exchange and exchange a field of an object of their own, on a heap of which one of them has filled less than half first,
   with a tree of objects that all live. In the second run every 500th command is a `gc`, so that marking begins again as soon as it
   has ended; in the first it is a `same` in its place. A control and one helper have a thread each. A time is the least of three
   runs, less the least of runs that read the same bytes and are refused at the last line. The shares of the time are those of one
   further run; the commands a second outside pauses are worked out with them, since in a pause the threads wait. A pause loads and
   stores all words of the heap, so where markings follow one on the other pauses take more of the time than scanning.
2. What the store barrier costs a command, by `replay`: so many of one command in phase 0 and so many in phase 1, by the same
   commands with the `gc` behind them or before them. Steps are those that `shensteps` counts, times the least of three runs; each
   number is that of a longer trace less that of a shorter one, for each command more.
3. How fast objects are scanned under `run`, by the control and 0 to 3 helpers, each in a thread of its own, beside one thread that
   stores to no field. What is counted are the words of the objects that are black where the control asks for the pause that ends
   marking; the time is that from the end of the pause that began it. The pauses do not count, nor what the last one marks, nor
   markings that began before the tree was whole.

How time goes under `run`, and what is black, is looked up in the words of the heap as they stand in the program's memory, by
/proc/PID/mem, some thousand times a second: the pause word, the phase, and at the end of marking the words of black bits. So a time
between two changes is known to a part of a millisecond. Where that memory cannot be read the first table has no shares, and there is
no third one.
"""
import json
import os
import subprocess
import sys
import tempfile
import time

TOP = os.path.dirname(os.path.dirname(os.path.abspath(__file__)))


def program(name):
    places = [os.path.join(TOP, "crates", name, "out", name), os.path.join(TOP, "out", name)]
    return next((it for it in places if os.access(it, os.X_OK)), None)


SHENRUN, SHENSTEPS = program("shenrun"), program("shensteps")
REGIONS, WORDS = 64, 1024
SMALL = (8, 64)
COMMANDS = 400_000
EVERY = 500
ROUNDS = 3
BARRIER = (2_000, 42_000)
FIELDS = ["set 1 0 1", "get 2 1 0", "cas 1 0 2 1", "xchg 3 1 0 1"]
PAUSE_BETWEEN_LOOKS = 0.00005
LARGEST = 1 << 30


def stop(why):
    print(f"measure_marking.py: {why}", file=sys.stderr)
    sys.exit(2)


def tree():
    """The commands that build a tree of objects below the hub, its upper objects first, and how many objects and words it has with
    the hub. Each object stands behind those that name it, so marking from the lowest address on comes to all in one go."""
    lines, objects, words = [], 1, 19
    for box in range(15):
        lines += ["new 4 16 0", f"set 0 {box} 4"]
        objects, words = objects + 1, words + 19
    for box in range(15):
        lines.append(f"get 4 0 {box}")
        for node in range(16):
            lines += ["new 5 16 0", f"set 4 {node} 5"]
            objects, words = objects + 1, words + 19
    for box in range(15):
        for node in range(16):
            lines += [f"get 4 0 {box}", f"get 5 4 {node}"]
            for leaf in range(16):
                lines += ["new 6 0 3", f"set 5 {leaf} 6"]
                objects, words = objects + 1, words + 6
    return lines + ["drop 4", "drop 5", "drop 6"], objects, words


def text_of(threads, helpers, scripts, items=(), heap=(REGIONS, WORDS)):
    lines = ["shen 1", f"heap {heap[0]} {heap[1]} 0", f"threads {threads} {helpers}"]
    lines += [f"{thread} {command}" for thread, script in enumerate(scripts, 1) for command in script]
    return "\n".join(lines + ([f"! {' '.join(items)}"] if items else [])) + "\n"


def written(text):
    file = tempfile.NamedTemporaryFile("w", suffix=".trace")
    file.write(text)
    file.flush()
    return file


class Table:
    """The words of a heap in the memory of a program that runs it, from the outside."""

    def __init__(self, pid, threads, helpers):
        self.pid, self.threads = pid, threads
        self.phase_at = 3 + threads + helpers
        roots_at = self.phase_at + 7 + 3 * REGIONS + threads + helpers
        self.grey_at = roots_at + 27 * threads
        self.mark_words = REGIONS * WORDS // 64
        self.heap_at = self.grey_at + 2 * self.mark_words
        self.memory, self.start = None, None

    def ranges(self):
        with open(f"/proc/{self.pid}/maps", encoding="utf-8") as file:
            for line in file:
                span, rights = line.split()[:2]
                if rights.startswith("rw"):
                    yield tuple(int(it, 16) for it in span.split("-"))

    def find(self):
        """Looks for the table: the hub's first words stand at their place, the count of mutators at its own, and some region has been
        taken, unlike in the copy of the words with which the heap was opened."""
        hub = b"".join(it.to_bytes(8, "little") for it in (1, 69632, 1))
        self.memory = self.memory or os.open(f"/proc/{self.pid}/mem", os.O_RDONLY)
        for first, last in self.ranges():
            try:
                held = os.pread(self.memory, last - first, first) if last - first < LARGEST else b""
            except OSError:
                continue
            at = held.find(hub)
            while at >= 0:
                start = at - 8 * self.heap_at
                if start >= 0 and self.is_table(held[start : start + 8 * (self.phase_at + 3)]):
                    self.start = first + start
                    return True
                at = held.find(hub, at + 8)
        return False

    def is_table(self, held):
        words = [int.from_bytes(held[at : at + 8], "little") for at in range(0, len(held), 8)]
        return words[1:3] == [self.threads, 0] and words[-1] != 2**REGIONS - 2

    def look(self):
        """Whether a pause is wanted or runs, and the phase. None once the program has ended."""
        held = os.pread(self.memory, 8 * (self.phase_at + 1), self.start)
        return (held[0], held[8 * self.phase_at]) if held else None

    def used(self):
        """How many words of the regions are in use."""
        held = os.pread(self.memory, 8 * REGIONS, self.start + 8 * (self.phase_at + 6))
        return sum(int.from_bytes(held[at : at + 8], "little") for at in range(0, len(held), 8))

    def black(self):
        """How many objects are black."""
        held = os.pread(self.memory, 8 * self.mark_words, self.start + 8 * (self.grey_at + self.mark_words))
        return int.from_bytes(held, "little").bit_count()


def watched(trace, threads, helpers, words=0):
    """Runs a trace and looks at its words meanwhile: how long each state of pause word and phase held, and for each marking that was
    seen from its beginning to its end, and began with so many words in use at least, how long it took and how many objects were black
    then. Both are empty where that cannot be seen."""
    shares, markings, table = {}, [], None
    with open(trace, "rb") as source:
        child = subprocess.Popen((SHENRUN, "run"), stdin=source, stdout=subprocess.DEVNULL)
    try:
        table = Table(child.pid, threads, helpers)
        while child.poll() is None and not table.find():
            time.sleep(0.02)
        before, since, begun = None, time.monotonic(), None
        while table.start and child.poll() is None:
            now = table.look()
            at = time.monotonic()
            if now is None or now[0] > 1 or now[1] > 1:
                break
            if before is not None:
                shares[before] = shares.get(before, 0) + at - since
            if before == (1, 1) and now == (0, 1):
                begun = at if table.used() >= words else None
            if before == (0, 1) and now == (1, 1) and begun is not None:
                markings.append((at - begun, table.black()))
            before, since = now, at
            time.sleep(PAUSE_BETWEEN_LOOKS)
    except OSError:
        pass
    finally:
        status = child.wait()
        if table and table.memory:
            os.close(table.memory)
    if status != 0:
        stop(f"run ends with {status}")
    return shares, markings


def seconds(trace, wanted, *words):
    """The least time of so many runs."""
    times = []
    for _ in range(ROUNDS):
        with open(trace, "rb") as source:
            start = time.monotonic()
            status = subprocess.run((SHENRUN, *words), stdin=source, stdout=subprocess.DEVNULL).returncode
            times.append(time.monotonic() - start)
        if status != wanted:
            stop(f"{' '.join(words)} ends with {status}, not {wanted}")
    return min(times)


def worker(count, asking, built):
    """A thread that works on a field of its own object, and asks for a collection every so often."""
    script = [*built, "new 1 1 0"]
    while len(script) < count:
        script.append(("gc" if asking else "same 1 2") if len(script) % EVERY == 0 else FIELDS[len(script) % len(FIELDS)])
    return script


def measure_commands(commands):
    built, _, _ = tree()
    print(f"two threads under run, {commands} commands each, a control and a helper")
    print(f"{'':>16}{'million a second':>18}{'outside pauses':>16}{'in phase 1':>12}{'in pauses':>11}{'markings seen':>15}")
    rates, beside = {}, {}
    for asking in (False, True):
        text = text_of(2, 1, [worker(commands, asking, built), worker(commands, asking, [])])
        with written(text) as trace, written(text + "?\n") as refused:
            took = seconds(trace.name, 0, "run") - seconds(refused.name, 3, "run")
            shares, markings = watched(trace.name, 2, 1)
        rates[asking] = 2 * commands / took
        whole = sum(shares.values()) or 1
        marking, paused = shares.get((0, 1), 0) / whole, (shares.get((1, 0), 0) + shares.get((1, 1), 0)) / whole
        name, beside[asking] = "marking" if asking else "nobody marks", rates[asking] / max(1 - paused, 1e-6)
        print(
            f"{name:>16}{rates[asking] / 1e6:>18.3f}{beside[asking] / 1e6:>16.3f}{100 * marking:>10.0f} %{100 * paused:>9.0f} %{len(markings):>15}"
        )
    print(f"{'ratio':>16}{rates[True] / rates[False]:>18.2f}{beside[True] / beside[False]:>16.2f}")


def steps_of(trace):
    """The steps of a trace: the events that its listing counts."""
    with open(trace, "rb") as source:
        words = (SHENSTEPS, "--json", "--from", "4000000000")
        said = subprocess.run(words, stdin=source, stdout=subprocess.PIPE, text=True, check=False).stdout
    return next(it["events"] for it in map(json.loads, said.splitlines()) if it["kind"] == "end")


def barrier_trace(command, count, phase):
    """So many of a command in a phase, on a small heap. Its field holds an object before and after."""
    script = ["new 1 1 0", "new 2 0 0", "set 1 0 2"]
    script += [command] * count + ["gc"] if phase == 0 else ["gc"] + [command] * count
    first = len(script) if phase == 0 else 4
    return text_of(1, 0, [script], [f"1={first}", "2@P3", "2@I0", f"1={len(script)}"], SMALL)


def measure_barrier():
    few, many = BARRIER
    print("one command more under replay, whose field holds an object")
    print(f"{'':>16}{'steps':>8}{'in phase 1':>12}{'ratio':>8}{'ns':>8}{'in phase 1':>12}{'ratio':>8}")
    for name, command in (("set", "set 1 0 2"), ("cas", "cas 1 0 2 2"), ("xchg", "xchg 2 1 0 2")):
        found = []
        for phase in (0, 1):
            with written(barrier_trace(command, few, phase)) as short, written(barrier_trace(command, many, phase)) as long:
                steps = steps_of(long.name) - steps_of(short.name)
                took = seconds(long.name, 0, "replay") - seconds(short.name, 0, "replay")
            found += [steps / (many - few), 1e9 * took / (many - few)]
        calm, quick, marking, slow = found
        print(f"{name:>16}{calm:>8.2f}{marking:>12.3f}{marking / calm:>8.2f}{quick:>8.0f}{slow:>12.0f}{slow / quick:>8.2f}")


def measure_scanning(commands):
    built, objects, words = tree()
    print(f"scanning {objects} objects of {words} words under run, on {os.cpu_count()} processors, a thread of commands beside it")
    print(f"{'':>16}{'markings':>10}{'ms, the middle':>16}{'objects black':>15}{'million words a second':>24}")
    for helpers in range(4):
        script = built + ["gc" if at % EVERY == 0 else "same 0 1" for at in range(commands)]
        with written(text_of(1, helpers, [script])) as trace:
            _, markings = watched(trace.name, 1, helpers, words)
        name = f"{helpers} helper{'s' if helpers != 1 else ''}"
        if not markings:
            print(f"{name:>16}{0:>10}")
            continue
        took = sorted(it for it, _ in markings)[len(markings) // 2]
        black = sum(it for _, it in markings) / len(markings) / objects
        print(f"{name:>16}{len(markings):>10}{1000 * took:>16.2f}{100 * black:>13.1f} %{black * words / took / 1e6:>24.2f}")


def main():
    if len(sys.argv) > 2 or not all(word.isdecimal() for word in sys.argv[1:]):
        stop("it wants no word, or a number of commands")
    if not SHENRUN or not SHENSTEPS:
        stop("there is no proved program yet: rt ci makes it")
    commands = int(sys.argv[1]) if len(sys.argv) == 2 else COMMANDS
    print(f"load before: {os.getloadavg()[0]:.1f} on {os.cpu_count()} processors")
    measure_commands(commands)
    measure_barrier()
    measure_scanning(commands)


if __name__ == "__main__":
    main()
