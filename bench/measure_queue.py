#!/usr/bin/env python3
"""Measures the proved program on a queue, beside the same workload on queues of Rust and of the JDK.

usage: measure_queue.py [COUNT]

COUNT is 390 where it is not given. It prints the seconds of the whole process, the median of five, and the operations a second: two threads
put COUNT numbers each, and two take as many. Then what the same users take under `replay`, in rounds of one command each, with twenty steps of the
control in each round and no helper, since of threads nobody counts them: commands, steps, what a step costs, and where there is a proved
`shensteps` the pauses by what they do (how they are found, measure_pauses.py says). Then, where there is a rustc, the same of bench/queue.rs, a `Mutex<VecDeque>`, and where there is
a JDK with Shenandoah, of bench/Queue.java, a `ConcurrentLinkedQueue`; of these also of the threads alone, since most of such a process is its
start, and with 1000 times as many numbers, since so few are over at once. All have to write the same three lines for the same count. Times mean something only beside each other, from one
run.
"""
import os
import shutil
import statistics
import subprocess
import sys
import tempfile
import time

import measure_pauses

TOP = os.path.dirname(os.path.dirname(os.path.abspath(__file__)))
sys.path.insert(0, os.path.join(TOP, "check"))
import test_queue  # pylint: disable=wrong-import-position

PLACES = [os.path.join(TOP, "crates", "shenrun", "out", "shenrun"), os.path.join(TOP, "out", "shenrun")]
SHENANDOAH = ["java", "-XX:+UseShenandoahGC"]


def stop(why):
    print(f"measure_queue.py: {why}", file=sys.stderr)
    sys.exit(2)


def run(*words):
    """The seconds of a process, what it writes, and its standard error."""
    start = time.monotonic()
    ended = subprocess.run(words, stdin=subprocess.DEVNULL, capture_output=True, text=True)
    seconds = time.monotonic() - start
    if ended.returncode:
        stop(f"{' '.join(words)} ends with {ended.returncode}: {ended.stdout}{ended.stderr}")
    return seconds, ended.stdout, ended.stderr


def tell(name, seconds, count):
    middle = statistics.median(seconds)
    print(f"{name}: {middle:.6f} s, {4 * count / middle:.0f} operations a second")


def wanted(count):
    return f"queue {count}\nitems {2 * count}\nsum {3000000 * count + count * (count + 1)}\n"


def measure(name, count, words):
    """Five runs for this count, each of which writes what it should. Its threads alone where it tells their seconds."""
    runs = [run(*words, str(count)) for _ in range(5)]
    if any(text != wanted(count) for _, text, _ in runs):
        stop(f"{name} writes {runs[0][1]}")
    tell(f"{name}, {count} numbers", [it[0] for it in runs], count)
    if runs[0][2].strip():
        tell(f"{name}, {count} numbers, its threads", [float(it[2]) for it in runs], count)


def putter(sets_up, first, count, run):
    yield from test_queue.set_up() if sets_up else test_queue.join()
    for number in range(first, first + count):
        yield from test_queue.put(number, run)


def taker(count):
    yield from test_queue.join()
    mine = []
    while sum(1 for what, _ in mine if what == "got") < count:
        yield from test_queue.take(mine)


def rounds(count):
    """The commands of the four users in rounds, and the trace whose schedule makes them."""
    world = test_queue.World(4)
    for thread, user in enumerate((putter(True, 1000001, count, world.run), putter(False, 2000001, count, world.run), taker(count), taker(count)), 1):
        world.give(thread, user)
    while any(world.users.values()):
        for thread in range(1, 5):
            world.turn(thread)
    turns = iter(range(1, len(world.told) + 1))
    return len(world.told), world.trace("heap 16 256 2", 0, lambda: "" if next(turns) % 4 else "5:20")


def steps_of(program, trace):
    """How many steps the trace takes under `replay`: fewer are not enough."""
    few, enough = 0, 1
    while not ends_within(program, trace, enough):
        few, enough = enough, 2 * enough
    while few + 1 < enough:
        middle = (few + enough) // 2
        few, enough = (few, middle) if ends_within(program, trace, middle) else (middle, enough)
    return enough


def replayed(program, trace, *words):
    """The seconds of a replay, and its status."""
    with open(trace, "rb") as source:
        start = time.monotonic()
        status = subprocess.run([program, "replay", *words], stdin=source, stdout=subprocess.DEVNULL, check=False).returncode
        return time.monotonic() - start, status


def ends_within(program, trace, steps):
    return replayed(program, trace, "--steps", str(steps))[1] == 0


def measure_steps(program, count):
    """Prints what the same users take under `replay`."""
    commands, text = rounds(count)
    with tempfile.NamedTemporaryFile("w", suffix=".trace") as trace:
        trace.write(text)
        trace.flush()
        steps = steps_of(program, trace.name)
        seconds = min(replayed(program, trace.name)[0] for _ in range(5)) - min(replayed(program, trace.name, "--steps", "1")[0] for _ in range(5))
        told = f"{commands} commands, {commands / count / 4:.1f} an operation; {steps} steps, {1e9 * seconds / steps:.0f} ns a step"
        if measure_pauses.LISTER:
            pauses = measure_pauses.told_of(trace.name, 5)[1]
            told += f"; {sum(pauses.values())} pauses ({', '.join(f'{number} {what}' for what, number in sorted(pauses.items()))})"
    print(f"the same users under replay, in rounds: {told}")


def others(folder):
    """The names and words of the other queues that can be built here."""
    rustc = shutil.which("rustc") or shutil.which("/root/.cargo/bin/rustc")
    if rustc:
        program = os.path.join(folder, "queue")
        run(rustc, "-O", "--edition", "2021", "-o", program, os.path.join(TOP, "bench", "queue.rs"))
        yield "Mutex<VecDeque> of Rust", [program]
    if shutil.which("javac"):
        run("javac", "-d", folder, os.path.join(TOP, "bench", "Queue.java"))
        if not subprocess.run([*SHENANDOAH, "-version"], capture_output=True, check=False).returncode:
            yield "ConcurrentLinkedQueue on Shenandoah", [*SHENANDOAH, "-cp", folder, "Queue"]


def main():
    count = int(sys.argv[1]) if len(sys.argv) > 1 else 390
    program = next((it for it in PLACES if os.path.exists(it)), None) or stop("there is no proved program: rt check in crates/shenrun first")
    measure("queue in the managed heap", count, [program, "queue"])
    measure_steps(program, count)
    with tempfile.TemporaryDirectory() as folder:
        for name, words in others(folder):
            measure(name, count, words)
            measure(name, 1000 * count, words)


if __name__ == "__main__":
    main()
