#!/usr/bin/env python3
"""Measures the library for C: its operations, its list and map programs beside others, and what a heap of a given size costs.

usage: measure_library.py [operations] [lists] [maps] [sizes]      all four where none is named

The archive is built as library/build.sh says; COVREMUJ_ARCHIVE names another one. The programs are those of bench/library.
    operations   of each command with 1, 2, 4 and 8 threads, where nobody asks for a collection and where one cycle follows the other
    lists        the list program, beside the same over malloc and free, over Boehm's collector, and on the JDK's Shenandoah
    maps         the map program, beside the same over malloc with a lock, and over Boehm's collector
    sizes        memory, the opening, and the longest stop of a mutator, by the size of the heap and by how much of it lives
What is not there is named and passed over. Times mean something only beside each other, from one run.
"""
import os
import shutil
import statistics
import subprocess
import sys
import tempfile

TOP = os.path.dirname(os.path.dirname(os.path.abspath(__file__)))
HERE = os.path.join(TOP, "bench", "library")
COMMANDS = ["new", "get", "set", "cas", "xchg", "rd", "wr", "copy", "drop", "same", "gc", "shared"]
SHENANDOAH = ["java", "-XX:+UseShenandoahGC", "-Xms256m", "-Xmx256m"]
RUNS = 3


def stop(why):
    print(f"{os.path.basename(sys.argv[0])}: {why}", file=sys.stderr)
    sys.exit(2)


class Bench:
    """The programs, built once in a throwaway folder."""

    def __init__(self, room):
        self.room = room
        self.compiler = os.environ.get("CC", "cc")
        if not shutil.which(self.compiler):
            stop(f"there is no {self.compiler}")
        if subprocess.run([os.path.join(TOP, "library", "build.sh"), room]).returncode:
            stop("the archive is not built")

    def build(self, name, *words):
        """The program of these sources and flags, or None."""
        out = os.path.join(self.room, name)
        command = [self.compiler, "-std=c11", "-O2", "-I", os.path.join(TOP, "include"), *words, "-pthread", "-o", out]
        done = subprocess.run(command, cwd=HERE, capture_output=True, text=True)
        return out if done.returncode == 0 else None

    def over_heap(self, name, *more):
        return self.build(name, f"{name}.c", *more, os.path.join(self.room, "libcovremuj.a")) or stop(f"{name}.c does not compile")

    def boehm(self, name):
        made = self.build(name.replace("plain", "boehm"), f"{name}.c", "-DBOEHM", "-lgc")
        if not made:
            print("there is no Boehm collector that cc finds (Debian: libgc-dev): nothing of it stands beside it")
        return made


def told(*words):
    """The numbers that a program writes, or None where it refuses the sizes."""
    ended = subprocess.run([str(word) for word in words], stdin=subprocess.DEVNULL, capture_output=True, text=True)
    if ended.returncode == 3:
        return None
    if ended.returncode:
        stop(f"{words} ends with {ended.returncode}: {ended.stdout}{ended.stderr}")
    return [float(word) for word in ended.stdout.split()]


def median_of(at, *words):
    """The row of numbers whose one at this place is the median of some runs."""
    rows = [told(*words) for _ in range(RUNS)]
    return statistics.median_low([(row[at], row) for row in rows])[1]


def operations(bench):
    program = bench.over_heap("operations")
    print("operations, on 32 regions of 256 words: millions a second of all threads together, and behind the stroke those of one thread in a second of its processor time")
    print(f"{'command':8}" + "".join(f"{mode + ' ' + str(threads):>16}" for mode in ("idle", "on") for threads in (1, 2, 4, 8)))
    for command in COMMANDS:
        row = [median_of(1, program, command, threads, mode, 200, 32, 256) for mode in ("idle", "on") for threads in (1, 2, 4, 8)]
        print(f"{command:8}" + "".join(f"{all / 1e6:9.3f} /{own / 1e6:5.2f}" for all, own in row), flush=True)


def tell(name, many, seconds, busy, ours):
    """Writes the rates by the clock and by processor time, and how many times ours they are."""
    rates = many / seconds / 1e6, many / busy / 1e6
    beside = f"; {rates[0] / ours[0]:.0f} and {rates[1] / ours[1]:.0f} times ours" if ours else ""
    print(f"  {name:38}{many:9.0f} in {seconds:7.3f} s: {rates[0]:7.3f} million a second, {rates[1]:7.3f} in a second of processor time{beside}", flush=True)
    return rates


def lists(bench):
    heap, plain = bench.over_heap("list_heap"), bench.build("list_plain", "list_plain.c")
    boehm, java = bench.boehm("list_plain"), has_shenandoah(bench)
    for threads in (1, 2, 4):
        length, times = 1000, 100
        print(f"lists: {threads} threads, lists of {length} numbers; nodes made, read and let go")
        rates = {}
        for regions, words in ((64, 1024), (32, 1024)):
            total, seconds, busy, mutators, longest, *_ = median_of(3, heap, length, times, threads, regions, words, 0, 0)
            check_sum(total, length, times, threads)
            many = length * times * threads
            rates[regions] = tell(f"covremuj, {regions} regions of {words} words", many, seconds, busy, None)
            print(f"    of {busy:.3f} s of processor time {mutators:.3f} in the threads that make lists; the longest call that waited {longest:.3f} ms")
        times *= 20
        rows = [("malloc and free", [plain]), ("Boehm's collector", [boehm]), ("Shenandoah of the JDK", java)]
        for name, words in rows:
            if words and words[0]:
                total, seconds, busy = median_of(2, *words, length, times, threads)
                check_sum(total, length, times, threads)
                tell(name, length * times * threads, seconds, busy, rates[64])


def check_sum(total, length, times, threads):
    if total != threads * times * length * (length + 1) // 2:
        stop(f"the sum of the lists is {total}")


def has_shenandoah(bench):
    try:
        there = subprocess.run([*SHENANDOAH, "-version"], capture_output=True).returncode == 0
        there = there and subprocess.run(["javac", "-d", bench.room, os.path.join(HERE, "Lists.java")]).returncode == 0
    except OSError:
        there = False
    if not there:
        print("no JDK with Shenandoah is here, so nothing of it stands beside it")
        return None
    return [*SHENANDOAH, "-cp", bench.room, "Lists"]


def maps(bench):
    users = os.path.join(TOP, "library", "users", "map", "map.c")
    heap, plain = bench.over_heap("map_heap", users), bench.build("map_plain", "map_plain.c")
    boehm = bench.boehm("map_plain")
    for threads in (1, 2, 4, 8):
        many = 20000
        print(f"maps: {threads} threads, 1000 keys, half of the operations reads; operations of all threads")
        rates = []
        for regions, words in ((64, 1024), (32, 1024)):
            left, wanted, seconds, busy, mutators = median_of(4, heap, 1000, many, threads, regions, words, 0)
            check_keys(left, wanted)
            rates.append(tell(f"covremuj, {regions} regions of {words} words", many * threads, seconds, busy, None))
            print(f"    of {busy:.3f} s of processor time {mutators:.3f} in the threads that use the map")
        many *= 20
        for name, program in (("malloc and free, one lock", plain), ("Boehm's collector, compare-exchange", boehm)):
            if program:
                left, wanted, seconds, busy = median_of(3, program, 1000, many, threads)
                check_keys(left, wanted)
                tell(name, many * threads, seconds, busy, rates[0])


def check_keys(left, wanted):
    if left != wanted:
        stop(f"{left} keys are left, and not {wanted}")


def sizes(bench):
    program = bench.over_heap("sizes")
    print("sizes: one mutator, one helper, always collected")
    print(f"{'regions':>8}{'words':>9}{'heap MiB':>10}{'lives %':>9}{'memory MiB':>12}{'times heap':>12}{'opening s':>11}{'calls':>10}{'waits':>7}{'longest ms':>12}{'median ms':>11}")
    for regions, words in ((8, 64), (16, 256), (64, 256), (64, 1024), (64, 4096), (64, 16384), (64, 65536)):
        for lives in (5, 40):
            row = told(program, regions, words, lives, 1, 3000)
            if row is None:
                print(f"{regions:8}{words:9}  refused")
                continue
            size = regions * words * 8
            print(f"{regions:8}{words:9}{size / 2**20:10.3f}{lives:9}{row[0] / 2**20:12.2f}{row[0] / size:12.2f}{row[1]:11.4f}{row[2]:10.0f}{row[3]:7.0f}{row[4]:12.3f}{row[5]:11.3f}", flush=True)


def main():
    known = {"operations": operations, "lists": lists, "maps": maps, "sizes": sizes}
    asked = sys.argv[1:] or list(known)
    if any(word not in known for word in asked):
        print(__doc__.split("\n\n")[1], file=sys.stderr)
        return 2
    with tempfile.TemporaryDirectory() as room:
        bench = Bench(room)
        for word in asked:
            known[word](bench)
    return 0


if __name__ == "__main__":
    sys.exit(main())
