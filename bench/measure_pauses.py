#!/usr/bin/env python3
"""Measures what pauses cost the proved program.

usage: measure_pauses.py [COMMANDS]

First a churn of three threads whose heap of 16 regions of 256 words must be collected all the time (collect_trace.py, with so
many commands, 20000 if left out), beside the same commands on a heap that is never collected: steps, pauses, and commands
and steps a second. Then full collections alone, on half-full heaps of several sizes: the steps and the time of one pause, and the time
for each word of the heap. It is the same for all sizes where a pause is linear. Times are the least of five runs, without
those of reading the trace, and mean something only beside each other, from one run.

All counts here are exact, and found so:

- The steps of a trace are the events that `shensteps` counts, and its pauses are told by the control's events in the listing, by the
  phase that a pause stores and the one before it, and by whether an allocation waits for it. One that finishes a cycle may end in a full
  collection.
- A pause loads each word of the image once (place PL) and stores each once (PS). How many words the image has, follows from
  the sizes alone.
- Full collections alone are made on purpose, on a heap that has all its regions in reserve: there each `new` waits for one, and a trace
  with more of them has so many steps more. Beside PL and PS these are 21: sixteen of the `new`, and five of the control, which looks
  twice, wants the pause, looks whether the one thread is out, and lets it go. The script stops where there are more or fewer.
"""
import collections
import json
import os
import subprocess
import sys
import tempfile
import time

HERE = os.path.dirname(os.path.abspath(__file__))
TOP = os.path.dirname(HERE)


def program(name):
    """The proved program of this name, if there is one."""
    places = [os.path.join(TOP, "crates", name, "out", name), os.path.join(TOP, "out", name)]
    return next((it for it in places if os.access(it, os.X_OK)), None)


PROGRAM, LISTER = program("shenrun"), program("shensteps")
CHURN = (16, 256)
ROOMY = (64, 1024)
SIZES = ((16, 256), (32, 256), (16, 512), (32, 512))
FEW, MANY = 20, 220
BESIDE = 21


def stop(why):
    print(f"measure_pauses.py: {why}", file=sys.stderr)
    sys.exit(2)


def image_words(regions, size, threads, helpers):
    """The words of the image of a heap, all of which a pause loads and stores: six of its own, one for each machine, three for
    each region, 27 for each thread, two bits for each word of the heap, and the heap."""
    words = regions * size
    return 6 + (threads + helpers + 1) + 3 * regions + 27 * threads + 2 * ((words + 63) // 64) + words


def run(trace, *words):
    """The seconds of a run, and its exit number."""
    with open(trace, "rb") as source:
        start = time.monotonic()
        status = subprocess.run((PROGRAM, "replay", *words), stdin=source, stdout=subprocess.DEVNULL).returncode
        return time.monotonic() - start, status


def told_of(trace, control):
    """The steps that a trace takes, and its pauses by what they do, for the number of its control."""
    counts, end = collections.Counter(), {}
    with open(trace, "rb") as source:
        words = (LISTER, "--json", "--only", str(control), "--place", "P3", "--steps", "4000000000")
        with subprocess.Popen(words, stdin=source, stdout=subprocess.PIPE) as child:
            for line in child.stdout:
                it = json.loads(line)
                if it["kind"] == "pause":
                    counts[kind_of(it["phase_before"], it["phase_after"], it["allocation_waits"])] += 1
                elif it["kind"] == "end":
                    end = it
    if not end.get("finished"):
        stop("a trace is not answered")
    return end["events"], counts


def kind_of(phase, then, waits):
    """What a pause does, by the phase before and after it and whether an allocation waits for it."""
    if waits or (phase, then) == (2, 0):
        return "collect in full" if phase == 0 else "finish a cycle"
    kinds = {(0, 1): "begin marking", (1, 2): "begin evacuation", (1, 0): "end a cycle without evacuation", (2, 3): "begin updating", (3, 0): "end a cycle"}
    return kinds[phase, then]


def seconds_of(trace):
    """The seconds that its steps take: those of a whole run without those of one that makes a single step."""
    return min(run(trace)[0] for _ in range(5)) - min(run(trace, "--steps", "1")[0] for _ in range(5))


def churn(commands, regions, size, helpers, file):
    """Writes the churn on a heap of these sizes."""
    made = subprocess.run(
        (sys.executable, os.path.join(HERE, "collect_trace.py"), str(commands), str(regions), str(size)), capture_output=True, text=True, check=True
    ).stdout
    file.write(made.replace("threads 3 0", f"threads 3 {helpers}", 1))
    file.flush()
    return sum(1 for line in made.splitlines() if line[:1].isdigit())


def pauses(count, regions, size, file):
    """Writes a trace that fills half of a heap with a list of objects of 16 words, and then makes so many pauses, in each of which a
    small object is made in the place of the one before."""
    objects = regions * size // 32
    lines = ["shen 1", f"heap {regions} {size} {regions - 1}", "threads 1 0"]
    for _ in range(objects):
        lines += ["1 new 1 1 12", "1 set 1 0 2", "1 copy 2 1"]
    lines += ["1 new 3 0 0"] * count
    items = [f"1={3 * objects}"] + [f"1@WP 2@P3 2@I0 1={3 * objects + i}" for i in range(1, count + 1)]
    lines += [f"! {item}" for item in items]
    file.write("\n".join(lines) + "\n")
    file.flush()


def fresh():
    return tempfile.NamedTemporaryFile("w", suffix=".trace")


def measure_churn(commands):
    regions, size = CHURN
    with fresh() as file:
        made = churn(commands, regions, size, 0, file)
        steps, counts = told_of(file.name, 4)
        seconds = seconds_of(file.name)
    count = sum(counts.values())
    copied = 2 * count * image_words(regions, size, 3, 0)
    with fresh() as file:
        churn(commands, *ROOMY, 0, file)
        roomy_steps, roomy_seconds = told_of(file.name, 4)[0], seconds_of(file.name)
    print(f"{made} commands of three threads")
    for what, all_steps, took in ((f"{regions} regions of {size}", steps, seconds), ("never collected", roomy_steps, roomy_seconds)):
        print(f"{what:>20}: {all_steps} steps, {all_steps / took / 1e6:.1f} million a second, {made / took / 1e6:.2f} million commands a second")
    kinds = ", ".join(f"{number} {what}" for what, number in sorted(counts.items()))
    print(f"{count} pauses ({kinds}), one for {made / count:.0f} commands; PL and PS are {copied} steps, {100 * copied / steps:.1f} % of all")


def measure_size(regions, size):
    with fresh() as few, fresh() as many:
        pauses(FEW, regions, size, few)
        pauses(MANY, regions, size, many)
        steps = told_of(many.name, 2)[0] - told_of(few.name, 2)[0]
        took = (seconds_of(many.name) - seconds_of(few.name)) / (MANY - FEW)
    image = image_words(regions, size, 1, 0)
    words = regions * size
    if steps != (MANY - FEW) * (2 * image + BESIDE):
        stop(f"{MANY - FEW} pauses take {steps} steps, which is not 2 x {image} + {BESIDE} for each")
    print(f"{regions:>4} x {size:<4}{words:>6} words, image {image:>5}: {2 * image + BESIDE:>5} steps, {took * 1e6:>5.0f} us, {took / words * 1e9:.0f} ns a word of the heap")


def main():
    if len(sys.argv) > 2 or not all(word.isdecimal() for word in sys.argv[1:]):
        stop("it wants no word, or a number of commands")
    if not PROGRAM or not LISTER:
        stop("there is no proved program yet: rt ci makes it")
    measure_churn(int(sys.argv[1]) if len(sys.argv) == 2 else 20000)
    print("one pause of a half-full heap")
    for regions, size in SIZES:
        measure_size(regions, size)


if __name__ == "__main__":
    main()
