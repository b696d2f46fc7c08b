#!/usr/bin/env python3
"""Measures what evacuation beside the threads costs the proved program, and how fast it goes.

usage: measure_evacuation.py [COMMANDS]

COMMANDS is how many commands each of the two threads of the second table makes, 400000 if left out. There are four tables. Times
mean something only beside each other, from one run, and those of several threads only where no other program wants the
processors.

1. What the load barrier costs a `get`, by `replay`: of a field whose object has a copy outside the collection set already, or is
   copied by this `get`, beside one whose object is outside the set, and one while nobody evacuates. All objects have as many words,
   and the thread always has room. Steps are those that `shensteps` counts, times the least of some runs; each number is that of
   a longer trace less that of a shorter one, for each `get` more. Those of the boxes on the way count as what they are: loads of
   objects outside the set.
2. Commands under `run` with one cycle after the other, beside the same with full collections only, and beside none. Two threads
   have 512 objects each, and in every 16 commands put a new one into the place of another, first into each second place and then
   into each other one; with the rest they load, store and exchange fields and numbers of these objects. With cycles, every 4096th
   command of each is a `gc`, and by then half of what an old region has is garbage. With full collections only, so many regions
   are kept in reserve that threads have to wait for room again and again. Without either, the commands are no more than there is
   room for. A control and one helper have a thread each. A time is the least of some runs, less the least of runs that read the
   same bytes and are refused at the last line. How much of the time pauses take, and what the threads do outside of them in each
   phase, is that of one further run: each counts its rounds in an object of its own, whose word is looked up with the phase.
3. How fast objects are copied under `run`, by the control and 0 to 3 helpers, each in a thread of its own, beside one thread that
   loads nothing of the collection set. What is counted are the words by which the tops of regions grow, from the first look behind
   the pause that begins evacuation to the look that finds the last of them; the time is that between these looks. What the pause
   copies itself does not count. A copy that comes too late gives its words back, and does not count either.
4. How often a copy comes too late: of all exchanges of a header, those that are lost, where several threads load the same objects.
   Of threads of the system nobody counts them, so this is by `replay`, with a schedule that draws whose turn it is, and how long
   turns are is given. The threads load the objects in one order, or each in one of its own.

How time goes under `run` is looked up in the words of the heap, as measure_marking.py says. Where that memory cannot be read the
second table has no shares, and there is no third one.
"""
import collections
import json
import os
import random
import struct
import subprocess
import sys
import time

sys.dont_write_bytecode = True
# pylint: disable=wrong-import-position
import measure_marking as marking
from measure_marking import PAUSE_BETWEEN_LOOKS, REGIONS, SHENRUN, SHENSTEPS, WORDS, text_of, written

COMMANDS = 400_000
# How often a short run is timed, and a long one.
LOOKS = 15
ROUNDS = 3
# The first table: words of an object, with how many boxes of boxes there are, and how often the same is loaded again.
SIZES = ((4, 13), (16, 5))
AGAIN = 6
# The second: behind how many commands a cycle is asked for; how many regions are kept in reserve, so that no cycle begins by
# itself, or so that threads wait for room; of how many words a new object is; how many commands a round has, with the root of the
# thread's counter; and how many rounds a thread never makes between two looks.
EVERY = 4096
RESERVES = {"none": 0, "full collections": 50, "evacuation": 32}
NEW_WORDS = 8
ROUND = 16
COUNTER = 10
MOST_ROUNDS = 10_000
# The third: how many boxes of boxes, how often they are evacuated, and how many commands go by meanwhile.
BOXES = 11
EVACUATIONS = 6
BESIDE = 60_000
LEAF_WORDS = 6
# The fourth: the heap, its objects, and the lengths of turns.
RACE_HEAP = (64, 256)
RACE_BOXES = 3
TURNS = (1, 4, 16, 64)
# No load takes more steps on an average.
MOST_STEPS = 40
# How many objects there are below a box of boxes, and how many loads of boxes a walk over them has.
OBJECTS = 256
OTHERS = 17


def stop(why):
    print(f"measure_evacuation.py: {why}", file=sys.stderr)
    sys.exit(2)


Sample = collections.namedtuple("Sample", "at paused phase used made")


class Table(marking.Table):
    """The words of a heap that runs, with what changes in evacuation."""

    def sample(self):
        """The time, whether a pause is wanted or runs, the phase, how many words of the regions are in use, and, outside pauses, the
        numbers in the counters of the threads. None once the program has ended."""
        roots_at = self.grey_at - 27 * self.threads
        held = os.pread(self.memory, 8 * (roots_at + 16 * self.threads), self.start)
        at = time.monotonic()
        if len(held) < 8 * (roots_at + 16 * self.threads):
            return None
        words = struct.unpack(f"<{len(held) // 8}Q", held)
        tops = words[self.phase_at + 6 : self.phase_at + 6 + REGIONS]
        paused, phase = words[0], words[self.phase_at]
        counters = [] if paused else [words[roots_at + 16 * thread + COUNTER] for thread in range(self.threads)]
        made = [self.number(address) for address in counters]
        return Sample(at, paused, phase, sum(tops), made) if paused < 2 and phase < 4 else None

    def number(self, address):
        """The number of the object at this address, or 0 where there is none."""
        if not WORDS <= address < WORDS * (REGIONS + 1) - 3:
            return 0
        return int.from_bytes(os.pread(self.memory, 8, self.start + 8 * (self.heap_at + address - WORDS + 3)), "little")


def sampled(trace, threads, helpers):
    """Runs a trace and looks at its words meanwhile. No samples where that cannot be done."""
    samples, table = [], None
    with open(trace, "rb") as source:
        child = subprocess.Popen((SHENRUN, "run"), stdin=source, stdout=subprocess.DEVNULL)
    try:
        table = Table(child.pid, threads, helpers)
        while child.poll() is None:
            time.sleep(0.005)
            if table.find():
                break
        while table.start and child.poll() is None:
            sample = table.sample()
            if sample is None:
                break
            samples.append(sample)
            time.sleep(PAUSE_BETWEEN_LOOKS)
    except OSError:
        pass
    finally:
        status = child.wait()
        if table and table.memory:
            os.close(table.memory)
    if status != 0:
        stop(f"run ends with {status}")
    return samples


def share_of_pauses(samples):
    """Which part of the time was spent in pauses."""
    paused = sum(then.at - now.at for now, then in zip(samples, samples[1:]) if now.paused)
    return paused / (samples[-1].at - samples[0].at) if len(samples) > 1 else 0


def rates_of(samples):
    """How many rounds of commands a second the threads made in each phase, outside pauses."""
    made, took = collections.Counter(), collections.Counter()
    for now, then in zip(samples, samples[1:]):
        more = [after - before for before, after in zip(now.made, then.made)]
        if not now.paused and not then.paused and now.phase == then.phase and all(0 <= it <= MOST_ROUNDS for it in more):
            made[now.phase] += sum(more)
            took[now.phase] += then.at - now.at
    return {phase: made[phase] / took[phase] for phase in took if made[phase]}


def stretches(samples):
    """The samples in stretches of one state, with the state."""
    found = []
    for sample in samples:
        state = (sample.paused, sample.phase)
        if not found or found[-1][0] != state:
            found.append((state, []))
        found[-1][1].append(sample)
    return found


def pauses_of(samples):
    """How many pauses were seen, and how many of them began evacuation."""
    states = [state for state, _ in stretches(samples)]
    changes = list(zip(states, states[1:]))
    return sum(before[0] < after[0] for before, after in changes), changes.count(((1, 2), (0, 2)))


def evacuations_of(samples):
    """For each evacuation that was seen whole, how many words were copied beside the threads, and in which time."""
    found = stretches(samples)
    for (before, _), (state, beside), (after, waited) in zip(found, found[1:], found[2:]):
        if (before, state, after) == ((1, 2), (0, 2), (1, 2)):
            first = beside[0]
            most = max(sample.used for sample in beside + waited)
            last = next(sample for sample in beside + waited if sample.used == most)
            yield last.used - first.used, last.at - first.at


def seconds(trace, wanted, rounds, *words):
    """The least time of so many runs."""
    times = []
    for _ in range(rounds):
        with open(trace, "rb") as source:
            start = time.monotonic()
            status = subprocess.run((SHENRUN, *words), stdin=source, stdout=subprocess.DEVNULL, check=False).returncode
            times.append(time.monotonic() - start)
        if status != wanted:
            stop(f"{' '.join(words)} ends with {status}, not {wanted}")
    return min(times)


def boxes_at(field):
    """Commands that make a box of 16 boxes, and store it into a field of the hub."""
    lines = ["new 4 16 0", f"set 0 {field} 4"]
    for box in range(16):
        lines += ["new 5 16 0", f"set 4 {box} 5"]
    return lines


def leaves_at(field, words, garbage):
    """Commands that fill these boxes with objects of so many words: behind every second one lies another, which nobody names."""
    lines = [f"get 4 0 {field}"]
    for box in range(16):
        lines.append(f"get 5 4 {box}")
        for leaf in range(16):
            lines += [f"new 6 0 {words - 3}", f"set 5 {leaf} 6"] + [f"new 7 0 {words - 3}"] * (garbage and leaf % 2)
    return lines


def filler(field):
    """Commands that make a list of objects that fill more than a region, below a field of the hub."""
    lines = ["drop 8"]
    for _ in range(WORDS // 35 + 1):
        lines += ["new 7 16 16", "set 7 0 8", "copy 8 7"]
    return lines + [f"set 0 {field} 8"]


def drops():
    return [f"drop {root}" for root in range(1, 16)]


def walk(fields, boxes=range(16), leaves=range(16)):
    """Commands that load all objects below these fields of the hub."""
    lines = []
    for field in fields:
        lines.append(f"get 4 0 {field}")
        for box in boxes:
            lines.append(f"get 5 4 {box}")
            lines += [f"get 6 5 {leaf}" for leaf in leaves]
    return lines


def orchard(words, fields):
    """Commands that build the objects of the first table. Those below these fields lie among garbage, those below field 15 do
    not. Only those below the first and the last of the fields may share a region with others."""
    lines = boxes_at(15) + leaves_at(15, words, False)
    for field in fields:
        lines += boxes_at(field)
    lines += filler(14)
    for field in fields:
        lines += leaves_at(field, words, True)
    return lines + filler(13) + drops()


def load_trace(words, count, before, loads):
    """A trace of one thread that builds these objects, begins evacuation unless it is to do nothing before, and does these loads."""
    lines = orchard(words, range(count)) + ["gc"] * (before is not None)
    items = [f"1={len(lines)}"] + ["2@EC"] * (before is not None)
    lines += (before or []) + loads
    return text_of(1, 0, [lines], items + [f"1={len(lines)}"])


def cost(few, many):
    """The steps and the seconds of a trace more than those of a shorter one."""
    with written(few) as short, written(many) as long:
        steps = marking.steps_of(long.name) - marking.steps_of(short.name)
        return steps, seconds(long.name, 0, LOOKS, "replay") - seconds(short.name, 0, LOOKS, "replay")


def measure_loads():
    print("one get more under replay")
    for words, count in SIZES:
        inner = range(1, count - 1)
        once, dense = walk(inner), walk([15]) * len(inner)
        cases = [
            ("nobody evacuates", None, once, once * (1 + AGAIN)),
            ("outside the set", [], dense, dense * (1 + AGAIN)),
            ("copied before", once, once, once * (1 + AGAIN)),
            ("copied by it", [], walk(inner[:1]), once),
        ]
        print(f"{f'of {words} words':>20}{'loads':>9}{'steps':>9}{'ratio':>8}{'ns':>9}{'ratio':>8}")
        prices = []
        for name, before, few, many in cases:
            spent = cost(load_trace(words, count, before, few), load_trace(words, count, before, many))
            fields = (len(many) - len(few)) // (OBJECTS + OTHERS)
            loads, others = fields * OBJECTS, fields * OTHERS
            # The other loads are of boxes, which lie outside the set; in the first two cases all are alike.
            if len(prices) < 2:
                prices.append([it / (loads + others) for it in spent])
            else:
                prices.append([(it - others * outside) / loads for it, outside in zip(spent, prices[1])])
            (steps, took), calm = prices[-1], prices[0]
            print(f"{name:>20}{loads:>9}{steps:>9.2f}{steps / calm[0]:>8.2f}{1e9 * took:>9.0f}{took / calm[1]:>8.2f}")


def own_objects():
    """Commands with which a thread makes its counter, and its 512 objects, in the boxes of its roots 1 and 2."""
    lines = [f"new {COUNTER} 0 1"]
    for root in (1, 2):
        lines.append(f"new {root} 16 0")
        for box in range(16):
            lines += ["new 3 16 0", f"set {root} {box} 3"]
            for leaf in range(16):
                lines += [f"new 4 1 {NEW_WORDS - 4}", f"set 3 {leaf} 4"]
    return lines


def commands_of(number):
    """The commands of a round: a thread puts a new object into a place, first into each second place and then into each other one,
    and writes the number of the round into its counter. The last command is one that a `gc` may replace."""
    sweep, turn = divmod(number, 256)
    place = 2 * turn + sweep % 2
    root, box, leaf = 1 + place // 256, place // 16 % 16, place % 16
    other = (leaf + 5) % 16
    return [
        f"get 3 {root} {box}",
        f"new 4 1 {NEW_WORDS - 4}",
        f"wr 4 0 {number}",
        f"xchg 5 3 {leaf} 4",
        "rd 5 0",
        f"get 6 3 {other}",
        "rd 6 0",
        f"cas 3 {other} 6 6",
        f"set 3 {other} 6",
        f"get 7 {3 - root} {box}",
        f"get 8 7 {leaf}",
        f"wr {COUNTER} 0 {number}",
        "set 8 0 8",
        "cas 8 0 8 8",
        "xchg 9 8 0 8",
        "same 6 8",
    ]


def churn(commands, is_asking):
    """The commands of a thread that churns, about so many."""
    lines = own_objects()
    for number in range((commands - len(lines)) // ROUND):
        lines += commands_of(number)
        if is_asking and number % (EVERY // ROUND) == 0:
            lines[-1] = "gc"
    return lines


def without_cycles():
    """How many commands a thread can make before half of the regions are in use. At the end of each one there may be words left."""
    words = (REGIONS // 2 - 1) // 2 * (WORDS - 19)
    own = 4 + 2 * 17 * 19 + 512 * NEW_WORDS
    return len(own_objects()) + (words - own) // NEW_WORDS * ROUND


def measure_commands(commands):
    print("two threads that churn under run, a control and a helper: million commands a second, all in all and outside pauses")
    head = f"{'':>18}{'commands':>10}{'all in all':>12}{'ratio':>7}{'in pauses':>11}{'pauses seen':>13}{'evacuations':>13}"
    print(head + f"{'nobody marks':>14}{'marking':>9}{'evacuating':>12}")
    first = None
    for name, reserve in RESERVES.items():
        made = min(commands, without_cycles()) if name == "none" else commands
        script = churn(made, name == "evacuation")
        text = text_of(2, 1, [script, script]).replace(f"heap {REGIONS} {WORDS} 0", f"heap {REGIONS} {WORDS} {reserve}", 1)
        rounds = LOOKS if made < 50_000 else ROUNDS
        with written(text) as trace, written(text + "?\n") as refused:
            took = seconds(trace.name, 0, rounds, "run") - seconds(refused.name, 3, rounds, "run")
            samples = sampled(trace.name, 2, 1)
        pauses, evacuations = pauses_of(samples)
        rate = 2 * len(script) / took / 1e6
        first = first or rate
        row = f"{name:>18}{2 * len(script):>10}{rate:>12.2f}{rate / first:>7.2f}{100 * share_of_pauses(samples):>9.0f} %"
        rates = rates_of(samples)
        beside = [f"{ROUND * rates[phase] / 1e6:.2f}" if phase in rates else "-" for phase in range(3)]
        print(row + f"{pauses:>13}{evacuations:>13}{beside[0]:>14}{beside[1]:>9}{beside[2]:>12}")


def replaced(number):
    """Commands that put new objects into each third place of the third table."""
    lines = []
    for field in range(BOXES):
        lines.append(f"get 4 0 {field}")
        for box in range(16):
            lines.append(f"get 5 4 {box}")
            for leaf in range(number % 3, 16, 3):
                lines += [f"new 6 0 {LEAF_WORDS - 3}", f"set 5 {leaf} 6"]
    return lines


def evacuated_again():
    """The commands of a thread that makes garbage and has it evacuated, again and again."""
    lines = []
    for field in range(BOXES):
        lines += boxes_at(field)
    for field in range(BOXES):
        lines += leaves_at(field, LEAF_WORDS, True)
    for number in range(EVACUATIONS):
        lines += (replaced(number) if number else []) + drops() + ["gc"] + ["same 0 1"] * BESIDE
    return lines


def middle(numbers):
    return sorted(numbers)[len(numbers) // 2]


def measure_copying():
    print(f"copying objects of {LEAF_WORDS} words under run, on {os.cpu_count()} processors, a thread of commands beside it")
    head = f"{'':>12}{'evacuations':>13}{'words of each':>15}{'ms, the middle':>16}"
    print(head + f"{'million words a second':>24}{'copies a second':>17}{'ratio':>7}")
    first = None
    for helpers in range(4):
        with written(text_of(1, helpers, [evacuated_again()])) as trace:
            found = [it for it in evacuations_of(sampled(trace.name, 1, helpers)) if it[0] > WORDS]
        name = f"{helpers} helper{'s' if helpers != 1 else ''}"
        if not found:
            print(f"{name:>12}{0:>13}")
            continue
        words, took = sum(it for it, _ in found) / len(found), middle([it for _, it in found])
        rate = middle([words / took for words, took in found])
        first = first or rate
        row = f"{name:>12}{len(found):>13}{words:>15.0f}{1000 * took:>16.2f}"
        print(row + f"{rate / 1e6:>24.2f}{rate / LEAF_WORDS:>17.0f}{rate / first:>7.2f}")


def race_trace(threads, turn, is_one_order, rand):
    """A trace in which threads load the same objects, in turns of so many steps that are drawn."""
    first = []
    for field in range(RACE_BOXES):
        first += boxes_at(field)
    for field in range(RACE_BOXES):
        first += leaves_at(field, 4, True)
    first += drops() + ["gc"]
    scripts = []
    for _ in range(threads):
        boxes = [(field, box) for field in range(RACE_BOXES) for box in range(16)]
        leaves = list(range(16))
        if not is_one_order:
            rand.shuffle(boxes)
            rand.shuffle(leaves)
        scripts.append([line for field, box in boxes for line in walk([field], [box], leaves)])
    most = MOST_STEPS * len(scripts[0]) // turn
    items = [f"{rand.randint(1, threads)}:{turn}" for _ in range(threads * most)]
    scripts[0] = first + scripts[0]
    ends = [f"{thread}={len(script)}" for thread, script in enumerate(scripts, 1)]
    return text_of(threads, 0, scripts, [f"1={len(first)}", f"{threads + 1}@EC", *items, *ends], RACE_HEAP)


def lost_of(trace):
    """How many exchanges of a header a trace makes, and how many are lost."""
    made, lost = 0, 0
    with open(trace, "rb") as source, subprocess.Popen((SHENSTEPS, "--json", "--place", "HX"), stdin=source, stdout=subprocess.PIPE) as child:
        for line in child.stdout:
            event = json.loads(line)
            if event["kind"] == "event":
                made += 1
                lost += not event["won"]
    if child.returncode:
        stop(f"shensteps ends with {child.returncode}")
    return made, lost


def measure_races():
    objects = RACE_BOXES * OBJECTS
    print(f"copies that come too late, of all that are made, where threads load the same {objects} objects; by replay")
    rand = random.Random(1)
    for is_one_order in (True, False):
        name = "in one order" if is_one_order else "in orders drawn"
        print(f"{name:>16}" + "".join(f"{f'turns of {turn}':>20}" for turn in TURNS))
        for threads in (2, 4, 8):
            row = []
            for turn in TURNS:
                made, lost = 0, 0
                for _ in range(2):
                    with written(race_trace(threads, turn, is_one_order, rand)) as trace:
                        made, lost = (sum(it) for it in zip((made, lost), lost_of(trace.name)))
                row.append(f"{lost} of {made}, {100 * lost / max(made, 1):.1f} %")
            print(f"{f'{threads} threads':>16}" + "".join(f"{it:>20}" for it in row))


def main():
    if len(sys.argv) > 2 or not all(word.isdecimal() for word in sys.argv[1:]):
        stop("it wants no word, or a number of commands")
    if not SHENRUN or not SHENSTEPS:
        stop("there is no proved program yet: rt ci makes it")
    commands = int(sys.argv[1]) if len(sys.argv) == 2 else COMMANDS
    print(f"load before: {os.getloadavg()[0]:.1f} on {os.cpu_count()} processors")
    measure_loads()
    measure_commands(commands)
    measure_copying()
    measure_races()


if __name__ == "__main__":
    main()
