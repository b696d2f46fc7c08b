#!/usr/bin/env python3
"""Runs users of the managed queue by schedules on the proved program, beside objects that never move.

usage: test_queue.py

The commands of each operation are those of the table of docs/QUEUE.md, by the replies to those before. A schedule says whose command takes
effect next; `replay` makes the same turns on the heap and has to reply the same, and the operations, in the order in which they take
effect, have to be a queue's. Tried are: all schedules of two operations with at most three switches, on a queue that is empty, has one
number, or has a tail that lags; random users while the heap is marked, evacuated and updated all the time; a put that is stopped between
its two exchanges, and a thread that holds a node, while others put and take ten thousand times; a take that holds the node that it found
at the head, which is taken, moved and its words given to a node that then comes to the head; a node that is held, let go and its words used
again; and `queue COUNT` many times.
"""
import itertools
import os
import random
import re
import subprocess
import sys
from collections import deque

sys.dont_write_bytecode = True
from cases import TOP, program  # pylint: disable=wrong-import-position
from settling import Graph  # pylint: disable=wrong-import-position

SETS_UP = ["new 1 2 0", "new 2 1 1", "set 1 0 2", "set 1 1 2", "set 0 0 1"]


def set_up():
    for command in SETS_UP:
        yield command


def commands(*those):
    """These commands, whatever the replies are."""
    for it in those:
        yield it


def join():
    while (yield "get 1 0 0") == "-":
        pass


def put(value, run):
    """The commands of a put, each by the reply to the one before. What takes effect is noted."""
    yield "new 3 1 1"
    yield f"wr 3 0 {value}"
    while True:
        yield "get 4 1 1"
        if (yield "get 5 4 0") != "-":
            yield "cas 1 1 4 5"
        elif (yield "cas 4 0 7 3") == "yes":
            run.append(("put", value))
            yield "cas 1 1 4 3"
            return


def take(run):
    """The commands of a take."""
    while True:
        yield "get 4 1 0"
        yield "get 5 1 1"
        behind = yield "get 6 4 0"
        if behind == "-":
            run.append(("empty", None))
        if (yield "same 4 5") == "yes":
            if behind == "-":
                return
            yield "cas 1 1 5 6"
        else:
            value = yield "rd 6 0"
            if (yield "cas 1 0 4 6") == "yes":
                run.append(("got", int(value)))
                return


class World:
    """Threads that each have commands to come, on objects that never move. It notes who gave which, and the replies."""

    def __init__(self, threads):
        self.graph, self.run = Graph(), []
        self.users = {thread: [] for thread in range(1, threads + 1)}
        self.waiting = {}
        self.turns, self.told = [], []

    def give(self, thread, operation):
        """The thread has this operation to do behind those that it has."""
        self.users[thread].append(operation)

    def next_command(self, thread):
        """The command that the thread has next, or None."""
        while self.users[thread] and thread not in self.waiting:
            self.go_on(thread, None)
        return self.waiting.get(thread)

    def go_on(self, thread, reply):
        """The thread's operation takes a reply, and gives its next command, or is done."""
        self.waiting.pop(thread, None)
        try:
            self.waiting[thread] = self.users[thread][0].send(reply)
        except StopIteration:
            self.users[thread].pop(0)

    def turn(self, thread):
        """The thread's next command takes effect; whether it had one."""
        command = self.next_command(thread)
        if not command:
            return False
        reply = self.graph.answer(thread, command)
        self.turns.append(thread)
        self.told.append((thread, command, reply))
        self.go_on(thread, reply)
        return True

    def finish(self, thread, most=10**9):
        """At most so many of the thread's commands take effect, and how many did."""
        return sum(1 for _ in itertools.takewhile(lambda _: self.turn(thread), range(most)))

    def is_queue(self):
        """Whether what took effect is a run of a queue from the empty one."""
        queue = deque()
        for what, value in self.run:
            if what == "put":
                queue.append(value)
            elif what == "empty":
                if queue:
                    return False
            elif not queue or queue.popleft() != value:
                return False
        return True

    def trace(self, heap, helpers, between=lambda: ""):
        """The trace whose schedule makes these turns. `between` gives items that come between two of them."""
        threads = len(self.users)
        lines = ["shen 1", heap, f"threads {threads} {helpers}"]
        lines += [f"{thread} {command}" for thread, command, _ in self.told]
        done, items, more = dict.fromkeys(self.users, 0), [], ""
        for thread, turns in itertools.groupby(self.turns):
            for _ in turns:
                done[thread] += 1
                more = between()
                if more:
                    items += [f"{thread}={done[thread]}", more]
            if not more:
                items.append(f"{thread}={done[thread]}")
        lines += ["! " + " ".join(items[k:k + 50]) for k in range(0, len(items), 50)]
        return "\n".join([*lines, ""])

    def fails(self, heap="heap 16 256 2", helpers=1, between=lambda: ""):
        """What is wrong, if anything is."""
        return self.fails_by(self.trace(heap, helpers, between))

    def fails_by(self, trace):
        """What is wrong where these turns are made by this trace."""
        if not self.is_queue():
            return f"no run of a queue: {self.run}"
        ran = subprocess.run([program("shenrun"), "replay"], input=trace, capture_output=True, text=True, check=False)
        wanted = [f"{thread} {reply}" for thread in self.users for it, _, reply in self.told if it == thread]
        if ran.returncode or ran.stdout.split("\n")[:len(wanted)] != wanted:
            return f"other replies, with status {ran.returncode}: {ran.stdout[:200]}"
        return None


def opened(threads, state):
    """A queue that all threads have joined: empty, with the number 9, or with it and a tail that lags behind its node."""
    world = World(threads)
    world.give(1, set_up())
    world.finish(1)
    for thread in range(2, threads + 1):
        world.give(thread, join())
        world.finish(thread, 1)
    if state:
        world.give(threads, put(9, world.run))
        world.finish(threads, {"one": 10, "lags": 5}[state])
    return world


def operations(world):
    return [lambda: put(5, world.run), lambda: put(6, world.run), lambda: take(world.run)]


def two_at_once():
    """All schedules of two operations with at most three switches: the failures, one by one."""
    seen = set()
    for state, first, second, begins in itertools.product([None, "one", "lags"], range(3), range(3), [1, 2]):
        for legs in itertools.product(range(0, 14), repeat=3):
            world = opened(3, state)
            world.give(1, operations(world)[first]())
            world.give(2, operations(world)[second]())
            thread = begins
            if any(world.finish(it, most) < most for it, most in zip([thread, 3 - thread, thread], legs)):
                continue
            for it in [3 - thread, thread, 3]:
                world.finish(it)
            whole = (state, first, second, *world.turns)
            if whole not in seen:
                seen.add(whole)
                yield world.fails(helpers=0)


def random_users(seed):
    """Five threads use the queue, and a sixth asks for cycles, while the control makes steps between all commands."""
    rand = random.Random(seed)
    world = opened(5, None)
    world.users[6] = []
    for _ in range(60):
        thread = rand.randint(1, 5)
        world.give(thread, put(rand.randint(1, 10**6), world.run) if rand.random() < 0.55 else take(world.run))
    world.give(6, commands(*["gc"] * 40))
    while any(world.users.values()):
        world.finish(rand.randint(1, 6), rand.randint(1, 4))
    return world.fails("heap 8 64 2", 0, lambda: f"7:{rand.randint(1, 400)}")


def while_others_go_on():
    """Thread 1 has linked its node and not moved the tail, and thread 2 holds the first node of all, while 3 and 4 put and take. Both keep
    all nodes alive that are linked behind theirs, so the heap is a large one."""
    world = opened(4, None)
    world.give(1, put(1, world.run))
    world.finish(1, 5)
    world.give(2, commands("get 8 1 0", "get 9 8 0", "rd 9 0"))
    world.finish(2)
    for value in range(2, 5002):
        world.give(3, put(value, world.run))
        world.finish(3)
        world.give(4, take(world.run))
        world.finish(4)
    world.finish(1)
    world.give(2, commands("rd 9 0", "cas 1 0 8 9", "get 10 9 0", "rd 10 0"))
    world.finish(2)
    if [reply for thread, _, reply in world.told if thread == 2][-4:] != ["1", "no", "3.1", "2"]:
        return f"thread 2 has {world.told[-4:]}"
    return world.fails("heap 32 1024 2")


def words_given_on():
    """Thread 3 has made all of a take but its exchange. The node that it found at the head is taken, a cycle moves it out of its region,
    and the next node of thread 2 gets the words where it lay, is put, and is at the head when thread 3 goes on. Its trace is an example."""
    world = opened(3, None)

    def does(thread, *operations):
        for it in operations:
            world.give(thread, it)
        world.finish(thread)

    does(1, commands("drop 2"))
    does(2, put(9, world.run))
    does(1, take(world.run), put(10, world.run))
    # Objects that nobody keeps fill the region of 2.1, and the one that thread 2 allocates from.
    does(2, commands("drop 3", "drop 4", "new 10 16 16", "new 10 8 8", "new 10 16 16", "new 10 13 13", "drop 10"))
    world.give(3, take(world.run))
    world.finish(3, 5)
    does(1, take(world.run), commands("drop 3", "drop 4", "drop 5", "drop 6", "gc"))
    asked, turns = len(world.told), itertools.count(1)
    does(2, put(11, world.run))
    does(1, take(world.run))
    world.finish(3)
    trace = world.trace("heap 8 64 2", 0, lambda: "4:8000" if next(turns) == asked else "")
    if [reply for thread, _, reply in world.told if thread == 3] != ["1.1", "2.1", "1.3", "1.3", "no", "10", "no", "2.6", "2.6", "-", "yes"]:
        return f"thread 3 has {[it for it in world.told if it[0] == 3]}"
    with open(os.path.join(TOP, "examples", "queue_again.trace"), encoding="utf-8") as example:
        if example.read() != trace:
            return f"examples/queue_again.trace is another one than\n{trace}"
    listed = subprocess.run([program("shensteps"), "--place", "IW"], input=trace, capture_output=True, text=True, check=False)
    if not re.search(r" store name of the new object: 2\.6 +2\.1\n", listed.stdout):
        return f"2.6 has not the words of 2.1: {listed.stdout}{listed.stderr}"
    return world.fails_by(trace)


def used_again(seed):
    """Thread 3 holds a node that was taken, and then lets it go, while 1 and 2 put and take until each word was used many times."""
    rand = random.Random(seed)
    world = opened(3, "one")
    world.give(1, commands("drop 2"))
    world.give(3, commands("get 8 1 0", "get 9 8 0", "drop 8"))
    world.finish(1)
    world.finish(3)
    for value in range(2000):
        world.give(1, put(value, world.run))
        world.give(2, take(world.run))
        while world.users[1] or world.users[2]:
            world.finish(rand.randint(1, 2), rand.randint(1, 4))
        if value == 200:
            world.give(3, commands("rd 9 0", "drop 9", "drop 3", "drop 4"))
            world.finish(3)
    return world.fails("heap 8 256 2", 0, lambda: f"4:{rand.randint(1, 40)}" if rand.random() < 0.1 else "")


def many_runs():
    """`queue COUNT`, many times."""
    for count in [1, 2, 5, 50, 390] * 4:
        ran = subprocess.run([program("shenrun"), "queue", str(count)], stdin=subprocess.DEVNULL, capture_output=True, text=True, check=False)
        wanted = f"queue {count}\nitems {2 * count}\nsum {3000000 * count + count * (count + 1)}\n"
        yield None if (ran.returncode, ran.stdout) == (0, wanted) else f"queue {count}: {ran.returncode} {ran.stdout}"


def main():
    if not program("shenrun") or not program("shensteps"):
        sys.exit("test_queue.py: there is no proved program")
    failed = 0
    for name, those in [
        ("schedules of two operations", two_at_once()),
        ("random users of a heap that is collected all the time", (random_users(seed) for seed in range(30))),
        ("ten thousand operations beside one that is stopped", iter([while_others_go_on()])),
        ("take of a node that is taken, moved and its words given to the next", iter([words_given_on()])),
        ("times a node held, let go and its words used again", (used_again(seed) for seed in range(5))),
        ("runs on threads", many_runs()),
    ]:
        fails = list(those)
        failed += sum(1 for it in fails if it)
        print(f"{len(fails)} {name}, of which {sum(1 for it in fails if it)} fail")
        for it in [it for it in fails if it][:3]:
            print(f"  {it}")
    sys.exit(failed > 0)


if __name__ == "__main__":
    main()
