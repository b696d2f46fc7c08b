"""Random traces, and what a listing of one must say of where their calls are settled."""
import random

from listed import machine


def command(rand, shapes):
    """A command as a trace spells it: on few roots, fields and numbers, so that threads meet."""
    dst = rand.randint(1, 3)
    obj, val, expect = (rand.choice([0, 0, 1, 2, 3]) for _ in range(3))
    index = rand.choice([0, 0, 0, 1, 16])
    refs, nums = rand.choice(shapes)
    return rand.choice([
        *[f"new {dst} {refs} {nums}"] * 4,
        *[f"get {dst} {obj} {index}"] * 2,
        *[f"set {obj} {index} {val}"] * 2,
        *[f"cas {obj} {index} {expect} {val}"] * 2,
        *[f"xchg {dst} {obj} {index} {val}"] * 2,
        *[f"rd {dst} {index}"] * 2,
        *[f"wr {dst} {index} {rand.randint(0, 9)}"] * 2,
        f"copy {dst} {obj}",
        f"drop {dst}",
        f"same {obj} {val}",
        rand.choice(["gc", "gc", f"copy {dst} {obj}"]),
    ])


def race(rand):
    """A command on the first field of the hub."""
    dst, val = rand.randint(1, 3), rand.randint(1, 3)
    return rand.choice([
        f"new {dst} 0 0",
        f"set 0 0 {val}",
        f"xchg {dst} 0 0 {val}",
        f"get {dst} 0 0",
        *[f"cas 0 0 {dst} {val}"] * 4,
    ])


def pinning(rand):
    """A command on one of two pin slots."""
    return rand.choice([*[f"pin {rand.randint(0, 1)} {rand.choice([0, 1, 1, 2, 3])}"] * 2, f"unpin {rand.randint(0, 1)}"])


def trace(seed):
    """A trace of two or three threads and up to two helpers on a small heap, with a schedule whose items all end: every third with
    large objects, for which there is not always room, and every third with exchanges that meet. Every second one is of version 2, and
    pins objects."""
    rand = random.Random(seed)
    threads, helpers, commands = rand.randint(2, 3), rand.randint(0, 2), rand.randint(3, 16)
    shapes = [(16, 16)] if seed % 3 == 0 else [(0, 1), (1, 0), (2, 2), (16, 16)]
    version = 1 + seed % 2
    lines = [f"shen {version}", f"heap {rand.randint(4, 5)} 64 {rand.randint(0, 3)}", f"threads {threads} {helpers}"]
    for _ in range(commands):
        for thread in range(1, threads + 1):
            pins = version == 2 and rand.random() < 0.25
            lines.append(f"{thread} {pinning(rand) if pins else race(rand) if seed % 3 == 1 else command(rand, shapes)}")
    most = rand.choice([2, 12, 30])
    items = [f"{rand.randint(1, threads + helpers)}:{rand.randint(1, most)}" for _ in range(rand.randint(1, 200))]
    items += [f"{threads + helpers + 1}:{rand.choice([1, 2, 3, 30, 300])}" for _ in range(rand.randint(1, 40))]
    rand.shuffle(items)
    return "\n".join([*lines, "! " + " ".join(items)]) + "\n"


class Graph:
    """Objects with references and numbers, and the roots and pin slots of each thread: what each command is answered, one after the other.
    At which place an object is pinned it is told: each that is of the heap is right, where the slots that hold the object have it, and no
    slot has another object there."""

    def __init__(self):
        self.objects = {"0.1": ([None] * 16, [])}
        self.roots, self.made, self.pins = {}, {}, {}

    def answer(self, thread, words, told="", places=None):
        """What the command is answered, and the reply as a listing spells it. `told` is the reply that it has been given, and `places` the
        range of the heap's addresses, if that is to be looked at."""
        verb, *numbers = words.split()
        roots = self.roots.setdefault(thread, ["0.1"] + [None] * 15)
        if verb == "pin":
            return self.pin(thread, roots, *map(int, numbers), told, places)
        return getattr(self, "do_" + verb)(thread, roots, *map(int, numbers))

    def pin(self, thread, roots, slot, obj, told, places):
        """The same of a command that pins an object."""
        name = roots[obj]
        if not name or (thread, slot) in self.pins:
            return "bad"
        place = int(told[1:]) if told[:1] == "@" and told[1:].isdigit() else -1
        if place < 0 or (places and place not in places) or any((name == held) != (place == at) for held, at in self.pins.values()):
            return "another place"
        self.pins[thread, slot] = name, place
        return told

    def part(self, roots, obj, kind, index):
        """The references or the numbers of a root's object, or None where they have no such index."""
        parts = self.objects[roots[obj]][kind] if roots[obj] else []
        return parts if index < len(parts) else None

    def do_new(self, thread, roots, dst, refs, nums):
        self.made[thread] = self.made.get(thread, 0) + 1
        roots[dst] = f"{thread}.{self.made[thread]}"
        self.objects[roots[dst]] = ([None] * refs, [0] * nums)
        return roots[dst]

    def do_get(self, _, roots, dst, src, field):
        fields = self.part(roots, src, 0, field)
        if fields is None:
            return "bad"
        roots[dst] = fields[field]
        return roots[dst] or "-"

    def do_set(self, _, roots, obj, field, val):
        fields = self.part(roots, obj, 0, field)
        if fields is None:
            return "bad"
        fields[field] = roots[val]
        return "ok"

    def do_cas(self, _, roots, obj, field, expect, val):
        fields = self.part(roots, obj, 0, field)
        if fields is None:
            return "bad"
        if fields[field] != roots[expect]:
            return "no"
        fields[field] = roots[val]
        return "yes"

    def do_xchg(self, _, roots, dst, obj, field, val):
        fields = self.part(roots, obj, 0, field)
        if fields is None:
            return "bad"
        fields[field], roots[dst] = roots[val], fields[field]
        return roots[dst] or "-"

    def do_rd(self, _, roots, obj, index):
        numbers = self.part(roots, obj, 1, index)
        return "bad" if numbers is None else str(numbers[index])

    def do_wr(self, _, roots, obj, index, value):
        numbers = self.part(roots, obj, 1, index)
        if numbers is None:
            return "bad"
        numbers[index] = value
        return "ok"

    def do_copy(self, _, roots, dst, src):
        roots[dst] = roots[src]
        return "ok"

    def do_drop(self, _, roots, dst):
        roots[dst] = None
        return "ok"

    def do_same(self, _, roots, a, b):
        return "yes" if roots[a] == roots[b] else "no"

    def do_gc(self, *_):
        return "ok"

    def do_unpin(self, thread, _, slot):
        return "ok" if self.pins.pop((thread, slot), None) else "bad"


def kind(command, reply):
    """A command and a reply without their numbers."""
    return command.split()[0], reply if reply.isalpha() or reply == "-" else "a value"


def said(event):
    """What an event says of calls: whose call it is, whether it begins, settles or replies, and the command or the reply. That the
    heap is full is said by the control, where a pause stores it."""
    if event["kind"] != "event":
        return None
    if "settles_full_of" in event:
        whose = f"thread {event['settles_full_of']}"
        return (whose, "settles", "full") if (machine(event), event["at"]) == ("control", "PS") else (whose, "settles", "badly")
    return next(((machine(event), it, event[it]) for it in ("begins", "settles", "replies") if it in event), None)


def takes_event(graph, calls, said_of):
    """Whether an event may begin a call, settle it or reply as it says. `calls` has the command of each call that is not settled,
    and else a pair of it and the reply."""
    who, what, text = said_of
    if what == "begins":
        is_first = who not in calls
        calls[who] = text
        return is_first
    if what == "replies":
        call = calls.pop(who, None)
        return isinstance(call, tuple) and call[1] == text
    call = calls.get(who)
    if not isinstance(call, str):
        return False
    calls[who] = (call, text)
    if text == "full":
        return call.startswith("new")
    return graph.answer(who[-1], call, text) == text


def wrong(events, kinds):
    """The first event of a listing that is wrong, or None; the kinds of calls that have ended are counted. Each call is settled at
    one event between those at which it begins and replies, with this reply, `full` by the control in a pause and all else by its
    own thread; and a graph answers so on which each command is done where it is settled."""
    graph, calls = Graph(), {}
    for event in events:
        told = said(event)
        if not told:
            continue
        call = calls.get(told[0])
        if told[1] == "replies" and isinstance(call, tuple):
            kinds[kind(*call)] += 1
        if not takes_event(graph, calls, told):
            return event
    return f"a call never ends: {calls}" if calls else None
