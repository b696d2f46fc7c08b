"""The words of a heap and the places of its machines, followed through the events that `shensteps` lists."""
import re

from listed import objects

ASK = "asked for"
ASKED = ["nothing", "a cycle", "room", "a cycle, room"]
# The bit of the word of the copiers that says that a copier found no room.
OUT_OF_ROOM = 1 << 63
OF_REGIONS = ("top", "mark start", "limit")
KINDS = ("phase", "collection set", "copiers", "claimed work", ASK, "free regions", "grey", "black", "buffer count", "buffer entry", "buffer",
         "shared region", "header", *OF_REGIONS)


def value(told):
    """A value of the listing: a set of regions or names, the name of an object, or a number."""
    if "regions" in told:
        return set(map(str, told["regions"]))
    if "objects" in told:
        return {it["object"] for it in told["objects"]}
    return told.get("object", told["word"])


def name_of(of):
    """The name of a word, if it is one of those that are followed."""
    kind = of.get("kind")
    if kind not in KINDS or (kind == "header" and "object" not in of):
        return None
    if kind in OF_REGIONS:
        return f"{kind} of region {of['region']}"
    if kind == "header":
        return f"header of {of['object']}"
    if kind == "buffer":
        return f"buffer of {of['machine']}"
    return " ".join([kind, *(str(of[it]) for it in ("thread", "index") if it in of)])


def regions(them):
    """A set of regions, as a table writes it."""
    return "{" + " ".join(sorted(them, key=int)) + "}"


class Heap:
    """What the listed events have made of the words."""

    def __init__(self, case):
        self.regions, self.region_words = map(int, case.heap.split()[1:3])
        self.mark_words = (self.regions * self.region_words + 63) // 64
        self.words = {"free regions": {str(it) for it in range(1, self.regions)}, "top of region 0": 19}

    def word(self, name):
        """What stands in a word, by its name in the listing; at first that is 0, and 1 in the header of an object."""
        nothing = {"grey": set(), "black": set(), "collection": set(), "header": 1}
        return self.words.get(name, nothing.get(name.split()[0], 0))

    def take(self, event):
        """Takes an event; whether it has found what stood there. A pause also finds marks of objects that are gone."""
        place, verb, name = event["at"], event["operation"], name_of(event["of"])
        if place == "P3":
            self.words = {name: word for name, word in self.words.items() if not name.startswith("header")}
        # A header that is stored is that of a new object, or of a copy that nobody has seen yet; a pause, and who updates, loads those of
        # current copies.
        if not name or (name.startswith("header") and (verb == "store" or place in ("PL", "UG"))):
            return True
        found = value(event["found"])
        # A pause stores headers by their addresses, so they are not known behind it.
        before = self.words.setdefault(name, found) if name.startswith("header") else self.word(name)
        if verb == "store":
            self.words[name] = value(event["value"])
        elif verb == "set":
            self.words[name] = before | value(event["value"])
        elif verb in ("clear", "subtract"):
            self.words[name] = before - value(event["value"])
        elif event.get("won"):
            self.words[name] = value(event["value"])
        return found == before or (place in ("PL", "PS") and isinstance(found, set))

    def marked(self, colour):
        """The objects whose bits are set in the words of a colour, in the order of their names."""
        found = set().union(*(self.word(f"{colour} {it}") for it in range(self.mark_words)))
        return " ".join(sorted(found, key=lambda it: list(map(int, it.split("."))))) or "none"

    def buffered(self, thread):
        """The entries of a thread's buffer."""
        count = self.word(f"buffer count {thread}")
        return " ".join(self.word(f"buffer entry {thread} {it}") for it in range(count)) or "none"

    def room(self, machine):
        """The free words of a machine's buffer: region, the words before them, and the words before their end."""
        word = self.word(f"buffer of {machine}")
        if not word:
            return "none"
        next_, end = word % 2**32, word >> 32
        region = (end - 1) // self.region_words - 1
        base = self.region_words * (region + 1)
        return f"{region}+{next_ - base} to {end - base}"

    def copiers(self):
        """How many copiers are counted, and whether one has found no room."""
        word = self.word("copiers")
        return f"{word % OUT_OF_ROOM}{' out of room' if word >= OUT_OF_ROOM else ''}"

    def told(self, what):
        """What a table is to say in place of a piece that begins so."""
        kind, number = what.split()[0], what.split()[1].strip(":")
        if kind in ("grey", "black"):
            return f"{kind} {self.marked(kind)}"
        if kind == "buffer":
            return f"buffer {number}: {self.buffered(number)}"
        if kind in ("start", "top", "limit"):
            return f"{kind} {number}: {self.word(('mark start' if kind == 'start' else kind) + f' of region {number}')}"
        if kind == "header":
            return f"header {number}: {self.word(f'header of {number}')}"
        if kind == "asked":
            return f"asked {ASKED[self.word(ASK)]}"
        if kind == "room":
            return f"room {number}: {self.room(number)}"
        if kind == "shared":
            return f"shared {self.word('shared region') - 1 if self.word('shared region') else 'none'}"
        if kind == "free":
            return f"free {regions(self.word('free regions'))}"
        if kind == "set":
            return f"set {regions(self.word('collection set'))}"
        if kind == "copiers":
            return f"copiers {self.copiers()}"
        return f"{kind} {self.word('claimed work' if kind == 'claim' else kind)}"


def listed(case):
    """The listed events of a trace, and how many there were after each item."""
    events, ends = [], {}
    for it in objects(case.trace, "--pauses", "full")[1]:
        if it["kind"] == "item":
            ends[it["item"] - 1] = len(events)
        elif it["kind"] == "rounds":
            ends[len(case.items)] = len(events)
        elif it["kind"] == "event":
            events.append(it)
    ends.setdefault(len(case.items), len(events))
    return events, {**ends, None: len(events)}


def standing(events, machine):
    """Where a machine stands that has these events to come."""
    place = next((it["at"] for it in events if it["machine"] == machine), None)
    return f"at {place}" if place else "has ended"


def fails(case):
    """What is wrong with the programs' answers to a trace, and with what is told of it."""
    yield from case.fails()
    events, ends = listed(case)
    if len(events) != case.steps or sum(it["at"] == "P3" for it in events) != case.pauses:
        yield "another number of events, or of pauses, is listed"
        return
    heap, made = Heap(case), 0
    for items, text in case.told:
        for event in events[made : ends[items]]:
            made += 1
            if not heap.take(event):
                yield f"event {made} finds another word than was left there: {event}"
        for what in text.split("; "):
            machine = re.match(r"(\d+) (?:at|has)", what)
            told = f"{machine[1]} {standing(events[made:], int(machine[1]))}" if machine else heap.told(what)
            if told != what:
                yield f"after {f'item {items}' if items else 'all events'} not {what}, but {told}"
