"""Takings of room, walks and pauses of a heap, held to their rules through the events that `shensteps` lists.

A heap is followed by its words alone, through each step of a pause or through the words that it has changed. Each machine that takes room has to make the accesses of the step table, by the words that it
has found; a unit has to step over words that only fill; the pieces of each region fill it from its base to its top; and a pause has to
settle buffers or to let them go, and to leave the graph as it was.
"""

BUFFER = 64
HUB_WORDS = 19
FORWARDED, FILLS = 3, 2
# The places of a taking, and those of a copier that come before and behind it.
TAKING = ("TC", "TR", "TT", "TX", "TF", "TG", "TV", "TQ", "TZ", "TS")


def next_of(word):
    """Where the free words of a buffer begin."""
    return word % 2**32


def end_of(word):
    """Where they end."""
    return word >> 32


def words_of(shape):
    """The words of an object with this shape word."""
    return 3 + shape // 256 % 256 + shape % 256


class Broken(Exception):
    """A rule that an event does not keep."""


class Taking:
    """A taking on its way: what it wants, what it has found, and the place and the access that are due."""

    def __init__(self, wanted, kept):
        self.wanted, self.kept = wanted, kept
        self.buffer = self.share = self.region = self.at = self.size = None
        self.due = ("TC", "load", "cur")

    def shared(self, share):
        """Behind the load of the shared region, or the exchange that has made it."""
        self.share, self.region = share, share - 1
        self.due = ("TT", "load", self.region) if share else ("TF", "load", "free")

    def take(self, heap, place, verb, word, event):
        """Takes an event of its machine. `found` is the word that it has found."""
        found, value, expect = event["found"]["word"], raw(event, "value"), raw(event, "expect")
        if self.due[:2] != (place, verb):
            raise Broken(f"a taking is at {place} and {verb}s, and not {self.due}")
        getattr(self, "at_" + place.lower())(heap, word, found, value, expect)

    def holds(self, is_so, what):
        if not is_so:
            raise Broken(f"a taking: {what}")

    def at_tc(self, heap, word, found, *_):
        self.holds(word[0] == "cur", "TC loads no buffer")
        self.buffer = found
        if found and next_of(found) + self.wanted <= end_of(found):
            self.at, self.size = next_of(found), end_of(found) - next_of(found)
            self.due = ("TS", "store", "cur")
        else:
            self.due = ("TR", "load", "share")

    def at_tr(self, heap, word, found, *_):
        self.holds(word == ("share",), "TR loads another word")
        self.shared(found)

    def at_tt(self, heap, word, found, *_):
        self.holds(word == ("top", self.region), "TT loads another top")
        left = heap.region_words - found
        if left >= self.wanted:
            self.at, self.size = found, min(BUFFER, left)
            self.due = ("TX", "exchange", self.region)
        else:
            self.share = self.region + 1
            self.due = ("TF", "load", "free")

    def at_tx(self, heap, word, found, value, expect):
        self.holds(word == ("top", self.region) and (expect, value) == (self.at, self.at + self.size), "TX carves other words")
        if found != expect:
            self.due = ("TR", "load", "share")
            return
        self.at += heap.base(self.region)
        spare = self.buffer and next_of(self.buffer) < end_of(self.buffer)
        self.due = ("TZ", "store", "heap") if spare else ("TS", "store", "cur")

    def at_tf(self, heap, word, found, *_):
        self.holds(word == ("free",), "TF loads another word")
        if found.bit_count() <= self.kept:
            self.due = None
        else:
            self.region = (found & -found).bit_length() - 1
            self.due = ("TG", "clear", "free")

    def at_tg(self, heap, word, found, value, expect):
        self.holds(word == ("free",) and value == 1 << self.region, "TG clears another bit")
        self.due = ("TV", "exchange", "share") if found & value else ("TF", "load", "free")

    def at_tv(self, heap, word, found, value, expect):
        self.holds(word == ("share",) and (expect, value) == (self.share, self.region + 1), "TV exchanges other words")
        if found == expect:
            self.due = ("TT", "load", self.region)
        else:
            self.due = ("TQ", "set", "free")

    def at_tq(self, heap, word, found, value, expect):
        self.holds(word == ("free",) and value == 1 << self.region, "TQ sets another bit")
        self.due = ("TR", "load", "share")

    def at_tz(self, heap, word, found, value, expect):
        free = end_of(self.buffer) - next_of(self.buffer)
        self.holds(word == ("heap", next_of(self.buffer)) and value == 4 * free + FILLS, "TZ stores another filler")
        self.due = ("TS", "store", "cur")

    def at_ts(self, heap, word, found, value, expect):
        wanted = ((self.at + self.size) << 32) + self.at + self.wanted
        self.holds(word[0] == "cur" and (found, value) == (self.buffer, wanted), "TS stores another buffer")
        self.due = "taken"


def raw(event, key):
    """The word of a value, if the event has it. The listing has the bits that an `and` clears."""
    return event[key]["word"] if key in event else None


class Heap:
    """The words of a heap, and what its machines have taken."""

    def __init__(self, head, is_whole):
        # Where pauses are not listed step by step, others load these words before the listing says what they find.
        self.is_whole, self.unlisted = is_whole, () if is_whole else ("pause", "answer")
        self.regions, self.region_words = head["regions"], head["region_words"]
        self.threads, self.reserve = head["threads"], head["reserve"]
        self.machines = head["threads"] + head["helpers"] + 1
        self.words = {("free",): 2**self.regions - 2, ("top", 0): HUB_WORDS, ("left",): self.threads}
        hub = self.base(0)
        self.words |= {("heap", hub): 1, ("heap", hub + 1): 65536 + 256 * 16, ("heap", hub + 2): 1}
        for thread in range(self.threads):
            self.words["root", thread, 0] = hub
        self.takings, self.wants, self.rooms, self.calls, self.units = {}, {}, {}, {}, {}
        self.before, self.is_folded = None, False
        self.seen = {}

    def base(self, region):
        """The first address of a region."""
        return self.region_words * (region + 1)

    def word(self, *name):
        """A word, 0 at first."""
        return self.words.get(name, 0)

    def buffers(self):
        """The machines that have a buffer, with its word."""
        return [(it, self.word("cur", it)) for it in range(1, self.machines + 1) if self.word("cur", it)]

    def is_last(self, word, words=None):
        """Whether a buffer ends at the top of its region."""
        region = self.region_of(end_of(word) - 1)
        return end_of(word) - self.base(region) == (words or self.words).get(("top", region), 0)

    def region_of(self, address):
        """The region of an address."""
        return address // self.region_words - 1

    def name(self, event):
        """The word of an event."""
        of = event["of"]
        kind = of["kind"]
        plain = {"phase": "phase", "collection set": "cset", "free regions": "free", "shared region": "share", "copiers": "evac",
                 "claimed work": "claim", "asked for": "ask", "pause": "pause", "end": "end", "threads left": "left"}
        if kind in plain:
            return (plain[kind],)
        if kind in ("top", "mark start", "limit"):
            return (kind, of["region"])
        if kind in ("buffer", "state"):
            return ("cur" if kind == "buffer" else "state", of["machine"])
        if kind in ("root", "buffer entry", "pin slot"):
            return (kind, of["thread"] - 1, of["index"])
        if kind in ("request", "answer", "buffer count"):
            return (kind, of["thread"] - 1)
        if kind in ("grey", "black"):
            return (kind, of["index"])
        at = self.base(of["region"]) + of["offset"]
        if kind in ("field", "number"):
            refs = self.word("heap", at + 1) // 256 % 256
            at += 3 + of["index"] + (refs if kind == "number" else 0)
        return ("heap", at + {"shape": 1, "name": 2}.get(kind, 0))

    def room_at(self):
        """The room of machines by where it begins, as (kind, end, machine)."""
        rooms = {it[0]: (kind, it[1], machine) for machine, (kind, *it) in self.rooms.items()}
        for machine, word in self.buffers():
            if next_of(word) < end_of(word):
                rooms.setdefault(next_of(word), ("free", end_of(word), machine))
        return rooms

    def pieces(self, region, rooms):
        """The pieces of a region, as (kind, address, words, machine)."""
        words = self.words
        at, end = self.base(region), self.base(region) + self.word("top", region)
        while at < end:
            header, (kind, to, machine) = words.get(("heap", at), 0), rooms.get(at, (None, None, None))
            if kind is None and header % 4 == FILLS:
                kind, to = "filler", at + header // 4
            elif kind is None:
                if header != 1 and header % 4 != FORWARDED:
                    raise Broken(f"a header {header} stands at {at}")
                kind, to = "object", at + words_of(words.get(("heap", at + 1), 0))
            if to <= at or to > end:
                raise Broken(f"a {kind} from {at} to {to} in region {region}, which ends at {end}")
            yield kind, at, to - at, machine
            at = to

    def hold_regions(self):
        """Whether pieces fill each region, with each room among them; free regions are empty, not shared, and nobody's."""
        found, room_at = [], self.room_at()
        for region in range(self.regions):
            found += [(kind, at, words, machine) for kind, at, words, machine in self.pieces(region, room_at) if machine]
            if self.word("top", region) > self.region_words:
                raise Broken("a top is too large")
            if self.word("free") >> region & 1 and (self.word("top", region) or self.word("share") == region + 1):
                raise Broken(f"region {region} is free, and used or shared")
        rooms = [(kind, at, to - at, machine) for machine, (kind, at, to) in self.rooms.items()]
        # Between the filler and the store of the new buffer the old one has no free words any more.
        filled = {machine for machine, taking in self.takings.items() if taking.due and taking.due[0] == "TS" and taking.buffer}
        for machine, word in self.buffers():
            region = self.region_of(end_of(word) - 1)
            if self.word("free") >> region & 1 or self.word("cset") >> region & 1:
                raise Broken(f"a buffer lies in region {region}, which is free or in the set")
            if next_of(word) < end_of(word):
                rooms.append(("free", next_of(word), end_of(word) - next_of(word), machine))
        if sorted(map(str, rooms)) != sorted(map(str, found)) and not filled:
            raise Broken(f"rooms {rooms}, and pieces {found}")
        if self.word("share") > self.regions:
            raise Broken("no such region is shared")

    # Calls and takings.

    def take(self, event):
        """Takes an event, and holds it to its rules."""
        place, verb, machine, word = event["at"], event["operation"], event["machine"], self.name(event)
        found = event["found"]["word"]
        self.seen[place] = self.seen.get(place, 0) + 1
        if word[0] not in self.unlisted:
            self.hold_found(word, found)
        if "begins" in event:
            self.calls[machine] = event["begins"].split()
        self.taking(event, place, verb, machine, word)
        self.walks(place, machine, word, found)
        self.write(event, verb, word, found)
        self.room(event, place, machine, word, found)
        if place in ("TX", "TZ", "TS", "GB", "HX", "RS", "TG", "TV", "TQ", "P3"):
            self.hold_regions()
        if place == "PL" and self.before is None:
            self.before = dict(self.words)
        if place == "P3":
            self.end_pause()

    def hear(self, told):
        """Takes an object of a listing. Behind the line of a pause come the words that it has changed."""
        if told["kind"] == "change":
            word = self.name(told)
            self.hold_found(word, told["found"]["word"])
            self.words[word] = told["value"]["word"]
            return
        if self.is_folded:
            self.hold_regions()
            self.end_pause()
        if told["kind"] == "event":
            self.take(told)
        elif told["kind"] == "pause" and not self.is_whole:
            self.before, self.is_folded = dict(self.words), True

    def hold_found(self, word, found):
        """Whether a word is found as it was left."""
        if found != self.word(*word):
            raise Broken(f"{word} has {self.word(*word)}, and {found} is found")

    def end_pause(self):
        """Behind the last word of a pause."""
        self.hold_pause()
        self.before, self.is_folded = None, False

    def taking(self, event, place, verb, machine, word):
        """What a machine does that takes room."""
        if place == "SL":
            self.wants[machine] = words_of(event["found"]["word"])
        if place == "TC" and machine not in self.takings:
            is_new = machine <= self.threads and self.calls[machine][0] == "new"
            wanted = 3 + sum(map(int, self.calls[machine][2:4])) if is_new else self.wants[machine]
            self.takings[machine] = Taking(wanted, self.reserve if is_new else 0)
        taking = self.takings.get(machine)
        if taking is None:
            if place in TAKING:
                raise Broken(f"machine {machine} is at {place} and takes no room")
            return
        if taking.due in (None, "taken"):
            # The place behind it says what has come of it.
            is_new = taking.kept == self.reserve and machine <= self.threads and self.calls[machine][0] == "new"
            wanted = {(None, True): ("WS",), (None, False): ("OL",), ("taken", True): ("IW",), ("taken", False): ("CL",)}
            if place not in wanted[taking.due, is_new]:
                raise Broken(f"a taking has ended with {taking.due}, and the machine is at {place}")
            del self.takings[machine]
            return
        taking.take(self, place, verb, word, event)

    def room(self, event, place, machine, word, found):
        """What room a machine has behind an event."""
        taking = self.takings.get(machine)
        if place == "TX" and event["won"]:
            self.rooms[machine] = ("carved", taking.at, taking.at + taking.size)
        elif place == "TS":
            self.rooms[machine] = ("in hand", taking.at, taking.at + taking.wanted)
        elif place == "GB":
            _, at, to = self.rooms.pop(machine)
            now = self.word("cur", machine)
            if (next_of(now), end_of(now), next_of(found)) != (at, end_of(found), to):
                raise Broken("a copy is not given back to where it began")
        elif place == "RS" or (place == "HX" and event["won"]):
            self.rooms.pop(machine, None)

    def walks(self, place, machine, word, found):
        """The steps of a unit from piece to piece."""
        if place in ("EF", "UG"):
            if word[0] != "heap":
                raise Broken(f"{place} loads no header")
            if machine in self.units and self.units[machine] is not None and word[1] != self.units[machine]:
                raise Broken(f"{place} loads {word[1]}, and {self.units[machine]} is due")
            self.units[machine] = word[1] + found // 4 if found % 4 == FILLS else ("shape", word[1])
            kinds = [kind for kind, at, _, _ in self.pieces(self.region_of(word[1]), self.room_at()) if at == word[1]]
            if kinds not in (["object"], ["filler"]):
                raise Broken(f"a unit walks over {kinds} at {word[1]}")
        elif place in ("ES", "US"):
            if self.units.get(machine) != ("shape", word[1] - 1):
                raise Broken(f"{place} loads the shape at {word[1]}, and {self.units.get(machine)} is due")
            self.units[machine] = word[1] - 1 + words_of(found)
        elif place in ("ET", "UL"):
            self.units[machine] = self.base(word[1])
        elif place in ("LV", "I0", "EC", "UC", "MC"):
            self.units[machine] = None

    def write(self, event, verb, word, found):
        """Makes the access."""
        value = raw(event, "value")
        if verb == "exchange":
            if found == event["expect"]["word"]:
                self.words[word] = value
        elif verb in ("store", "swap"):
            self.words[word] = value
        elif verb == "set":
            self.words[word] = found | value
        elif verb == "clear":
            self.words[word] = found & ~value
        elif verb == "add":
            self.words[word] = (found + value) % 2**64
        elif verb == "subtract":
            self.words[word] = (found - value) % 2**64

    # Pauses.

    def graph(self, words):
        """The objects that roots, answers and buffers of requests lead to, by their names."""
        old, self.words = self.words, words
        todo = [self.resolved(it) for it in self.roots()]
        seen = {}
        while todo:
            at = todo.pop()
            if not at or self.word("heap", at + 2) in seen:
                continue
            shape = self.word("heap", at + 1)
            refs, nums = shape // 256 % 256, shape % 256
            fields = [self.resolved(self.word("heap", at + 3 + it)) for it in range(refs)]
            names = [self.word("heap", it + 2) if it else 0 for it in fields]
            seen[self.word("heap", at + 2)] = names, [self.word("heap", at + 3 + refs + it) for it in range(nums)]
            todo += fields
        roots = [self.word("heap", self.resolved(it) + 2) if it else 0 for it in self.roots()]
        self.words = old
        return roots, seen

    def roots(self):
        """The addresses in the roots of all threads."""
        return [self.word("root", thread, it) for thread in range(self.threads) for it in range(16)]

    def resolved(self, address):
        """The current copy of an object."""
        header = self.word("heap", address) if address else 1
        return header // 4 if header % 4 == FORWARDED else address

    def settled(self, words, lets_go):
        """The words after buffers are settled, or let go, and the edges then."""
        words = dict(words)
        for machine in range(1, self.machines + 1):
            word = words.get(("cur", machine), 0)
            if not word:
                continue
            region = self.region_of(end_of(word) - 1)
            last = self.is_last(word, words)
            if last and not lets_go:
                continue
            if last:
                words["top", region] = next_of(word) - self.base(region)
            elif next_of(word) < end_of(word):
                words["heap", next_of(word)] = 4 * (end_of(word) - next_of(word)) + FILLS
            words["cur", machine] = 0
        return words

    def edges(self, words):
        """How far each region is used, but for the free words of a buffer at its end."""
        edges = {it: words.get(("top", it), 0) for it in range(self.regions)}
        for machine in range(1, self.machines + 1):
            word = words.get(("cur", machine), 0)
            if word and self.is_last(word, words):
                region = self.region_of(end_of(word) - 1)
                edges[region] = min(edges[region], next_of(word) - self.base(region))
        return edges

    def hold_pause(self):
        """Whether a pause has left the graph, and what it had to do with buffers."""
        before, after = self.before, self.words
        if self.rooms or self.takings:
            raise Broken("somebody takes room in a pause")
        roots, objects = self.graph(before)
        roots_then, objects_then = self.graph(after)
        if roots != roots_then or any(objects[it] != objects_then.get(it) for it in objects):
            raise Broken("a pause has changed the graph")
        phase, phase_then = before.get(("phase",), 0), after.get(("phase",), 0)
        buffers = {it: before.get(("cur", it), 0) for it in range(1, self.machines + 1)}
        buffers_then = {it: after.get(("cur", it), 0) for it in buffers}
        waits = before.get(("ask",), 0) >> 1 & 1
        if (phase, phase_then) in ((0, 1), (2, 3)):
            settled = self.settled(before, False)
            edges, of = self.edges(settled), "mark start" if phase == 0 else "limit"
            if any(buffers_then[it] != settled.get(("cur", it), 0) for it in buffers):
                raise Broken("buffers are not settled")
            for region, edge in edges.items():
                is_outside = phase == 0 or not before.get(("cset",), 0) >> region & 1
                if after.get((of, region), 0) != (edge if is_outside else 0):
                    raise Broken(f"{of} of region {region} is {after.get((of, region), 0)}, and its edge {edge}")
        elif phase_then == 0 and (waits or phase == 2 or (phase == 0 and phase_then == 0)):
            if any(buffers_then.values()):
                raise Broken("buffers are not let go")
        elif buffers_then != buffers:
            raise Broken("a pause has touched buffers")


def follow(lines, is_whole=True):
    """Holds the objects of a listing to the rules, with each step of its pauses or with the words that these have changed; the heap at its
    end."""
    heap = None
    for it in lines:
        if it["kind"] == "head":
            heap = Heap(it, is_whole)
            continue
        try:
            heap.hear(it)
        except Broken as why:
            raise Broken(f"event {it.get('event', '-')}, {it.get('at', it['kind'])}: {why}") from None
    return heap
