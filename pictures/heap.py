"""The heap in the words of a table: regions with their objects, roots, and what leads where."""
from words import ENTRIES, PINS, ROOTS, bits_of, end_of, filled_by, forwardee, name_of, next_of, references_of, size_of

PHASES = ["idle", "marking", "evacuating", "updating"]


class Heap:
    """The heap as the words of a table have it."""

    def __init__(self, layout, table):
        self.layout, self.table = layout, table
        self.phase = self.word("phase")
        self.set = self.word("collection set")
        self.rooms = {}
        for kind, word in (("free", "buffer"), ("room", "room")):
            for machine in range(layout.machines):
                room = self.word(word, machine)
                if next_of(room) < end_of(room):
                    self.rooms[next_of(room)] = kind, end_of(room), machine + 1
        self.regions = [self.region(number) for number in range(layout.regions)]
        self.objects = {it["address"]: it for region in self.regions for it in region["objects"]}
        self.holders = [self.holder(thread) for thread in range(layout.threads)]
        self.mark_reached()

    def word(self, kind, number=0):
        """A word outside the heap."""
        return self.table[self.layout.first[kind] + number]

    def at(self, address):
        """The word of an address."""
        return self.table[address - self.layout.region_words]

    def is_marked(self, kind, address):
        """Whether the bit of an address is set."""
        bit = address - self.layout.region_words
        return self.word(kind, bit // 64) >> bit % 64 & 1 == 1

    def region(self, number):
        """A region: how far it is used, whose buffers lie there, its objects, and what lies there besides."""
        layout, base = self.layout, self.layout.address(number, 0)
        top, objects, others, at = self.word("top", number), [], [], base
        while at < base + top:
            kind, end, machine = self.rooms.get(at, ("filler", at + filled_by(self.at(at)), 0))
            is_other = end > at
            end = end if is_other else at + size_of(self.at(at + 1))
            if end > base + top:
                break
            if is_other:
                others.append({"kind": kind, "machine": machine, "offset": at - base, "words": end - at})
            else:
                objects.append(self.object(number, at, end - at))
            at = end
        return {
            "region": number, "free": self.word("free regions") >> number & 1 == 1, "chosen": self.set >> number & 1 == 1, "top": top,
            "start": self.word("mark start", number), "limit": self.word("limit", number), "objects": objects, "others": others,
            "shared": self.word("shared region") == number + 1,
            "pinned": any(base <= self.word("pin slot", it) < base + layout.region_words for it in range(layout.threads * PINS)),
            "owners": [machine + 1 for machine in range(layout.machines) if self.region_of_buffer(machine) == number],
        }

    def region_of_buffer(self, machine):
        """The region in which a machine's buffer lies, or None."""
        word = self.word("buffer", machine)
        return (end_of(word) - 1) // self.layout.region_words - 1 if word else None

    def object(self, region, address, size):
        """An object."""
        shape = self.at(address + 1)
        refs = references_of(shape)
        return {
            "address": address, "region": region, "offset": address - self.layout.address(region, 0), "words": size,
            "name": name_of(self.at(address + 2)), "copy": forwardee(self.at(address)),
            "fields": [self.at(address + 3 + index) for index in range(refs)],
            "numbers": [self.at(address + 3 + refs + index) for index in range(shape % 256)],
            "black": self.is_marked("black", address), "grey": self.is_marked("grey", address), "reached": False,
        }

    def holder(self, thread):
        """What a thread holds, that is not null: its roots and pin slots, what it has noted, and an answer for it."""
        held = [(str(index), self.word("root", thread * ROOTS + index)) for index in range(ROOTS)]
        held += [(f"pin {index}", self.word("pin slot", thread * PINS + index)) for index in range(PINS)]
        count = min(self.word("buffer count", thread), ENTRIES)
        held += [("noted", self.word("buffer entry", thread * ENTRIES + index)) for index in range(count)]
        answer = self.word("answer", thread)
        held += [("answer", answer)] if answer > 1 else []
        return [(label, address) for label, address in held if address]

    def mark_reached(self):
        """Marks the objects to which a root or a pin slot leads, or an answer; where a copy leads on, that is meant as well."""
        left = [address for held in self.holders for label, address in held if label != "noted"]
        while left:
            it = self.objects.get(left.pop())
            if it and not it["reached"]:
                it["reached"] = True
                left += it["fields"] + [it["copy"]]

    def state(self):
        """The heap in the form of the listing, as far as both have it."""
        layout = self.layout

        def place(address):
            it = self.objects.get(address)
            spot = layout.place(address)
            if not spot:
                return None if address == 0 else {}
            return {"object": it["name"] if it else name_of(self.at(address + 2)), "region": spot[0], "offset": spot[1]}

        def thing(it):
            copy = layout.place(it["copy"])
            return {
                "object": it["name"], "region": it["region"], "offset": it["offset"], "words": it["words"], "black": it["black"],
                "grey": it["grey"], **({"copy": {"region": copy[0], "offset": copy[1]}} if copy else {}),
                "fields": [place(address) for address in it["fields"]], "numbers": it["numbers"],
            }

        pins = [[place(self.word("pin slot", thread * PINS + index)) for index in range(PINS)] for thread in range(layout.threads)]
        return {
            "phase": self.phase, "set": bits_of(self.set), "copiers": self.word("copiers"), "asked": self.word("asked for"),
            "regions": [
                {"region": it["region"], "free": it["free"], "top": it["top"], "mark_start": it["start"], "limit": it["limit"],
                 "shared": it["shared"], "machines": it["owners"], "objects": [thing(each) for each in it["objects"]],
                 "others": [(each["kind"], each["machine"], each["offset"], each["words"]) for each in it["others"]]} for it in self.regions
            ],
            "roots": [[place(self.word("root", thread * ROOTS + index)) for index in range(ROOTS)] for thread in range(layout.threads)],
            **({"pins": pins} if any(map(any, pins)) else {}),
        }
