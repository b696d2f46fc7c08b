"""Copiers of one object that is in the collection set, step by step, as the rules have them: what each finds, and where each ends."""

BUFFER = 64


class Set:
    """The words that copiers share: the shared region as a word, the free regions, tops, how many copiers are counted and whether one has
    found no room, and the header of the object: None, or the address of its copy."""

    def __init__(self, shared, free, tops, words=64, reserve=0):
        self.shared, self.free, self.tops, self.words, self.reserve = shared, set(free), dict(tops), words, reserve
        self.copiers, self.out, self.header = 0, False, None

    def base(self, region):
        return self.words * (region + 1)


class Copier:
    """A machine that resolves the object. It stands at `place`, None behind XS or HR; `steps` is how many it has made."""

    def __init__(self, heap, wanted, buffer=None, before=()):
        self.heap, self.wanted, self.buffer = heap, wanted, buffer
        self.steps, self.copy, self.is_counted = 0, None, False
        self.way = self.go(before)
        self.place = next(self.way)

    def to(self, place):
        """Makes steps until it stands at a place, or has nothing more to do."""
        while self.place not in (place, None):
            self.steps += 1
            self.place = next(self.way, None)

    def wait(self, count):
        """Makes so many steps."""
        for _ in range(count):
            self.steps += 1
            self.place = next(self.way, None)

    def go(self, before):
        """Its places, one after the other. What stands behind a `yield` is the step made there."""
        yield from before
        yield "HL"
        if self.heap.header is not None:
            return
        if not (yield from self.enter()):
            yield "HR"
            return
        yield "SL"
        at = yield from self.take()
        if at is None:
            yield from self.stop()
            return
        yield from self.fill(at)
        yield "XS"
        self.heap.copiers -= 1
        self.is_counted = False

    def enter(self):
        """Whether it is counted."""
        while True:
            yield "XL"
            found = self.heap.copiers, self.heap.out
            if found[1] and found[0]:
                continue
            if found[1]:
                return False
            yield "XC"
            if (self.heap.copiers, self.heap.out) == found:
                self.heap.copiers += 1
                self.is_counted = True
                return True

    def take(self):
        """The address of the room that it takes, or None."""
        heap = self.heap
        yield "TC"
        if self.buffer and self.buffer[0] + self.wanted <= self.buffer[1]:
            at = self.buffer[0]
            yield "TS"
            self.buffer = at + self.wanted, self.buffer[1]
            return at
        while True:
            yield "TR"
            found = heap.shared
            at = (yield from self.carve(found)) if found else "full"
            while at == "full":
                yield "TF"
                if not heap.free:
                    return None
                region = min(heap.free)
                yield "TG"
                if region not in heap.free:
                    continue
                heap.free.remove(region)
                yield "TV"
                if heap.shared == found:
                    found = heap.shared = region + 1
                    at = yield from self.carve(found)
                else:
                    yield "TQ"
                    heap.free.add(region)
                    at = "again"
            if at != "again":
                return at

    def carve(self, shared):
        """The address of room in a buffer that it carves; `full` where there is too little, `again` where the top is another one by then."""
        heap, region = self.heap, shared - 1
        yield "TT"
        top = heap.tops.get(region, 0)
        if heap.words - top < self.wanted:
            return "full"
        yield "TX"
        if heap.tops.get(region, 0) != top:
            return "again"
        size = min(BUFFER, heap.words - top)
        heap.tops[region] = top + size
        at = heap.base(region) + top
        if self.buffer and self.buffer[0] < self.buffer[1]:
            yield "TZ"
        yield "TS"
        self.buffer = at + self.wanted, at + size
        return at

    def fill(self, at):
        """It copies the words, and publishes the copy or gives it back."""
        for _ in range(self.wanted - 1):
            yield "CL"
            yield "CP"
        yield "HI"
        yield "HX"
        if self.heap.header is None:
            self.heap.header = at
        else:
            yield "GB"
            self.buffer = at, self.buffer[1]

    def stop(self):
        """It has found no room."""
        heap = self.heap
        while True:
            yield "OL"
            found = heap.copiers, heap.out
            yield "OX"
            if (heap.copiers, heap.out) == found:
                heap.copiers, heap.out, self.is_counted = heap.copiers - 1, True, False
                break
        while True:
            yield "XW"
            if not heap.copiers:
                break
        yield "HR"

    def room(self, number):
        """Its buffer, as following.py tells it of the machine with this number."""
        if not self.buffer:
            return f"room {number}: none"
        region = (self.buffer[1] - 1) // self.heap.words - 1
        base = self.heap.base(region)
        return f"room {number}: {region}+{self.buffer[0] - base} to {self.buffer[1] - base}"
