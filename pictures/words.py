"""The words of a heap: which there are, where each lies in a table, and how one is read."""

MARKS_A_WORD = 64
ROOTS = 16
ENTRIES = 8
PINS = 4
HEADER_WORDS = 3
NO_ROOM = 1 << 63
SINGLE = ["pause", "threads left", "end", "phase", "collection set", "free regions", "shared region", "copiers", "claimed work", "asked for"]
NAMES = {"pause": "pause word", "end": "end word", "asked for": "what is asked for"}
PARTS = {"header": 0, "shape": 1, "name": 2}
REFERENCES = {"root", "buffer entry", "field", "answer", "pin slot"}
ASKED = ["nothing", "a cycle", "room", "a cycle, room"]


def references_of(shape):
    """The references of an object of this shape word."""
    return shape // 256 % 256


def size_of(shape):
    """The words of an object of this shape word."""
    return HEADER_WORDS + references_of(shape) + shape % 256


def forwardee(header):
    """The address of the copy that a header leads to, or 0."""
    return header // 4 if header % 4 == 3 else 0


def filled_by(header):
    """How many words only fill, by their header, or 0."""
    return header // 4 if header % 4 == 2 else 0


def next_of(word):
    """The address where the free words of a buffer begin."""
    return word % (1 << 32)


def end_of(word):
    """The address behind them."""
    return word >> 32


def name_of(word):
    """The name in a name word."""
    return f"{word >> 32}.{word % (1 << 32)}"


def bits_of(word):
    """The bits that are set, from the lowest on."""
    return [bit for bit in range(word.bit_length()) if word >> bit & 1]


class Layout:
    """Where each word lies in the table of a heap: those of the heap first, then the others, among them, of each machine, the room that it
    has taken and that is no object yet, as a word like that of a buffer, or 0."""

    def __init__(self, head):
        self.regions, self.region_words = head["regions"], head["region_words"]
        self.threads, self.helpers = head["threads"], head["helpers"]
        self.machines = self.threads + self.helpers + 1
        self.heap_words = self.regions * self.region_words
        self.mark_words = -(-self.heap_words // MARKS_A_WORD)
        self.first, at = {}, self.heap_words
        for kind, count in [
            *((kind, 1) for kind in SINGLE),
            ("top", self.regions), ("mark start", self.regions), ("limit", self.regions),
            ("state", self.machines), ("buffer", self.machines), ("room", self.machines),
            ("root", self.threads * ROOTS), ("buffer count", self.threads), ("buffer entry", self.threads * ENTRIES),
            ("request", self.threads), ("answer", self.threads),
            ("grey", self.mark_words), ("black", self.mark_words), ("pin slot", self.threads * PINS),
        ]:
            self.first[kind] = at
            at += count
        self.size = at

    def address(self, region, offset):
        """The address of a word of a region."""
        return self.region_words * (region + 1) + offset

    def place(self, address):
        """The region of an address, and the words of the region before it; None where the heap has no such word."""
        region, offset = divmod(address, self.region_words)
        return (region - 1, offset) if 1 <= region <= self.regions else None

    def machine(self, number):
        """The name of a machine, counted from 1."""
        if number <= self.threads:
            return f"thread {number}"
        return f"helper {number - self.threads}" if number < self.machines else "control"

    def index(self, of, table):
        """Where the word lies that an object of a listing is of."""
        kind = of["kind"]
        if "region" in of and "offset" in of:
            at = of["region"] * self.region_words + of["offset"]
            if kind in PARTS:
                at += PARTS[kind]
            elif kind == "field":
                at += HEADER_WORDS + of["index"]
            elif kind == "number":
                at += HEADER_WORDS + references_of(table[at + 1]) + of["index"]
            if not 0 <= at < self.heap_words:
                raise ValueError("a word beyond the heap")
            return at
        at = self.first[kind]
        if "thread" in of:
            each = {"root": ROOTS, "buffer entry": ENTRIES, "pin slot": PINS}.get(kind, 1)
            at += (of["thread"] - 1) * each + of.get("index", 0)
        elif "machine" in of:
            at += of["machine"] - 1
        else:
            at += of.get("region", of.get("index", 0))
        if not self.heap_words <= at < self.size:
            raise ValueError("a word that the heap does not have")
        return at

    def first_table(self):
        """The words of a heap before the first event: the hub, which root 0 of each thread names."""
        table = [0] * self.size
        table[0:HEADER_WORDS] = [1, 65536 + 256 * ROOTS, 1]
        table[self.first["top"]] = HEADER_WORDS + ROOTS
        table[self.first["free regions"]] = (1 << self.regions) - 2
        table[self.first["threads left"]] = self.threads
        for thread in range(self.threads):
            table[self.first["root"] + thread * ROOTS] = self.region_words
        return table
