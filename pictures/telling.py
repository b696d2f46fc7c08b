"""Words and values as the listing spells them, from the objects of `shensteps --json`."""
from words import ASKED, MARKS_A_WORD, NAMES, NO_ROOM, REFERENCES, bits_of, forwardee, size_of

VERBS = {"add": "add to", "subtract": "subtract from", "clear": "clear in", "set": "set in"}


class Teller:
    """Spells what an event says, over the words as they stand behind it."""

    def __init__(self, layout, table):
        self.layout, self.table = layout, table
        self.targets, self.set = None, 0

    def forget(self):
        """Is told that headers or tops may have changed."""
        self.targets = None

    def look(self):
        """The addresses to which old copies in the collection set lead."""
        words, size = self.layout.region_words, self.layout.first
        targets = set()
        for region in bits_of(self.set):
            at, end = region * words, region * words + self.table[size["top"] + region]
            while at < end:
                targets.add(forwardee(self.table[at]))
                at += size_of(self.table[at + 1])
        self.targets = targets

    def moves(self, region, offset):
        """Whether the object there has moved or is to move, so that it has to be said which copy is meant."""
        chosen = self.table[self.layout.first["collection set"]]
        if not chosen:
            return False
        if chosen >> region & 1:
            return True
        if offset < self.table[self.layout.first["mark start"] + region]:
            return False
        if self.targets is None or self.set != chosen:
            self.set = chosen
            self.look()
        return self.layout.address(region, offset) in self.targets

    def object(self, it):
        """An object, with its place where it moves."""
        if self.moves(it["region"], it["offset"]):
            return f"{it['object']}@{it['region']}+{it['offset']}"
        return it["object"]

    def reference(self, value):
        """A reference, or - for null."""
        if value["word"] == 0:
            return "-"
        return self.object(value) if "object" in value else str(value["word"])

    def marks(self, of, value):
        """The objects that a word of marks marks."""
        texts = []
        for bit, it in zip(bits_of(value["word"]), value["objects"]):
            place = self.layout.place(self.layout.region_words + of["index"] * MARKS_A_WORD + bit)
            texts.append(self.object({"object": it.get("object"), "region": place[0], "offset": place[1]}) if place else str(bit))
        return "{" + " ".join(texts) + "}"

    def value(self, of, value):
        """A value of a word."""
        kind, word = of["kind"], value["word"]
        if kind == "answer" and word < 2:
            return ["none", "full"][word]
        if kind in REFERENCES:
            return self.reference(value)
        if kind == "header" and "copy" in value:
            copy = value["copy"]
            return f"copy @{copy['region']}+{copy['offset']}" if "region" in copy else f"copy @{word // 4}"
        if kind == "header" and "fills" in value:
            return f"{value['fills']} word{'' if value['fills'] == 1 else 's'} that only fill"
        if kind in ("collection set", "free regions"):
            return "{" + " ".join(map(str, value["regions"])) + "}"
        if kind == "copiers":
            return f"{word % NO_ROOM}" + (", no room" if word >= NO_ROOM else "")
        if kind == "shared region":
            return str(word - 1) if word else "none"
        if kind == "buffer":
            return f"@{value['region']}+{value['offset']} to @{value['region']}+{value['end']}" if word else "none"
        if kind == "asked for":
            return ASKED[word % 4]
        if kind == "state":
            return "in" if word else "out"
        if kind == "request":
            return f"object {value['count']} of {value['refs']}/{value['nums']}" if word else "none"
        if kind == "shape":
            return f"{value['refs']}/{value['nums']}"
        if kind == "name":
            return value["object"] if word else "0"
        if kind in ("grey", "black"):
            return self.marks(of, value)
        return str(word)

    def of(self, of):
        """The word that an access is of."""
        kind = of["kind"]
        if kind == "word":
            return f"word @{of['region']}+{of['offset']}"
        if "offset" in of:
            part = f"{kind} {of['index']}" if "index" in of else kind
            if "new" in of:
                return f"{part} of the new object"
            if "copy" in of:
                return f"{part} of the copy @{of['region']}+{of['offset']}"
            if "object" not in of:
                return f"{part} of words @{of['region']}+{of['offset']}"
            return f"{part} of {self.object(of)}"
        if kind in ("grey", "black"):
            return f"{kind} word {of['index']}"
        if "thread" in of:
            return f"{kind} {of['index']} of thread {of['thread']}" if "index" in of else f"{kind} of thread {of['thread']}"
        if "machine" in of:
            return f"{kind} of {self.layout.machine(of['machine'])}"
        return f"{kind} of region {of['region']}" if "region" in of else NAMES.get(kind, kind)

    def brings(self, event):
        """The values that an access brings, or nothing."""
        if "value" not in event:
            return ""
        value = self.value(event["of"], event["value"])
        return f"{self.value(event['of'], event['expect'])} to {value}" if "expect" in event else value


def says(event):
    """What a step says."""
    parts = []
    if "won" in event:
        parts.append("won" if event["won"] else "lost")
    for key in ("begins", "settles"):
        if key in event:
            parts.append(f"{key} {event[key]}")
    if "settles_full_of" in event:
        parts.append(f"settles full of thread {event['settles_full_of']}")
    if "entry" in event:
        parts.append(f"entry {event['entry']}")
    if "again" in event:
        parts.append("again")
    if "replies" in event:
        parts.append(f"replies {event['replies']}")
    return ", ".join(parts)


def some(number, thing, what):
    """How many of a thing there are, where there are any."""
    return f"; {number} {thing}{'' if number == 1 else 's'}{what}" if number else ""


def pause(it):
    """A pause in the words of its line."""
    text = f"pause {it['pause']}: {it['cause']}"
    if it["no_room"] and it["phase_before"] == 2:
        text += ", a copier found no room"
    if it["allocation_waits"] and it["cause"] != "an allocation waits":
        text += ", an allocation waits"
    text += f"; {it['did']}; phase {it['phase_before']} to {it['phase_after']}"
    if it["set"] and it["phase_after"] == 2:
        text += f"; set {{{' '.join(map(str, it['set']))}}}"
    if it["freed"]:
        text += f"; frees {{{' '.join(map(str, it['freed']))}}}"
    text += some(it["copied"], "object", " copied") + some(it["answered"], "request", " answered") + some(it["refused"], "request", " refused")
    text += f"; {it['changed']} of {it['words']} word{'' if it['words'] == 1 else 's'} changed"
    entries = "".join(f" entry {entry}" for entry in it.get("entries", []))
    return f"{text}; settles{entries}" if entries else text
