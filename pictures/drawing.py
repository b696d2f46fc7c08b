"""The picture of a heap, in SVG. drawing.js draws the same in a page: check/test_pictures.py compares the two, text by text."""
from html import escape

GUTTER, RIGHT = 70, 12
CHIP, CHIP_ROW = 18, 24
BAR, ROW = 32, 60
LOW_BAR, LOW_ROW = 12, 22
# The lines beside a region that say whose buffers lie there, at most.
OWNERS = 3


def size_for(text, width):
    """The class with which a text has room in so many pixels: empty for the usual size, None where there is no room."""
    if 73 * len(text) <= 10 * (width - 4):
        return ""
    return " small" if 55 * len(text) <= 10 * (width - 2) else None


class Drawing:
    """A picture of a heap, so many pixels wide. Regions of the low ones take little room while they are free."""

    def __init__(self, heap, width, low):
        self.heap, self.layout, self.width = heap, heap.layout, width
        self.parts, self.arrows, self.height = [], [], 0
        self.low = {it["region"] for it in heap.regions if it["free"]} & set(low)
        self.tops = []

    def x(self, offset):
        """Where a word of a region begins."""
        return GUTTER + offset * (self.width - GUTTER - RIGHT) // self.layout.region_words

    def y(self, region):
        """Where the bar of a region begins."""
        return self.tops[region]

    def machine_class(self, machine):
        """The class that has the colour of a machine, counted from 1."""
        if machine <= self.layout.threads:
            return f"t{machine}"
        return f"h{machine - self.layout.threads}" if machine < self.layout.machines else "c"

    def text(self, kind, x, y, text):
        """Puts a text."""
        self.parts.append(f'<text class="{kind}" x="{x}" y="{y}">{escape(text)}</text>')

    def draw(self):
        """Draws all."""
        chips = self.holders()
        for region in self.heap.regions:
            self.region(region)
        self.height = self.tops[-1] - 8
        for x, y, address, kind in chips:
            self.root_arrow(x, y, address, kind)
        for it in self.heap.objects.values():
            self.object_arrows(it)
        return self

    def holders(self):
        """Draws what the threads hold, one behind the other; gives where arrows begin."""
        chips, x, y = [], 4, 4
        for thread, held in enumerate(self.heap.holders, 1):
            label = f"thread {thread}"
            wide = GUTTER - 4 + sum(14 + 7 * len(text) for text, _ in held)
            if x > 4 and x + wide > self.width - RIGHT:
                x, y = 4, y + CHIP_ROW
            self.parts.append(f'<g class="holder t{thread}" data-thread="{thread}">')
            self.text("label", x, y + 13, label)
            x += GUTTER - 4
            for text, address in held:
                wide = 10 + 7 * len(text)
                if x + wide > self.width - RIGHT:
                    x, y = GUTTER, y + CHIP_ROW
                self.parts.append(f'<rect class="chip" x="{x}" y="{y}" width="{wide}" height="{CHIP}" rx="4"/>')
                self.text("chip-text", x + wide // 2, y + 13, text)
                chips.append((x + wide // 2, y + CHIP, address, f"{'noted' if text == 'noted' else 'root'} t{thread}"))
                x += wide + 4
            self.parts.append("</g>")
            x += 16
        self.tops = [y + CHIP_ROW + 20]
        for number in range(self.layout.regions):
            self.tops.append(self.tops[-1] + (LOW_ROW if number in self.low else ROW))
        return chips

    def region(self, it):
        """Draws a region."""
        number, x, y = it["region"], self.x(0), self.y(it["region"])
        wide, low = self.x(self.layout.region_words) - x, number in self.low
        kinds = "region" + (" free" if it["free"] else "") + (" chosen" if it["chosen"] else "")
        self.parts.append(f'<g class="{kinds}" data-region="{number}">')
        self.text("label", 4, y + 11, f"region {number}")
        self.text("note", x + 4 if low else 4, y + (9 if low else 23), "free" if it["free"] else f"{it['top']} of {self.layout.region_words}")
        lines = ([("owner", "pinned")] if it["pinned"] else []) + ([("owner", "shared")] if it["shared"] else [])
        lines += [(f"owner {self.machine_class(machine)}", self.layout.machine(machine)) for machine in it["owners"]]
        for line, (kind, text) in enumerate(lines[:OWNERS]):
            self.text(kind, 4, y + 35 + 11 * line, text)
        self.parts.append(f'<rect class="bar" x="{x}" y="{y}" width="{wide}" height="{LOW_BAR if low else BAR}"/>')
        for each in it["objects"]:
            self.object(each, y)
        for each in it["others"]:
            self.other(each, y)
        if it["chosen"]:
            self.parts.append(f'<rect class="frame" x="{x - 3}" y="{y - 3}" width="{wide + 6}" height="{BAR + 6}" rx="3"/>')
            self.text("frame-text", x + wide, y - 6, "collection set")
        if self.heap.phase and not it["free"]:
            self.ticks(it, y + BAR)
        self.parts.append("</g>")

    def ticks(self, it, y):
        """Draws how far a region was used when marking began, and when updating began."""
        ticks = [("mark start", it["start"])] + ([("limit", it["limit"])] if self.heap.phase == 3 else [])
        if len(ticks) == 2 and it["start"] == it["limit"]:
            ticks = [("mark start, limit", it["start"])]
        for kind, offset in ticks:
            x = self.x(min(offset, self.layout.region_words))
            self.parts.append(f'<path class="tick" d="M{x},{y - BAR}V{y + 4}"/>')
            wide = 6 * len(kind) + 2
            self.text("tick-text", max(min(x, self.width - RIGHT - wide // 2), GUTTER + wide // 2), y + (23 if kind == "limit" else 13), kind)

    def object(self, it, y):
        """Draws an object."""
        x, wide = self.x(it["offset"]), self.x(it["offset"] + it["words"]) - self.x(it["offset"])
        kinds = "object" + (" old" if it["copy"] else "" if it["reached"] else " garbage")
        mark = "black" if it["black"] else "grey" if it["grey"] else ""
        shown = mark if self.heap.phase else ""
        self.parts.append(f'<g class="{kinds}{" " + shown if shown else ""}" data-address="{it["address"]}">')
        self.parts.append(f"<title>{escape(self.title(it, mark))}</title>")
        self.parts.append(f'<rect x="{x}" y="{y}" width="{max(wide - 1, 1)}" height="{BAR}" rx="2"/>')
        if shown and wide >= 12:
            self.parts.append(f'<circle class="mark" cx="{x + wide - 8}" cy="{y + BAR - 7}" r="4"/>')
        size = size_for(it["name"], wide)
        if size is not None:
            self.text("name" + size, x + wide // 2, y + (15 if shown and wide < 60 else 20), it["name"])
        self.parts.append("</g>")

    def title(self, it, mark):
        """What is said of an object."""
        text = f"{it['name']}: {it['words']} words at region {it['region']}, word {it['offset']}"
        if mark:
            text += f"; {mark}"
        if it["copy"]:
            text += f"; an old copy, the current one lies at {self.place(it['copy'])}"
        elif not it["reached"]:
            text += "; garbage: no root leads here"
        for index, address in enumerate(it["fields"]):
            text += f"; field {index}: {self.place(address)}" if address else ""
        for index, number in enumerate(it["numbers"]):
            text += f"; number {index}: {number}" if number else ""
        return text

    def place(self, address):
        """An object with its place, or where nothing lies."""
        spot, it = self.layout.place(address), self.heap.objects.get(address)
        where = f"@{spot[0]}+{spot[1]}" if spot else str(address)
        return it["name"] + where if it else where

    def other(self, it, y):
        """Draws what is no object: room that a machine has taken, free words of its buffer, or words that only fill."""
        x, wide = self.x(it["offset"]), self.x(it["offset"] + it["words"]) - self.x(it["offset"])
        whose = self.layout.machine(it["machine"]) if it["machine"] else ""
        title = {"room": f"room of {whose}, no object yet", "free": f"free words of the buffer of {whose}", "filler": "words that only fill"}
        self.parts.append(f'<g class="other {it["kind"]}"><title>{title[it["kind"]]}, {it["words"]} words</title>')
        self.parts.append(f'<rect x="{x + 1}" y="{y + 1}" width="{max(wide - 2, 1)}" height="{BAR - 2}" rx="2"/>')
        size = size_for(it["kind"], wide)
        if size is not None:
            self.text("name" + size, x + wide // 2, y + 20, it["kind"])
        self.parts.append("</g>")

    def target(self, address, shift):
        """The object at an address, and where an arrow to it ends."""
        it = self.heap.objects.get(address)
        if not it:
            return None, 0
        x, wide = self.x(it["offset"]), self.x(it["offset"] + it["words"]) - self.x(it["offset"])
        return it, x + min(shift, wide // 2)

    def arrow(self, kind, start, end, down):
        """Draws an arrow that ends downwards or upwards."""
        (fx, fy), (tx, ty) = start, end
        back = -6 if down else 6
        bend = max(abs(ty - fy) // 2, 14)
        begin = fy + bend if down or ty == fy else fy - bend
        if ty == fy:
            begin = fy + 16
        self.arrows.append(
            f'<g class="arrow {kind}"><path d="M{fx},{fy}C{fx},{begin} {tx},{ty + back * bend // 6} {tx},{ty + back // 2}"/>'
            f'<path class="head" d="M{tx - 3},{ty + back}L{tx},{ty}L{tx + 3},{ty + back}Z"/></g>'
        )

    def root_arrow(self, x, y, address, kind):
        """Draws an arrow from what a thread holds."""
        it, end = self.target(address, 5)
        if it:
            self.arrow(kind, (x, y), (end, self.y(it["region"])), True)

    def object_arrows(self, it):
        """Draws the arrows from an object: of its fields, and to the copy that its header leads to."""
        for index, address in enumerate(it["fields"]):
            self.field_arrow("field", it, it["offset"] + 3 + index, address, 11)
        if it["copy"]:
            self.field_arrow("forward", it, it["offset"], it["copy"], 17)

    def field_arrow(self, kind, it, offset, address, shift):
        """Draws an arrow from a word of an object."""
        to, end = self.target(address, shift)
        if not to:
            return
        x = (self.x(offset) + self.x(offset + 1)) // 2
        top, other = self.y(it["region"]), self.y(to["region"])
        if other > top:
            self.arrow(kind, (x, top + BAR), (end, other), True)
        elif other < top:
            self.arrow(kind, (x, top), (end, other + BAR), False)
        else:
            self.arrow(kind, (x, top + BAR), (end, top + BAR), False)

    def content(self):
        """What stands in the picture."""
        return "".join(self.parts) + '<g class="arrows">' + "".join(self.arrows) + "</g>"
