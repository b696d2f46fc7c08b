"""Time in a picture: a lane for each machine, and a strip for each word that is followed. lanes.js draws the same in a page:
check/test_pictures.py compares the two, text by text."""
import math
from html import escape

from heap import PHASES
from run import LOST, NOTHING, PAUSE, WON

PAUSE_UNITS, LANE, STRIP, AXIS = 12, 50, 26, 34
SMALL = {"unit-text", "pause-text", "band-text"}
TICKS_FROM, CODES_FROM = 5, 16


def rounded(number):
    """A number to one place."""
    return math.floor(number * 10 + 0.5) / 10


def shown(number):
    """A number as a script writes it."""
    return str(int(number)) if number == int(number) else repr(float(number))


def first(count, holds):
    """The first place in a sorted list from which on a test holds."""
    low, high = 0, count
    while low < high:
        middle = (low + high) // 2
        if holds(middle):
            high = middle
        else:
            low = middle + 1
    return low


class Lanes:
    """A picture of time, so many pixels wide, of which those of the label are on the left: so many pixels a unit, from a unit on."""

    def __init__(self, run, machines, words, width, label):
        self.run, self.machines, self.words, self.width, self.label = run, machines, words, width, label
        self.texts, self.count = run.texts.list, len(run.rows)
        self.zoom, self.left, self.cursor = 10, 0, 0
        pauses = {it[0] for it in run.pauses}
        self.units = [0]
        for row in range(self.count):
            self.units.append(self.units[row] + (PAUSE_UNITS if row in pauses else 1))
        self.calls, self.waits, self.units_of = (self.by_machine(it) for it in (run.calls, run.waits, run.units))
        self.parts, self.begin, self.end = [], 0, 0

    def by_machine(self, spans):
        """Spans, of each machine its own."""
        return [[it for it in spans if it[0] == machine] for machine in range(len(self.machines))]

    def writes(self, index):
        """Where a word is written, and what it is then in words."""
        rows, further = self.run.rows, self.run.further
        found = [(row, 0, rows.becomes[row]) for row in range(self.count) if rows.word[row] == index and rows.becomes[row] != NOTHING]
        found += [(further[0][at], 1, further[3][at]) for at in range(len(further[0])) if further[1][at] == index]
        return sorted(found)

    @property
    def total(self):
        """The units of the run."""
        return self.units[self.count]

    @property
    def room(self):
        """The pixels for time."""
        return self.width - self.label

    def look(self, row, units):
        """Takes a part of so many units for the picture, with the row in it, a little behind the middle."""
        self.cursor = row
        self.zoom = self.room / units
        self.left = self.units[row] - units * 0.6
        self.bound()

    def bound(self):
        """Moves the part that is seen so that it lies within the run."""
        self.zoom = min(max(self.zoom, self.room / self.total), 60)
        self.left = max(0, min(self.left, self.total - self.room / self.zoom))

    def x(self, row):
        """Where a row begins."""
        return rounded(self.label + (self.units[row] - self.left) * self.zoom)

    def middle(self, row):
        """The middle of a row."""
        return (self.x(row) + self.x(row + 1)) / 2

    def row_at(self, x):
        """The row at a place of the picture."""
        unit = self.left + (x - self.label) / self.zoom
        return max(0, min(self.count - 1, first(self.count, lambda row: self.units[row + 1] > unit)))

    def lane(self, machine):
        """Where a lane begins."""
        return AXIS + machine * LANE

    def strip(self, number):
        """Where a strip begins."""
        return AXIS + len(self.machines) * LANE + 18 + number * STRIP

    @property
    def height(self):
        """How high the picture is."""
        return self.strip(len(self.words)) + 4

    def seen(self, spans, begin, end):
        """The spans that are seen; where they lie closer than they can be seen, some stand for all."""
        at = first(len(spans), lambda it: end(spans[it]) >= self.begin)
        while at < len(spans) and begin(spans[at]) <= self.end:
            yield spans[at]
            edge = self.x(begin(spans[at])) + 2
            at += 1
            if at < len(spans) and self.x(begin(spans[at])) < edge:
                here = at
                at += first(len(spans) - here, lambda it, here=here, edge=edge: self.x(begin(spans[here + it])) >= edge)

    def text(self, kind, x, y, text, wide, row=None):
        """Puts a text, as far as there is room."""
        most = math.floor((wide - 4) / (6.1 if kind in SMALL else 6.7))
        if most < 2 or most < 4 and len(text) > most:
            return
        told = f"{text[:most - 1]}…" if len(text) > most else text
        data = "" if row is None else f' data-row="{row}"'
        self.parts.append(f'<text class="{kind}" x="{shown(x)}" y="{y}"{data}>{escape(told)}</text>')

    def rect(self, kind, row, start, stop, y, height, title):
        """Puts a box, as far as it is seen; gives how wide it is."""
        x = max(start, self.label)
        wide = min(stop, self.width) - x
        if wide <= 0:
            return 0
        self.parts.append(
            f'<rect class="{kind}" data-row="{row}" x="{shown(x)}" y="{y}" width="{shown(max(rounded(wide) - 1, 1))}" height="{height}" rx="3">'
            f"<title>{escape(title)}</title></rect>"
        )
        return wide

    def draw(self):
        """Draws all."""
        self.bound()
        self.parts = []
        self.begin, self.end = self.row_at(self.label), self.row_at(self.width)
        self.bands()
        self.axis()
        for machine in range(len(self.machines)):
            self.machine(machine)
        self.links()
        for number, word in enumerate(self.words):
            self.word(word, number)
        self.labels()
        self.mark()
        return "".join(self.parts)

    def bands(self):
        """The phases, as bands behind all."""
        phases = self.run.phases
        for number, (row, phase) in enumerate(phases):
            last = phases[number + 1][0] if number + 1 < len(phases) else self.count
            if last < self.begin or row > self.end:
                continue
            start, stop = max(self.x(row), self.label), min(self.x(last), self.width)
            if stop <= start:
                continue
            self.parts.append(f'<rect class="band phase{phase}" data-row="{row}" x="{shown(start)}" y="0" width="{shown(stop - start)}" height="{self.height}"/>')
            for text in (f"phase {phase}, {PHASES[phase] if phase < len(PHASES) else ''}", f"phase {phase}"):
                if len(text) * 6.1 + 4 <= stop - start:
                    self.text("band-text", start + 4, 11, text, stop - start)
                    break

    def axis(self):
        """The items of the schedule, and numbers of events."""
        free = self.label
        for row, text in self.seen(self.run.items, lambda it: it[0], lambda it: it[0]):
            x = self.x(min(row, self.count - 1))
            if x < self.label:
                continue
            self.parts.append(f'<path class="item" d="M{shown(x)},14V{self.lane(len(self.machines))}"/>')
            wide = len(text) * 6.7 + 8
            if x >= free:
                self.parts.append(f'<text class="item-text" x="{shown(x + 3)}" y="22">{escape(text)}</text>')
                free = x + wide
        free = self.label
        for x in range(self.label, self.width - 40, 90):
            row = self.row_at(x)
            at = self.x(row)
            if at < free:
                continue
            text = str(self.run.rows.number[row])
            self.parts.append(f'<text class="number" x="{shown(at + 1)}" y="33">{text}</text>')
            free = at + len(text) * 7 + 10

    def machine(self, machine):
        """The lane of a machine."""
        y = self.lane(machine)
        self.parts += [f'<g class="lane {self.machines[machine]["kind"]}">', f'<path class="rule" d="M{self.label},{y + LANE - 2}H{self.width}"/>']
        if machine == len(self.machines) - 1:
            self.pauses(y)
        for it in self.seen(self.calls[machine], lambda call: call[1], self.stop):
            self.call(it, y)
        for it in self.seen(self.units_of[machine], lambda unit: unit[1], lambda unit: unit[2]):
            self.unit(it, y)
        for it in self.seen(self.waits[machine], lambda wait: wait[1], lambda wait: wait[2]):
            self.wait(it, y)
        self.ticks(machine, y)
        self.parts.append("</g>")

    def stop(self, call):
        """The row at which a call ends."""
        return self.count - 1 if call[3] == NOTHING else call[3]

    def call(self, call, y):
        """A call."""
        _, row, settled, replies, command, reply = call
        texts, numbers = self.texts, self.run.rows.number
        start, stop, replied = self.x(row), self.x(self.stop(call) + 1), f" → {texts[reply]}" if reply else ""
        title = f"{texts[command]}{replied}: begins at {numbers[row]}"
        title += "" if settled == NOTHING else f", is settled at {numbers[settled]}"
        title += ", has not ended" if replies == NOTHING else f", replies at {numbers[replies]}"
        wide = self.rect("call open" if replies == NOTHING else "call", row, start, stop, y + 4, 22, title)
        self.text("call-text", max(start, self.label) + 5, y + 16, texts[command] + replied, wide - 8, row)
        if settled != NOTHING and wide > 4:
            x = self.middle(settled)
            if self.label < x < self.width:
                self.parts.append(f'<path class="settles" data-row="{settled}" d="M{shown(x - 5)},{y + 26}l5,-6 5,6 -5,6z"><title>settles {escape(texts[reply])}</title></path>')

    def unit(self, unit, y):
        """A unit of work."""
        _, row, last, text = unit
        start = self.x(row)
        wide = self.rect("unit", row, start, self.x(last + 1), y + 6, 18, self.texts[text])
        told = self.texts[text]
        told = told if len(told) * 6.1 + 6 <= wide else told.split(" ")[-1]
        self.text("unit-text", max(start, self.label) + 3, y + 19, told, wide, row)

    def wait(self, wait, y):
        """A machine that waits."""
        _, row, last, place = wait
        self.rect("wait", row, self.x(row), self.x(last + 1), y + 18, 8, f"waits at {self.run.places.list[place]}")

    def pauses(self, y):
        """The pauses."""
        for row, line, short in self.seen(self.run.pauses, lambda it: it[0], lambda it: it[0]):
            start, stop = self.x(row), self.x(row + 1)
            if start < self.width and stop > self.label:
                x = max(start, self.label)
                wide = max(min(stop, self.width) - x, 1)
                self.parts.append(f'<rect class="pausing" data-row="{row}" x="{shown(x)}" y="{AXIS}" width="{shown(wide)}" height="{y - AXIS + LANE - 2}"/>')
            wide = self.rect("pause", row, start, stop, y + 2, LANE - 8, self.texts[line])
            words = self.texts[short].split(" ")
            words = [words[0][:-1]] if wide < 70 else words
            text, number = "", 0
            for word in [*words, None]:
                if word is not None and len(text + word) * 6.4 < wide - 8:
                    text += f"{' ' if text else ''}{word}"
                    continue
                if number < 3 and text:
                    self.text("pause-text", max(start, self.label) + 5, y + 14 + 12 * number, text, wide, row)
                number += 1
                text = word or ""

    def ticks(self, machine, y):
        """A tick for each event, where there is room."""
        rows = self.run.rows
        if self.zoom < TICKS_FROM:
            return
        for row in range(self.begin, self.end + 1):
            flags = rows.flags[row]
            if rows.machine[row] != machine or flags & PAUSE:
                continue
            x = self.middle(row)
            if x < self.label:
                continue
            kind, way = self.tick(rows.operation[row], flags, x, y + 33)
            self.parts.append(f'<path class="event {kind}" data-row="{row}" d="{way}"/>')
            if self.zoom >= CODES_FROM:
                self.parts.append(f'<text class="code" data-row="{row}" x="{shown(x)}" y="{y + 46}">{escape(self.run.places.list[rows.place[row]])}</text>')

    @staticmethod
    def tick(operation, flags, x, y):
        """The kind of a tick, and how it is drawn."""
        if flags & WON:
            return "won", f"M{shown(x - 4)},{y + 3}l4,-8 4,8z"
        if flags & LOST:
            return "lost", f"M{shown(x - 4)},{y - 4}l8,8M{shown(x - 4)},{y + 4}l8,-8"
        if operation == 0:
            return "load", f"M{shown(x - 2)},{y}a2,2 0 1 0 4,0a2,2 0 1 0 -4,0"
        return "store", f"M{shown(x - 2)},{y - 4}h4v8h-4z"

    def links(self):
        """From each exchange that was lost a line to the event that wrote the word before."""
        rows = self.run.rows
        for row, winner in self.seen(self.run.lost, lambda it: it[0], lambda it: it[0]):
            if winner < 0:
                continue
            x, to = self.middle(row), self.middle(winner)
            y, end = self.lane(rows.machine[row]) + 33, self.lane(rows.machine[winner]) + 33
            if x < self.label or x > self.width:
                continue
            stop, bend = max(to, self.label), (y + end) / 2 - (24 if y == end else 0)
            self.parts.append(
                f'<path class="link" data-row="{row}" d="M{shown(x)},{y}C{shown(x - 12)},{shown(bend)} {shown(stop + 12)},{shown(bend)} {shown(stop)},{end}">'
                f"<title>lost to event {rows.number[winner]}</title></path>"
            )
            if to >= self.label:
                self.parts.append(f'<circle class="link-end" cx="{shown(to)}" cy="{end}" r="6"/>')

    def word(self, word, number):
        """The values of a word, coloured by who wrote them."""
        index, label, before = word[:3]
        writes, y, rows = self.writes(index), self.strip(number), self.run.rows
        self.parts.append(f'<g class="strip" data-word="{index}">')
        at = first(len(writes), lambda it: writes[it][0] > self.begin) - 1
        while at < len(writes) and (at < 0 or writes[at][0] <= self.end):
            row = 0 if at < 0 else writes[at][0]
            after = writes[at + 1][0] if at + 1 < len(writes) else self.count
            text = self.texts[before if at < 0 else writes[at][2]]
            by = None if at < 0 else self.machines[rows.machine[row]]
            kind = by["kind"] if by else "before"
            start, stop = self.x(0) if at < 0 else self.middle(row), self.middle(after) if after < self.count else self.x(self.count)
            title = f"{self.texts[label]}: {text}" + (f", by {by['name']}" if by else "")
            wide = self.rect(f"value {kind}", row, start, stop, y, STRIP - 6, title)
            self.text(f"value-text {kind}", max(start, self.label) + 4, y + 14, text, wide - 4, row)
            at += 1
            if at < len(writes) and self.middle(writes[at][0]) < start + 1.5:
                at = max(at, first(len(writes), lambda it, start=start: self.middle(writes[it][0]) >= start + 1.5) - 1)
        self.parts.append("</g>")

    def labels(self):
        """What stands at the left."""
        self.parts.append(f'<rect class="gutter" x="0" y="0" width="{self.label - 2}" height="{self.height}"/>')
        for machine, it in enumerate(self.machines):
            self.parts.append(f'<text class="machine {it["kind"]}" x="4" y="{self.lane(machine) + 20}">{escape(it["name"])}</text>')
        if self.words:
            self.parts.append(f'<text class="number" x="4" y="{self.strip(0) - 6}">words</text>')
        for number, word in enumerate(self.words):
            most, text = math.floor((self.label - 6) / 6.7), self.texts[word[1]]
            told = f"{text[:most - 1]}…" if len(text) > most else text
            self.parts.append(f'<text class="word-label" x="4" y="{self.strip(number) + 14}">{escape(told)}<title>{escape(text)}</title></text>')

    def mark(self):
        """The event that is meant."""
        x, stop = self.x(self.cursor), self.x(self.cursor + 1)
        if stop < self.label or x > self.width:
            return
        start = max(x, self.label)
        self.parts.append(f'<rect class="cursor" x="{shown(start)}" y="{AXIS}" width="{shown(max(stop - start, 1.5))}" height="{self.height - AXIS}"/>')
