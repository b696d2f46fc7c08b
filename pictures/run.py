"""A run, from the objects of `shensteps --json`: its events as columns, and the words of its heap folded over them."""
import json
from array import array

import telling
from words import Layout, next_of

WON, LOST, AGAIN, PAUSE = 1, 2, 4, 8
NOTHING = 0xFFFFFFFF
OPERATIONS = ["load", "store", "swap", "add", "subtract", "clear", "set", "exchange", "pause"]
CODES = {name: code for code, name in enumerate(OPERATIONS)}
# Places at which the room stays that a machine has taken and that is no object yet.
IN_ROOM = {"TZ", "IW", "CL", "CP", "HI"}
# Where a machine that says `again` waits for others.
WAITS = {"E4", "WP", "XW", "P2"}
# Where a helper and the control look for a unit of work, and what they do with it then.
UNITS = {"MC": "mark", "EC": "evacuate", "UC": "update"}
# What two events of a machine have in common if one only says again what the other has said.
LIKE = ["place", "word", "after", "flags", "says", "operation"]
# Where neither is at a unit.
IDLE = {"LV", "H0", "E1", "E2", "E3", "E4", "I0", "I1", "I2", "IE", "P1", "P2", "PL", "PS", "P3"}
# The longest run that a page shows whole, in events that are listed.
MOST = 1_000_000
WORD = 1 << 64


class Fault(Exception):
    """Why a text is no listing that can be shown."""


class Texts:
    """Texts, each once, by number. The first is empty."""

    def __init__(self):
        self.list, self.numbers = [""], {"": 0}

    def number(self, text):
        """The number of a text."""
        number = self.numbers.setdefault(text, len(self.list))
        if number == len(self.list):
            self.list.append(text)
        return number


def made(operation, found, event):
    """What an access makes of the word that it finds."""
    if operation == "load" or operation == "exchange" and not event["won"]:
        return found
    value = event["value"]["word"]
    if operation == "add":
        return (found + value) % WORD
    if operation == "subtract":
        return (found - value) % WORD
    if operation == "clear":
        return found & ~value
    return found | value if operation == "set" else value


class Columns:
    """What is kept of each event that is listed."""

    NAMES = ["number", "machine", "place", "operation", "word", "after", "flags", "of", "brings", "found", "says", "becomes"]

    def __init__(self):
        for name in self.NAMES:
            setattr(self, name, array("I"))

    def add(self, *values):
        """Adds an event."""
        for name, value in zip(self.NAMES, values):
            getattr(self, name).append(value)

    def drop(self):
        """Drops the last event."""
        for name in self.NAMES:
            getattr(self, name).pop()

    def has_same(self, name, row, other):
        """Whether two events have the same in a column."""
        column = getattr(self, name)
        return column[row] == column[other]

    def __len__(self):
        return len(self.number)


class Run:
    """A run as far as it was read. Rows are events, counted from 0: a pause is one, and of like loads of a machine two are kept."""

    def __init__(self, head, first=1, most=MOST):
        self.head, self.layout = head, Layout(head)
        self.first, self.most = first, most
        self.table = self.layout.first_table()
        self.teller = telling.Teller(self.layout, self.table)
        self.texts, self.values, self.places = Texts(), {0: 0}, Texts()
        self.rows = Columns()
        # Further words that an event changes: its row, the word, the value, and the value in words.
        self.further = [array("I") for _ in range(4)]
        self.initial = None
        self.items, self.calls, self.pauses, self.waits, self.units, self.lost = [], [], [], [], [], []
        # Of each machine the last row, and whether that is like the one before; and how many events are left out.
        self.last_rows, self.folded = [(None, False)] * self.layout.machines, 0
        self.phases, self.owners = [], {}
        # The words behind the last event that was asked for, its number, and whether that lies within a pause.
        self.behind = None
        self.open_calls, self.open_waits, self.open_units = {}, {}, {}
        self.last_number, self.pausing, self.is_row = 0, False, False
        self.mismatches, self.events, self.made_pauses, self.is_cut, self.end, self.stuck = 0, 0, 0, False, None, None

    def value(self, word):
        """The number of a value."""
        return self.values.setdefault(word, len(self.values))

    def is_shown(self, number):
        """Whether the event of a number belongs to the part that is shown."""
        return number >= self.first and len(self.rows) < self.most

    def put(self, at, word):
        """Puts a word into the table."""
        layout = self.layout
        if at < layout.heap_words or at == layout.first["collection set"]:
            if word % 4 == 3 or at >= layout.heap_words:
                self.teller.forget()
        self.table[at] = word

    def note_further(self, at, word, text):
        """Takes down a further word that the event of the last row changes."""
        for column, value in zip(self.further, (len(self.rows) - 1, at, self.value(word), self.texts.number(text))):
            column.append(value)

    def room(self, event):
        """The room that the machine has taken after an event and that is no object yet, as the word of a buffer; None where that stays."""
        at, found = event["at"], event["found"]["word"]
        if at == "TX" and event["won"]:
            region, value = event["of"]["region"], event["value"]["word"]
            return (self.layout.address(region, value) << 32) + self.layout.address(region, found)
        if at == "TS":
            carved = self.table[self.layout.first["room"] + event["machine"] - 1]
            return (next_of(event["value"]["word"]) << 32) + next_of(carved or found)
        stays = at in IN_ROOM or at == "HX" and not event["won"]
        return None if stays else 0

    def open(self):
        """Takes down the words before the first row."""
        if self.initial is None:
            self.initial = array("I", map(self.value, self.table))
            self.phases.append([0, self.table[self.layout.first["phase"]]])
            self.calls += self.open_calls.values()

    def keep(self):
        """Keeps the words, if none were kept yet."""
        if self.behind is None:
            self.behind = (list(self.table), self.last_number, self.pausing)

    def check_number(self, it):
        """Refuses a listing that leaves out events, since what they did to the words is not known."""
        number = it["event"]
        if number <= self.last_number or number != self.last_number + 1 and not self.pausing:
            raise Fault(f"event {number} comes behind event {self.last_number}: the listing has to have all events, from the first on")
        self.last_number = self.events = number

    def take_event(self, it):
        """Takes an event."""
        self.check_number(it)
        number, at, operation = it["machine"], it["at"], it["operation"]
        if not 1 <= number <= self.layout.machines:
            raise Fault(f"there is no machine {number}")
        index = self.layout.index(it["of"], self.table)
        found = it["found"]["word"]
        if self.table[index] != found and not self.pausing:
            self.mismatches += 1
        after = made(operation, found, it)
        if after != self.table[index]:
            self.put(index, after)
        if it["role"] == "control":
            self.pausing = at in ("PL", "PS") or at == "P2" and "again" not in it
        room = self.room(it)
        self.note_row(it, index, after, after != found or operation not in ("load", "exchange") or it.get("won", False))
        if room is not None:
            slot = self.layout.first["room"] + number - 1
            if self.table[slot] != room:
                self.table[slot] = room
                if self.is_row:
                    self.note_further(slot, room, "")

    def note_row(self, it, index, after, writes):
        """Makes a row of an event, if it is shown."""
        self.is_row = self.is_shown(it["event"])
        if not self.is_row:
            self.is_cut = self.is_cut or it["event"] >= self.first
            self.note_early(it)
            return
        self.open()
        row, machine, texts = len(self.rows), it["machine"] - 1, self.texts
        flags = (WON if it.get("won") else LOST if "won" in it else 0) | (AGAIN if "again" in it else 0)
        brings = self.teller.brings(it)
        found = self.teller.value(it["of"], it["found"])
        becomes = self.becomes(it, after, brings, found) if writes else ""
        self.rows.add(
            it["event"], machine, self.places.number(it["at"]), CODES[it["operation"]], index, self.value(after), flags,
            texts.number(self.teller.of(it["of"])), texts.number(brings), texts.number(found), texts.number(telling.says(it)),
            texts.number(becomes) if writes else NOTHING,
        )
        if self.is_folded(row, machine):
            self.is_row = False
            return
        if "won" in it and not it["won"]:
            self.lost.append([row, self.owners.get(index, -1)])
        if writes:
            self.owners[index] = row
        self.note_call(it, row, machine)
        self.note_wait(it, row, machine)
        self.note_unit(it, row, machine)

    def is_folded(self, row, machine):
        """Leaves out the last row if it is a load that only says again what the last two of its machine have said."""
        rows, (last, is_like) = self.rows, self.last_rows[machine]
        like = last is not None and rows.operation[row] == CODES["load"] and all(rows.has_same(name, row, last) for name in LIKE)
        if like and is_like:
            rows.drop()
            self.folded += 1
            return True
        self.last_rows[machine] = (row, like)
        return False

    def becomes(self, it, after, brings, found):
        """What a word is behind an event that has written it, in words."""
        operation = it["operation"]
        if operation in ("store", "swap"):
            return brings
        if operation == "exchange":
            return self.teller.value(it["of"], it["value"])
        if after == it["found"]["word"]:
            return found
        return self.result(it, after)

    def result(self, it, after):
        """What an operation on bits or a number has made, in words."""
        of, value, found = it["of"], dict(it["value"]), it["found"]
        value["word"] = after
        if "regions" in value:
            value["regions"] = [region for region in range(self.layout.regions) if after >> region & 1]
        if "objects" in value:
            names = dict(zip(telling.bits_of(found["word"]), found["objects"]))
            names.update(zip(telling.bits_of(it["value"]["word"]), it["value"]["objects"]))
            value["objects"] = [names.get(bit, {"object": "?"}) for bit in telling.bits_of(after)]
        return self.teller.value(of, value)

    def note_early(self, it):
        """Takes down a call that may be under way when the part begins that is shown."""
        machine = it["machine"] - 1
        if "begins" in it:
            self.open_calls[machine] = [machine, 0, NOTHING, NOTHING, self.texts.number(it["begins"]), 0]
        elif "replies" in it:
            self.open_calls.pop(machine, None)

    def note_call(self, it, row, machine):
        """Takes down where calls begin, are settled and reply."""
        if "begins" in it:
            self.open_calls[machine] = call = [machine, row, NOTHING, NOTHING, self.texts.number(it["begins"]), 0]
            self.calls.append(call)
        if "settles_full_of" in it:
            self.settle(it["settles_full_of"] - 1, row, "full")
        if "settles" in it:
            self.settle(machine, row, it["settles"])
        if "replies" in it and machine in self.open_calls:
            call = self.open_calls.pop(machine)
            call[3], call[5] = row, self.texts.number(it["replies"])

    def settle(self, machine, row, reply):
        """Takes down where a call is settled."""
        if machine in self.open_calls:
            call = self.open_calls[machine]
            call[2], call[5] = row, self.texts.number(reply)

    def note_wait(self, it, row, machine):
        """Takes down how long a machine waits for others."""
        if "again" in it and it["at"] in WAITS:
            if machine not in self.open_waits:
                self.open_waits[machine] = wait = [machine, row, row, self.places.number(it["at"])]
                self.waits.append(wait)
            self.open_waits[machine][2] = row
        elif machine in self.open_waits:
            self.open_waits.pop(machine)[2] = row

    def note_unit(self, it, row, machine):
        """Takes down which unit of work a helper or the control is at."""
        if machine < self.layout.threads:
            return
        at = it["at"]
        if at == "KX" and it.get("won"):
            before = self.rows.place[self.open_units.get(machine, row)]
            what = UNITS.get(self.places.list[before], "unit")
            self.units.append([machine, self.open_units.get(machine, row), row, self.texts.number(f"{what} {it['expect']['word']}")])
            self.open_units[machine] = ~(len(self.units) - 1)
        elif at in UNITS:
            self.open_units[machine] = row
        elif at in IDLE:
            self.open_units.pop(machine, None)
        elif machine in self.open_units and self.open_units[machine] < 0:
            self.units[~self.open_units[machine]][2] = row

    def take_pause(self, it, changes):
        """Takes a pause with the words that it has changed."""
        self.check_number(it)
        if it["changed"] and not changes:
            raise Fault(f"event {it['event']}: the listing does not have the words that a pause has changed; make it with --pauses changed")
        self.pausing = False
        self.made_pauses += 1
        self.is_row = self.is_shown(it["event"])
        written = sorted(changes, key=lambda change: change["of"]["kind"] != "shape")
        indices = {}
        for change in written:
            index = self.layout.index(change["of"], self.table)
            indices[id(change)] = index
            self.put(index, change["value"]["word"])
        self.teller.forget()
        self.put(self.layout.first["pause"], 0)
        if self.is_row:
            self.note_pause(it, changes, indices)
        else:
            self.is_cut = self.is_cut or it["event"] >= self.first

    def note_pause(self, it, changes, indices):
        """Makes a row of a pause."""
        self.open()
        row, machine, texts = len(self.rows), it["machine"] - 1, self.texts
        line = texts.number(telling.pause(it))
        self.rows.add(
            it["event"], machine, self.places.number("P3"), CODES["pause"], self.layout.first["pause"], self.value(0), PAUSE,
            line, 0, 0, 0, texts.number("0"),
        )
        self.owners[self.layout.first["pause"]] = row
        for change in changes:
            index = indices[id(change)]
            text = self.teller.value(change["of"], change["value"])
            self.note_further(index, change["value"]["word"], text)
            self.owners[index] = row
            if change["of"]["kind"] == "phase":
                self.phases.append([row + 1, change["value"]["word"]])
            if change["of"]["kind"] == "answer" and text == "full":
                self.settle(change["of"]["thread"] - 1, row, "full")
        self.pauses.append([row, line, texts.number(f"{it['pause']}: {it['did']}")])
        self.open_waits.pop(machine, None)
        self.open_units.pop(machine, None)

    def take_item(self, it):
        """Takes the beginning of an item of the schedule, or of the rounds; of those before the part that is shown, the last."""
        if self.initial is None and self.first > 1:
            self.items = []
        if it["kind"] == "rounds":
            self.items.append([len(self.rows), "rounds"])
        else:
            self.items.append([len(self.rows), f"{it['item']}: {it['text']}"])


def read(lines, first=1, most=MOST, last=None, more=0):
    """The run that the lines of a listing tell: up to an event if that is given, and so many rows more, before which the words are
    kept."""
    run, waiting, number, stop = None, None, 0, None
    try:
        for number, line in enumerate(lines, 1):
            it = json.loads(line)
            kind = it["kind"]
            if run is None:
                if kind != "head" or it["version"] != 2:
                    raise Fault("the first line of a listing has the kind head and version 2")
                run = Run(it, first, most)
                continue
            if kind == "change":
                waiting[1].append(it)
                continue
            if waiting:
                run.take_pause(*waiting)
                waiting = None
            if last is not None and it.get("event", 0) > last:
                run.keep()
                stop = len(run.rows) + more if stop is None else stop
                if len(run.rows) >= stop:
                    break
            if kind == "event":
                run.take_event(it)
            elif kind == "pause":
                waiting = (it, [])
            elif kind in ("item", "rounds"):
                run.take_item(it)
            elif kind == "end":
                run.end = it
            elif kind == "stuck":
                run.stuck = it
        if waiting:
            run.take_pause(*waiting)
    except Fault as fault:
        raise Fault(f"line {number}: {fault}") from None
    except (ValueError, KeyError, TypeError, IndexError, AttributeError, OverflowError, RecursionError) as fault:
        raise Fault(f"line {number}: no object of a listing ({type(fault).__name__}: {fault})") from None
    if run is None:
        raise Fault("line 1: there is nothing")
    run.open()
    run.keep()
    return run
