"""The page of a run: one file, which loads nothing from elsewhere."""
import base64
import hashlib
import json
import pathlib
import re
import sys
import zlib
from array import array
from html import escape

from colours import chosen
from run import NOTHING, Columns

# What hatches a machine that waits.
HATCHED = '<pattern id="hatched" width="6" height="6" patternUnits="userSpaceOnUse" patternTransform="rotate(45)"><path d="M0,0V6" class="hatch-line"/></pattern>'
HERE = pathlib.Path(__file__).resolve().parent
# The most words that a page offers to follow, and how many of these it follows at first.
OFFERED, FOLLOWED = 60, 4
# The kinds of words that are followed only if somebody asks.
DULL = {"state", "threads left", "pause", "end", "room", "asked for", "claimed work", "grey", "black", "buffer count", "buffer entry", "root", "buffer", "top"}


def packed(numbers):
    """Numbers of 32 bits, deflated, in base64."""
    numbers = array("I", numbers)
    if sys.byteorder == "big":
        numbers.byteswap()
    return base64.b64encode(zlib.compress(numbers.tobytes(), 6)).decode()


class Followed:
    """What is known of a word: who wrote it and how often, whether an exchange of it was lost, and how an access called it."""

    def __init__(self):
        self.writers, self.writes, self.lost, self.label, self.before = set(), 0, 0, 0, None


def is_dull(layout, index):
    """Whether a word is followed only if somebody asks."""
    return index >= layout.heap_words and max((at, kind) for kind, at in layout.first.items() if at <= index)[1] in DULL


def followed(run):
    """The words that a page offers to follow: the index, the label, the value before all, and whether it is followed at first."""
    rows, known = run.rows, {}
    new = {number for number, text in enumerate(run.texts.list) if text.endswith("of the new object") or " of the copy @" in text}
    lost = {row for row, _ in run.lost}
    for row in range(len(rows)):
        if rows.operation[row] == 8:
            continue
        index, label = rows.word[row], rows.of[row]
        it = known.get(index)
        if it is None:
            it = known[index] = Followed()
            it.before = rows.found[row]
        if not it.label or it.label in new:
            it.label = label
        if row in lost:
            it.lost += 1
            it.label = label
        if rows.becomes[row] != NOTHING and label not in new:
            it.writers.add(rows.machine[row])
            it.writes += 1

    def interest(item):
        index, it = item
        return (-it.lost, is_dull(run.layout, index), -len(it.writers), -it.writes, index)

    offered = sorted(((index, it) for index, it in known.items() if it.writes), key=interest)[:OFFERED]
    phase = run.layout.first["phase"]
    words, chosen = [], 0
    for index, it in offered:
        is_first = chosen < FOLLOWED and not is_dull(run.layout, index)
        chosen += is_first
        words.append([index, it.label, it.before, bool(is_first)])
    if phase in known and not any(word[0] == phase for word in words):
        words.append([phase, known[phase].label, known[phase].before, len(run.pauses) > 0])
    return told_apart(run, words)


def told_apart(run, words):
    """Words, those of one label with their places besides."""
    labels = [word[1] for word in words]
    for word in words:
        if labels.count(word[1]) > 1 and word[0] < run.layout.heap_words:
            region, offset = divmod(word[0], run.layout.region_words)
            word[1] = run.texts.number(f"{run.texts.list[word[1]]}, word @{region}+{offset}")
    return words


def start(run, at):
    """The row at which a page opens: that of an event, if one is wanted; else the first moment of a race, or the last event."""
    rows = run.rows
    if at is not None:
        return max((row for row in range(len(rows)) if rows.number[row] <= at), default=0)
    free = run.layout.first["free regions"]
    for row, _ in run.lost:
        if rows.word[row] != free:
            return row
    return run.lost[0][0] if run.lost else len(rows) - 1


def count(number, thing):
    """A number of things, as `1 event` and `2 events`."""
    return f"{number} {thing}{'' if number == 1 else 's'}"


def sizes(run):
    """The heap in words."""
    head = run.head
    kept = f", {head['reserve']} of them kept for copies" if head["reserve"] else ""
    text = f"{head['regions']} regions of {head['region_words']} words{kept}; {count(head['threads'], 'thread')}, {count(head['helpers'], 'helper')}"
    return f"{text}; {count(run.events, 'event')}, {count(run.made_pauses, 'pause')}"


def notes(run):
    """What a reader has to know before the rest: that the run is cut, or cannot go on, or that a part is shown."""
    texts = []
    if run.is_cut or run.first > 1:
        shown = f"{run.rows.number[0]} to {run.rows.number[-1]}" if len(run.rows) else "none"
        texts.append(f"This page shows events {shown} of {run.events}.")
    if run.stuck:
        texts.append(f"The schedule cannot go on: item {run.stuck['item']}, {run.stuck['text']}, never ends.")
    elif run.end and not run.end["finished"]:
        texts.append(f"The run is cut after {run.events} events.")
    return "".join(f'<p class="note">{escape(text)}</p>' for text in texts)


def machines(layout):
    """The machines, each with its name and the class of its colour."""
    def kind(number):
        if number <= layout.threads:
            return f"t{number}"
        return f"h{number - layout.threads}" if number < layout.machines else "c"
    return [{"name": layout.machine(number), "kind": kind(number)} for number in range(1, layout.machines + 1)]


def never_used(run):
    """The regions that are free in all the run."""
    layout, values = run.layout, list(run.values)
    first = layout.first["free regions"]
    free = values[run.initial[first]]
    for words, after in ((run.rows.word, run.rows.after), (run.further[1], run.further[2])):
        for index, value in zip(words, after):
            if index == first:
                free &= values[value]
    return [region for region in range(layout.regions) if free >> region & 1]


def told(run, at):
    """All that the page is told of the run."""
    layout = run.layout
    columns = {name: getattr(run.rows, name) for name in Columns.NAMES}
    columns.update(zip(["furtherRow", "furtherWord", "furtherValue", "furtherText"], run.further))
    columns["initial"] = run.initial
    columns["low"] = [word & NOTHING for word in run.values]
    columns["high"] = [word >> 32 & NOTHING for word in run.values]
    return {
        "layout": {"regions": layout.regions, "region_words": layout.region_words, "threads": layout.threads, "first": layout.first},
        "machines": machines(layout), "events": run.events, "start": start(run, at), "texts": run.texts.list, "places": run.places.list, "low": never_used(run),
        "items": run.items, "calls": run.calls, "pauses": run.pauses, "waits": run.waits, "units": run.units, "lost": run.lost,
        "phases": run.phases, "words": followed(run), "columns": {name: packed(column) for name, column in columns.items()},
    }


def page(run, name, at=None):
    """The page of a run, under a name."""
    script = "\n".join((HERE / part).read_text() for part in ["state.js", "drawing.js", "lanes.js", "page.js"])
    run_text = json.dumps(told(run, at), separators=(",", ":"))
    for sign in "<>&\u2028\u2029":
        run_text = run_text.replace(sign, f"\\u{ord(sign):04x}")
    parts = {
        "POLICY": base64.b64encode(hashlib.sha256(script.encode()).digest()).decode(), "TITLE": escape(name), "SIZES": escape(sizes(run)),
        "NOTES": notes(run), "HATCHED": HATCHED, "STYLE": chosen(":root") + "".join((HERE / part).read_text() for part in ["page.css", "time.css", "heap.css"]), "SCRIPT": script, "RUN": run_text,
    }
    return re.sub("@([A-Z]+)@", lambda it: parts[it.group(1)], (HERE / "page.html").read_text())
