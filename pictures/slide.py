"""The picture of a heap at one event, and of the time round it, as a file of its own."""
import pathlib
import re
from html import escape

from colours import colours
from drawing import Drawing
from heap import PHASES, Heap
from lanes import Lanes
from page import HATCHED, is_dull, followed, machines, start

HERE = pathlib.Path(__file__).resolve().parent
CAPTION, GAP = 26, 10
LABEL, WORDS = 130, 4


def style():
    """The rules of the picture, with the colours that it uses."""
    rules = (HERE / "heap.css").read_text() + (HERE / "time.css").read_text()
    return "\n" + colours(".heap-picture", set(re.findall(r"var\((--[\w-]+)\)", rules))) + rules


def lanes(run, number, width, units):
    """The time round an event: its lanes, and the words that are written there."""
    row = start(run, number)
    it = Lanes(run, machines(run.layout), [], width, LABEL)
    it.look(row, units)
    begin, end = it.row_at(LABEL), it.row_at(width)
    for word in followed(run):
        is_written = any(begin <= write[0] <= end for write in it.writes(word[0]))
        if is_written and not is_dull(run.layout, word[0]) and len(it.words) < WORDS:
            it.words.append(word)
    return it


def slide(run, name, width, units=0):
    """The heap of a run behind the event up to which it was read, with a caption; before it so many units of time, if that is asked for."""
    table, number, pausing = run.behind
    heap = Heap(run.layout, table)
    drawing = Drawing(heap, width, range(run.layout.regions)).draw()
    phase = f"phase {heap.phase}, {PHASES[heap.phase] if heap.phase < len(PHASES) else '?'}"
    caption = f"{name}, behind event {number}: {phase}" + (", within a pause" if pausing else "")
    time, down = "", CAPTION
    if units:
        it = lanes(run, number, width, units)
        time = f'<defs>{HATCHED}</defs><g class="time" transform="translate(0,{CAPTION})">{it.draw()}</g>'
        down += it.height + GAP
    height = drawing.height + down
    return (
        f'<svg xmlns="http://www.w3.org/2000/svg" class="heap-picture" role="img" viewBox="0 0 {width} {height}" width="{width}" height="{height}">'
        f"<title>{escape(caption)}</title><style>{style()}</style>"
        f'<rect class="paper" width="{width}" height="{height}" rx="6"/><text class="caption" x="8" y="17">{escape(caption)}</text>'
        f'{time}<g transform="translate(0,{down})">{drawing.content()}</g></svg>\n'
    )
