#!/usr/bin/env python3
"""Holds ./shenpicture to the listing: lines, heaps, refusals, and what a page shows.

usage: test_pictures.py [--time]

Each line of the examples and of random traces is compared with the text of the listing, and the heap that is folded with that of
--heap-at. Pages of five examples are opened in a headless Chromium at three events each, wide and narrow, light and dark: they have to
show the heap that is drawn without a browser, and the calls, pauses and machines that the listing has. A hostile listing must run no
script. Where there is no Chromium a line says that this was skipped. With --time only times are measured, which fail nothing.
"""
import html.parser
import json
import os
import pathlib
import random
import re
import subprocess
import sys
import tempfile
import time

sys.dont_write_bytecode = True
TOP = pathlib.Path(__file__).resolve().parent.parent
sys.path.insert(0, str(TOP / "pictures"))
from browser import started  # pylint: disable=wrong-import-position
from cases import program  # pylint: disable=wrong-import-position
from settling import command, trace  # pylint: disable=wrong-import-position
import drawing  # pylint: disable=wrong-import-position
import heap  # pylint: disable=wrong-import-position
import lanes  # pylint: disable=wrong-import-position
import page  # pylint: disable=wrong-import-position
import run  # pylint: disable=wrong-import-position

# (what has a line `answer` is no trace alone: it is for the word check)
EXAMPLES = {path.stem: path.read_text() for path in sorted((TOP / "examples").glob("*.trace")) if path.read_text().startswith("shen ") and "answer" not in path.read_text().splitlines()}
OPENED = ["copy_race", "eight", "finished", "let_go", "wait"]
SIZES = [(1600, False), (360, True)]
TRACES = 6
OPERATIONS = ["load", "store", "swap", "add to", "subtract from", "clear in", "set in", "exchange"]
HEAD = '{"kind":"head","version":2,"regions":4,"region_words":64,"reserve":0,"threads":1,"helpers":0,"scripts":[],"schedule":[]}\n'
EVENT = (
    '{"kind":"event","event":%s,"machine":%s,"role":"thread","index":1,"at":"E1","operation":"store",'
    '"of":{"kind":"state","machine":1},"value":{"word":1,"in":true},"found":{"word":0,"in":false},"begins":"gc"}\n'
)
PAUSE = (
    '{"kind":"pause","event":2,"machine":2,"role":"control","at":"P3","pause":1,"cause":"a","allocation_waits":false,"no_room":false,'
    '"did":"b","phase_before":0,"phase_after":1,"set":[],"freed":[],"copied":0,"answered":0,"refused":0,"changed":4,"words":9}\n'
)
# Words, what is read, the status, and what stands in the line on the standard error.
REFUSED = [
    (["--svg", "0"], HEAD, 2, "bad words: "),
    (["--svg", "5", "--html", "x"], HEAD, 2, "bad words: --svg draws one event"),
    (["--wide", "299"], HEAD, 2, "bad words: "),
    (["--svg", "01x"], HEAD, 2, "bad words: "),
    (["--at"], HEAD, 2, "bad words: "),
    (["--colour"], HEAD, 2, "bad words: "),
    (["--time", "20"], HEAD, 2, "bad words: --time goes with --svg"),
    (["nothing.trace"], "", 5, "shenpicture: nothing.trace cannot be read: No such file or directory"),
    (["--html", "/nowhere/page.html"], HEAD + EVENT % (1, 1), 6, "shenpicture: /nowhere/page.html cannot be written: "),
    ([], "heap 1\n", 3, "bad line 1: header wanted"),
    ([], "shen 1\nheap 4 64 0\nthreads 1 0\n1 <script>alert(1)</script>\n", 3, "bad line 4: command wanted"),
    ([], "{}\n", 3, "shenpicture: line 1: no object of a listing"),
    ([], HEAD.replace('"version":2', '"version":1'), 3, "shenpicture: line 1: the first line of a listing has the kind head and version 2"),
    ([], HEAD + "{", 3, "shenpicture: line 2: no object of a listing"),
    ([], HEAD + "[" * 100000, 3, "shenpicture: line 2: no object of a listing"),
    ([], HEAD + EVENT % (2, 1), 3, "shenpicture: line 2: event 2 comes behind event 0: the listing has to have all events"),
    ([], HEAD + EVENT % (1, 3), 3, "shenpicture: line 2: there is no machine 3"),
    ([], HEAD + EVENT % (1, 1) + PAUSE, 3, "shenpicture: line 3: event 2: the listing does not have the words that a pause has changed"),
    ([], HEAD, 3, "shenpicture: there is no event from 1 on: the run has 0"),
    (["--svg", "2"], HEAD + EVENT % (1, 1), 3, "shenpicture: there is no event 2: the run has 1"),
]
HOSTILE = "</script><script>window.hacked=1</script><img src=x onerror=window.hacked=1>&quot;'\"\u2028"


def listed(text, *words):
    """The lines that the listing writes of a trace."""
    ran = subprocess.run([program("shensteps"), *words], input=text, stdout=subprocess.PIPE, check=False, text=True)
    return ran.stdout.splitlines()


def objects(text, *words):
    """The lines of a listing that are objects."""
    return [line for line in listed(text, "--json", *words) if line.startswith("{")]


def line(it, row):
    """The line of a row, as the text of the listing has it."""
    rows, texts = it.rows, it.texts.list
    text = f"{rows.number[row]:6}  {it.layout.machine(rows.machine[row] + 1):9} {it.places.list[rows.place[row]]}  "
    if rows.flags[row] & run.PAUSE:
        return text + texts[rows.of[row]]
    brings = texts[rows.brings[row]]
    text += f"{OPERATIONS[rows.operation[row]]} {texts[rows.of[row]]}{': ' + brings if brings else ''}"
    return f"{f'{text:67} {texts[rows.found[row]]}':85} {texts[rows.says[row]]}".rstrip()


def wrong_lines(name, text, it):
    """Where a line is not that of the listing."""
    wanted = [each for each in listed(text, "--no-fold") if each[:6].strip().isdigit()]
    lines, every = [line(it, row) for row in range(len(it.rows))], len(wanted)
    numbers = set(it.rows.number)
    wanted = [each for each in wanted if int(each[:6]) in numbers]
    for mine, other in zip(lines, wanted):
        if mine != other:
            yield f"{name}: the line is not that of the listing:\n{mine}\n{other}"
            return
    if (len(lines), len(lines) + it.folded) != (len(wanted), every):
        yield f"{name}: {len(lines)} lines and {it.folded} that are left out, and the listing has {every}"
    if it.mismatches:
        yield f"{name}: {it.mismatches} events find other words than those that are folded"


def wrong_heap(name, text, lines, number):
    """Where the heap that is folded is not that of the listing."""
    it = run.read(lines, last=number)
    if it.pausing:
        return
    told = next(json.loads(each) for each in objects(text, "--heap-at", str(number), "--from", str(number), "--to", str(number)) if '"kind":"heap"' in each)
    # How much lives a picture does not say; and words that are carved it draws as room.
    told["regions"] = [{key: each[key] for key in each if key not in ("live", "garbage")} for each in told["regions"]]
    for region in told["regions"]:
        pieces = [(each["kind"], each.get("machine", 0), each["offset"], each["words"]) for each in region["others"]]
        region["others"] = [("room" if kind in ("carved", "in hand") else kind, *piece) for kind, *piece in pieces]
    told["copiers"], told["asked"] = told["copiers"]["word"], told["asked"]["word"]
    for key, value in heap.Heap(it.layout, it.table).state().items():
        if value != told[key]:
            yield f"{name}, event {number}: {key} of the heap is {value}, and the listing has {told[key]}"


def check_runs():
    """What is wrong with the runs of examples and of random traces."""
    rand = random.Random(1)
    for name, text in {**EXAMPLES, **{f"trace({seed}) of settling.py": trace(seed) for seed in range(TRACES)}}.items():
        lines = objects(text, "--pauses", "changed")
        it = run.read(lines)
        yield from wrong_lines(name, text, it)
        for _ in range(1 if name in EXAMPLES else 6):
            yield from wrong_heap(name, text, lines, rand.choice(it.rows.number))


def check_refusals():
    """Which refusals are other ones."""
    for words, text, status, wanted in REFUSED:
        ran = subprocess.run([TOP / "shenpicture", *words], input=text, capture_output=True, text=True, check=False, cwd=TOP)
        if ran.returncode != status or not any(each.startswith(wanted) for each in ran.stderr.splitlines()):
            yield f"shenpicture {words} of {text[:60]!r} ends with {ran.returncode}: {ran.stderr!r}"


class Scripts(html.parser.HTMLParser):
    """The elements of a page that could run something."""

    def __init__(self):
        super().__init__()
        self.scripts, self.others = 0, []

    def handle_starttag(self, tag, attrs):
        self.scripts += tag == "script"
        self.others += [name for name, value in attrs if name.startswith("on") or str(value).startswith("javascript:")]
        self.others += [tag] if tag in ("img", "iframe", "object", "embed", "base", "link") else []


def hostile():
    """A page of a listing each of whose texts is hostile, under a hostile name."""
    text = json.dumps(HOSTILE)[1:-1]
    lines = [HEAD, json.dumps({"kind": "item", "item": HOSTILE, "text": HOSTILE})]
    for number, key in enumerate(["begins", "settles", "replies"], 1):
        lines.append((EVENT % (number, 1)).replace('"E1"', f'"{text}"').replace('"begins":"gc"', f'"{key}":"{text}"'))
    field = {"kind": "field", "index": HOSTILE, "object": HOSTILE, "new": True, "region": 0, "offset": 0}
    for number, of in enumerate([{"kind": "name", "object": HOSTILE, "region": 0, "offset": 0}, {**field, "index": 1}], 4):
        value = {"word": 64, "object": HOSTILE, "region": 0, "offset": 0}
        lines.append(json.dumps({"kind": "event", "event": number, "machine": 1, "role": HOSTILE, "at": HOSTILE, "operation": "store",
                                 "of": of, "value": value, "found": value}))
    lines.append(json.dumps({"kind": "stuck", "item": HOSTILE, "text": HOSTILE}))
    return page.page(run.read(lines), HOSTILE)


def check_hostile():
    """What a hostile listing gets into a page."""
    it = Scripts()
    it.feed(hostile())
    if (it.scripts, it.others) != (2, []):
        yield f"a hostile listing makes {it.scripts} scripts, and {it.others}"


def moments(it):
    """Three events of a run: that at which the page opens, the first, and one before the end."""
    return [page.start(it, None), 0, len(it.rows) * 9 // 10]


def drawn(it, listing, row, width):
    """The heap behind a row, as it is drawn without a browser."""
    behind = run.read(listing, last=it.rows.number[row])
    return drawing.Drawing(heap.Heap(behind.layout, behind.table), width, page.never_used(it)).draw().content()


def time_drawn(it, row, width, label, zoom, left):
    """The time round a row, as it is drawn without a browser."""
    words = [word for word in page.followed(it) if word[3]]
    time_lanes = lanes.Lanes(it, page.machines(it.layout), words, width, label)
    time_lanes.zoom, time_lanes.left, time_lanes.cursor = zoom, left, row
    return time_lanes.draw()


SEEN = """(() => { const all = (text) => [...document.querySelectorAll(text)], lanes = page.lanes;
  return { row: page.row, at: document.querySelector("#at").textContent, line: document.querySelector("#line").textContent,
    machines: all("#lanes .machine").map((it) => it.textContent), objects: all("#heap .object").length, regions: all("#heap .region").length,
    bars: all("#heap .object rect").length, frames: all("#heap .frame").length, width: document.documentElement.scrollWidth, sees: innerWidth,
    words: all("#lanes .strip").length, lanes: [lanes.width, lanes.label, lanes.zoom, lanes.left], time: lanes.draw(), heapWidth: page.heapWidth, drawing: new Drawing(page.shown, page.heapWidth, page.run.low).draw().content() }; })()"""


def differs(name, what, got, wanted):
    """What is another one than is wanted."""
    if got != wanted:
        got, wanted = str(got), str(wanted)
        same = len(os.path.commonprefix([got, wanted]))
        yield f"{name}: {what} is {got[max(same - 60, 0):][:300]}, and not {wanted[max(same - 60, 0):][:300]}"


def check_moment(browser, name, it, listing, row):
    """What a page shows otherwise at a row."""
    browser.value(f"page.go({row}), new Promise((done) => requestAnimationFrame(() => requestAnimationFrame(done))).then(() => 0)")
    seen = browser.value(SEEN)
    name = f"{name}, event {it.rows.number[row]}"
    yield from differs(name, "the row", seen["row"], row)
    yield from differs(name, "the count", seen["at"], f"event {it.rows.number[row]} of {it.events}")
    yield from differs(name, "the line", seen["line"], line(it, row))
    yield from differs(name, "the list of machines", seen["machines"], [it.layout.machine(number) for number in range(1, it.layout.machines + 1)])
    wanted = drawn(it, listing, row, seen["heapWidth"])
    yield from differs(name, "the heap", seen["drawing"], wanted)
    yield from differs(name, "the picture of time", seen["time"], time_drawn(it, row, *seen["lanes"]))
    yield from differs(name, "the number of objects", seen["objects"], wanted.count('<g class="object'))
    yield from differs(name, "the number of frames", seen["frames"], wanted.count('class="frame"'))
    yield from differs(name, "the number of regions", seen["regions"], it.layout.regions)
    yield from differs(name, "the number of words", seen["words"], sum(word[3] for word in page.followed(it)))
    if seen["width"] > seen["sees"]:
        yield f"{name}: the page is {seen['width']} pixels wide, and {seen['sees']} are seen"


def check_all_seen(browser, name, it):
    """What the whole run shows otherwise: calls, pauses, exchanges, and each line."""
    browser.key("0")
    told = browser.value("[page.lanes.width, page.lanes.label, page.lanes.zoom, page.lanes.left, page.row, page.lanes.draw()]")
    yield from differs(name, "the picture of all time", told[5], time_drawn(it, told[4], *told[:4]))
    seen = browser.value("""(() => { const all = (text) => document.querySelectorAll("#lanes " + text).length;
      return [all(".call"), all(".pause"), all(".settles"), all(".link"), Array.from({ length: page.run.count }, (_, row) => page.run.line(row))]; })()""")
    yield from differs(name, "the list of lines", seen[4], [line(it, row) for row in range(len(it.rows))])
    yield from differs(name, "the number of pauses", seen[1], len(it.pauses))
    if len(it.calls) < 30:
        yield from differs(name, "the number of calls", seen[0], len(it.calls))
        yield from differs(name, "the number of replies settled", seen[2], sum(call[2] != run.NOTHING for call in it.calls))
    yield from differs(name, "whether there are lines to winners", seen[3] > 0, any(winner >= 0 for _, winner in it.lost))


def check_seeks(browser, name, it):
    """Whether the words behind an event are others where they are come to by a jump."""
    rand = random.Random(2)
    rows = [rand.randrange(len(it.rows)) for _ in range(300)]
    wrong = browser.value(f"""(() => {{ const run = page.run, at = new Map(), rows = {rows};
      run.interval = 16; run.table.set(run.kept[0]); run.further = 0; run.kept = [run.table.slice()]; run.furtherAt = [0];
      for (let row = 0; row < run.count; row += 1) {{
        run.step(row); at.set(row, run.table.join());
        if ((row + 1) % 16 === 0) {{ run.kept.push(run.table.slice()); run.furtherAt.push(run.further); }}
      }}
      run.at = run.count - 1;
      return rows.filter((row) => {{ run.seek(row); return run.table.join() !== at.get(row); }}); }})()""")
    yield from differs(name, "the list of events with other words", wrong, [])


def check_keys(browser, name, it):
    """What keys and clicks do otherwise."""
    def after(key):
        browser.key(key)
        return browser.value("page.row")
    begins, pauses = sorted(call[1] for call in it.calls), [each[0] for each in it.pauses]
    yield from differs(name, "the row behind Home", after("Home"), 0)
    yield from differs(name, "the row behind Right", after("ArrowRight"), 1)
    yield from differs(name, "the row behind Left", after("ArrowLeft"), 0)
    yield from differs(name, "the row of the next call", after("Shift+ArrowRight"), next(row for row in begins if row > 0))
    yield from differs(name, "the row of the next pause", after("PageDown"), pauses[0])
    yield from differs(name, "the row behind End", after("End"), len(it.rows) - 1)
    yield from differs(name, "the row of the pause before", after("PageUp"), pauses[-1])
    browser.key("0")
    row = browser.value('(() => { const it = document.querySelector("#lanes .settles"); it.dispatchEvent(new MouseEvent("click", { bubbles: true })); return Number(it.dataset.row); })()')
    yield from differs(name, "the row that was clicked", browser.value("new Promise((done) => requestAnimationFrame(() => done(page.row)))"), row)
    told = browser.value("""(() => { document.querySelector("#heap .object rect").dispatchEvent(new MouseEvent("click", { bubbles: true }));
      return document.querySelector("#more").textContent; })()""")
    if not re.match(r"\d+\.\d+: \d+ words at region ", told):
        yield f"{name}: a click on an object says {told!r}"


def check_page(browser, folder, name):
    """What is wrong with the page of an example."""
    listing = objects(EXAMPLES[name], "--pauses", "changed")
    it = run.read(listing)
    path = pathlib.Path(folder) / f"{name}.html"
    path.write_text(page.page(it, f"{name}.trace"), encoding="utf-8")
    for width, dark in SIZES:
        browser.size(width, 900, dark)
        browser.open(path)
        for row in moments(it):
            yield from check_moment(browser, f"{name}, {width} pixels", it, listing, row)
        if width == SIZES[0][0]:
            yield from check_all_seen(browser, name, it)
            yield from check_keys(browser, name, it)
            yield from check_seeks(browser, name, it)
            if len(browser.call("Page.printToPDF", printBackground=True)["data"]) < 10000:
                yield f"{name}: hardly anything is printed"
        if browser.said or browser.loaded != [f"file://{path}"]:
            yield f"{name}: the console has {browser.said}, and {browser.loaded} was loaded"


def check_hostile_page(browser, folder):
    """What a hostile listing does in a page."""
    path = pathlib.Path(folder) / "hostile.html"
    path.write_text(hostile(), encoding="utf-8")
    browser.size(1600, 900)
    browser.open(path)
    for row in range(5):
        browser.value(f"page.go({row}), new Promise((done) => requestAnimationFrame(() => requestAnimationFrame(done))).then(() => 0)")
        for it in ("#heap .object", "#lanes .call"):
            browser.value(f'document.querySelector("{it}")?.dispatchEvent(new MouseEvent("click", {{ bubbles: true }})), 0')
    seen = browser.value('[window.hacked === undefined, document.querySelectorAll("img, body script").length, document.title, !document.querySelector("#fault").hidden]')
    yield from differs("a hostile listing", "what the page has", [*seen[:2], seen[3]], [True, 2, False])
    yield from differs("a hostile listing", "the title", seen[2].split(), HOSTILE.split())
    if browser.said or len(browser.loaded) != 1:
        yield f"a hostile listing: the console has {browser.said}, and {browser.loaded} was loaded"


def check_pages():
    """What is wrong in a browser."""
    browser = started()
    if not browser:
        return
    try:
        with tempfile.TemporaryDirectory() as folder:
            for name in OPENED:
                yield from check_page(browser, folder, name)
            yield from check_hostile_page(browser, folder)
        print(f"pages of {len(OPENED)} examples were opened, and a hostile one")
    finally:
        browser.close()


def long_trace(count):
    """A trace of four threads, so many commands each."""
    rand = random.Random(7)
    lines = ["shen 1", "heap 8 64 1", "threads 4 1"]
    for thread in range(1, 5):
        lines += [f"{thread} {command(rand, [(0, 1), (1, 0), (2, 2), (16, 16)])}" for _ in range(count)]
    return "\n".join(lines) + "\n"


def measure():
    """Measures how long a page takes, of runs with so many commands a thread: to be made, to open, and to move by 10,000 events."""
    browser = started()
    if not browser:
        return
    with tempfile.TemporaryDirectory() as folder:
        for count in (20, 700):
            path = pathlib.Path(folder) / f"{count}.html"
            begin = time.monotonic()
            it = run.read(objects(long_trace(count), "--pauses", "changed"))
            path.write_text(page.page(it, "a long run"), encoding="utf-8")
            made = time.monotonic() - begin
            browser.size(1600, 900)
            begin = time.monotonic()
            browser.open(path)
            opened = time.monotonic() - begin
            moved = browser.value("""(async () => { const begin = performance.now(), last = Math.min(10000, page.run.count - 1);
              for (let row = 0; row <= last; row += 1) { page.parts.slider.value = row; page.parts.slider.dispatchEvent(new Event("input")); if (row % 500 === 0) await new Promise(requestAnimationFrame); }
              await new Promise(requestAnimationFrame); return [performance.now() - begin, page.row]; })()""")
            back = browser.value("(() => { const begin = performance.now(); page.row = 5; page.draw(); return performance.now() - begin; })()")
            print(f"{len(it.rows)} events listed of {it.events}: made in {made:.1f} s, {path.stat().st_size / 1e6:.1f} MB, opened in {opened:.2f} s; the slider moved to event {moved[1]}"
                  f" in {moved[0]:.0f} ms; a jump back took {back:.0f} ms; {browser.said}")
    browser.close()


def main():
    """Checks or measures."""
    if "--time" in sys.argv[1:]:
        return measure()
    failed = False
    for check in (check_refusals, check_hostile, check_runs, check_pages):
        for fault in check():
            failed = True
            print(fault)
    print(f"the pictures of {len(EXAMPLES)} examples and {TRACES} random traces were held to the listing")
    return failed


if __name__ == "__main__":
    os.chdir(TOP)
    sys.exit(main())
