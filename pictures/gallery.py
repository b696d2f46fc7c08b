#!/usr/bin/env python3
"""Draws each example at the event where it turns, into examples/pictures/, and lists the pictures in examples/README.md.

usage: gallery.py [--check]

With --check it writes nothing, and fails where a picture or the list is not what it would write.
"""
import pathlib
import re
import subprocess
import sys

sys.dont_write_bytecode = True
TOP = pathlib.Path(__file__).resolve().parent.parent
EXAMPLES = TOP / "examples"
PAGE = EXAMPLES / "README.md"
HEADING = "\n## Pictures\n"
WIDE, EVENTS = 760, 38
# The event that is drawn: that at which the example turns.
MOMENTS = {
    "first": 69, "noted": 69, "race": 54, "apart": 54, "retry": 54, "one_bit": 33, "two_buffers": 33, "filled": 63, "stack": 116,
    "stack_gap": 107, "queue_race": 203, "queue_again": 8713, "limits": 109, "eight": 217, "cut": 54, "no_room": 4172, "collects": 11064,
    "one_pause": 3761, "pause": 794, "inside": 17, "wait": 174, "crowded": 6920, "one_dropped": 6932, "reserve": 307,
    "exchanged": 687, "two_stores": 763, "let_go": 784, "copy_race": 2784, "no_room_to_copy": 1677, "updated": 3950,
    "inserts": 100, "recycled": 3863, "finished": 1742, "half_evacuated": 2632, "threads": 7051, "pinned": 2691, "all_pinned": 4285,
}


def examples():
    """The examples with a trace that is run, in the order of the table: one with a line `answer` is only judged. What a dump is made of,
    or goes on from, is no run whose events are drawn."""
    rows = re.findall(r"^\| `(\w+)` \| `([^`]*)`", PAGE.read_text(), re.M)
    names = [name for name, words in rows if "--dump" not in words and not words.startswith("resume")]
    files = {name: EXAMPLES / f"{name}.trace" for name in names}
    return [name for name in names if files[name].exists() and "answer" not in files[name].read_text().splitlines()]


def drawn(name):
    """The picture of an example."""
    words = [TOP / "shenpicture", "--svg", str(MOMENTS[name]), "--time", str(EVENTS), "--wide", str(WIDE), EXAMPLES / f"{name}.trace"]
    ran = subprocess.run(words, stdout=subprocess.PIPE, check=False)
    if ran.returncode:
        raise SystemExit(f"{name}: shenpicture ends with {ran.returncode}")
    return ran.stdout.decode()


def line(name):
    """The line of the listing at the event that is drawn."""
    number = str(MOMENTS[name])
    words = [TOP / "shensteps", "--no-fold", "--from", number, "--to", number, EXAMPLES / f"{name}.trace"]
    ran = subprocess.run(words, stdout=subprocess.PIPE, check=False, text=True)
    found = [it for it in ran.stdout.splitlines() if it[:6].strip() == number]
    return re.sub(r"  +", "  ", found[0].strip()) if found else f"{number}, within a pause"


def section(names):
    """The list of the pictures."""
    text = HEADING + "\nEach example where it turns: the time round that event, and the heap behind it. `pictures/gallery.py` makes them, and this list;\n"
    text += "[PICTURES.md](../docs/PICTURES.md) says what is drawn, and draws whole runs.\n"
    for name in names:
        text += f"\n**{name}**: `{line(name)}`\n\n![{name}, behind event {MOMENTS[name]}](pictures/{name}.svg)\n"
    return text


def main():
    """Writes or checks all."""
    check, failed, folder = "--check" in sys.argv[1:], False, EXAMPLES / "pictures"
    names = examples()
    wanted = {folder / f"{name}.svg": drawn(name) for name in names}
    wanted[PAGE] = PAGE.read_text().split(HEADING)[0] + section(names)
    folder.mkdir(exist_ok=True)
    for path in sorted(set(folder.glob("*.svg")) - set(wanted)):
        failed = True
        print(f"{path.relative_to(TOP)} is the picture of no example")
    for path, text in wanted.items():
        if path.exists() and path.read_text() == text:
            continue
        if check:
            failed = True
            print(f"{path.relative_to(TOP)} is not what pictures/gallery.py writes now")
        else:
            path.write_text(text)
    print(f"{len(names)} pictures of examples")
    return failed


if __name__ == "__main__":
    sys.exit(main())
