#!/usr/bin/env python3
"""Holds the forms of a listing to one another, and to a graph of objects that never move, on random traces and the examples.

The text with its runs of like lines unfolded is the text without runs; both, and the objects of `--json`, have the same events, begin,
settle and reply the same, and end with the graph and the replies of that graph. What they settle are the entries of the history that
`shenrun` writes, by their numbers, also where a pause is one line; and a replay takes as many events. No answer was taken from the program.

usage: test_unfolding.py [TRACES [SEED]]
"""
import pathlib
import re
import subprocess
import sys

sys.dont_write_bytecode = True
from cases import program, replay  # pylint: disable=wrong-import-position
from listed import machine, objects  # pylint: disable=wrong-import-position
from settling import said, trace  # pylint: disable=wrong-import-position
from soak import history_fails  # pylint: disable=wrong-import-position

TOP = pathlib.Path(__file__).resolve().parent.parent
TRACES = 20
RUN = re.compile(r"[,;]? *(?:these (\d+) lines )?(\d+) times more$")
EVENT = re.compile(r" *(\d+)  (thread \d|helper \d|control) +(\S\S)  ")
PAUSE = re.compile(r"  pause \d+: ")
FORMS = [[], ["--pauses", "full"], ["--columns", "--pauses", "changed"]]
# (behind a word found that fills its column there is one space alone)
ENTRY = re.compile(r"(?:, |settles |(?<=\d) )entry (\d+)")
SAYS = re.compile(r"(?:^|[ ,;] ?)(begins|settles full of|settles|replies) ([^,;]+?)(?=$|, |; |  )")


def text(of, *words):
    """The lines of a listing as text, with one space for several."""
    ran = subprocess.run([program("shensteps"), *words], input=of, stdout=subprocess.PIPE, text=True, check=False)
    return ran.stdout.splitlines()


def between(first, last, step, steps):
    """The line so many steps behind the first, of as many as lead to the last: each number goes on by the same amount."""
    pairs = zip(re.split(r"(\d+)", first), re.split(r"(\d+)", last))
    return "".join(str(int(one) + (int(two) - int(one)) * step // steps) if one.isdigit() else two for one, two in pairs)


def unfolded(lines):
    """The lines of a listing, each run with all its lines."""
    full = []
    for line in lines:
        run = RUN.search(line)
        if not run:
            full.append(line)
            continue
        wide, times = int(run[1] or 1), int(run[2])
        last = [*full[len(full) - wide + 1 :], line[: run.start()]]
        full = full[: len(full) - wide + 1]
        first = full[-wide:]
        full += [between(one, two, step, times) for step in range(1, times + 1) for one, two in zip(first, last)]
    return full


def plain(lines):
    """The lines, with one space for several and none at the end."""
    return [re.sub(" +", " ", line).strip() for line in lines]


def told(lines):
    """What the lines of a listing say of calls: the machine, what is said, and the command or the reply."""
    for line in lines:
        event = EVENT.match(line)
        if event and not PAUSE.search(line):
            for what, it in SAYS.findall(line[event.end() :]):
                yield (it.strip(), "settles", "full") if what == "settles full of" else (event[2], what, it.strip())


def forms_fail(of):
    """What is wrong with the forms of a listing of a trace."""
    for form in FORMS:
        if plain(unfolded(text(of, *form))) != plain(text(of, "--no-fold", *form)):
            return f"unfolded it is another listing, with the words {form}"
    status, listing = objects(of, "--pauses", "full")
    lines = text(of, "--pauses", "full", "--no-fold")
    events = [it for it in listing if it["kind"] == "event"]
    numbered = [it for it in map(EVENT.match, lines) if it and not PAUSE.search(it.string)]
    if [(it["event"], machine(it), it["at"]) for it in events] != [(int(it[1]), it[2], it[3]) for it in numbered]:
        return "text and objects have other events"
    if [it for it in map(said, listing) if it] != list(told(lines)):
        return "text and objects say other things of calls"
    end = next(it for it in listing if it["kind"] == "end")
    if status == 0 and not end["events"] == len(events):
        return "it ends with another count of events"
    return None


def entries_of(of, *words):
    """The entries that the objects of a listing settle, with their numbers: thread and reply; of a pause that is one line, `full`."""
    for it in objects(of, *words)[1]:
        if it["kind"] == "pause":
            yield from ((number, None, "full") for number in it["entries"])
        elif "entry" in it:
            yield it["entry"], it.get("settles_full_of", it.get("index")), it.get("settles", "full")


def entries_fail(of):
    """What is wrong with the entries that a listing settles, by the history that `shenrun` writes."""
    ran = subprocess.run([program("shenrun"), "replay", "--history"], input=of, stdout=subprocess.PIPE, text=True, check=False)
    if ran.returncode:
        return None
    lines = ran.stdout.splitlines()
    history = [(int(line.split()[0]), line.split(" : ")[1]) for line in lines[lines.index("history") + 1 :]]
    # (what a pause settles stands in its line once more)
    full = [it for it in entries_of(of, "--pauses", "full") if it[1]]
    if full != [(number, *entry) for number, entry in enumerate(history)]:
        return "it settles other entries than those of the history"
    if [(number, reply) for number, _, reply in entries_of(of)] != [(number, reply) for number, _, reply in full]:
        return "it settles other entries where a pause is one line"
    if [it[0] for it in entries_of(of, "--calls")] != list(range(len(history))):
        return "it leaves out entries where calls alone are listed"
    shown = [int(it) for line in text(of, "--no-fold") for it in ENTRY.findall(line)]
    if shown != list(range(len(history))):
        return "the text has other numbers of entries"
    return None


def graph_lines(listing):
    """The replies and the graph with which the objects end, as an answer has them."""
    end, graph = (next(it for it in listing if it["kind"] == kind) for kind in ("end", "graph"))
    lines = [f"{thread} {reply}" for thread, replies in enumerate(end["replies"], 1) for reply in replies] + ["graph"]
    for it in graph["objects"]:
        lines.append(" ".join(["object", it["object"], *(to or "-" for to in it["fields"]), "/", *map(str, it["numbers"])]))
    lines += [" ".join(["roots", str(thread), *(to or "-" for to in roots)]) for thread, roots in enumerate(graph["roots"], 1)]
    return lines + [" ".join(["pins", str(thread), *(to or "-" for to in slots)]) for thread, slots in enumerate(graph.get("pins", []), 1)]


def count_fails(of):
    """Whether a replay of a trace takes another count of events than its listing has."""
    status, listing = objects(of)
    events = next(it["events"] for it in listing if it["kind"] == "end")
    counts = [(events, 0), (events - 1, 4)] if status == 0 else []
    if any(replay(of.encode(), steps)[0] != wanted for steps, wanted in counts):
        return "a replay takes another count of events"
    return None


def ends_fail(of):
    """What is wrong with how the listings of a trace end, by a graph whose objects never move."""
    heap = tuple(map(int, of.splitlines()[1].split()[1:3]))
    scripts = {it: [] for it in range(1, int(of.splitlines()[2].split()[1]) + 1)}
    for line in of.splitlines()[3:]:
        if line[0].isdigit():
            scripts[int(line[0])].append(line[2:])
    listing = objects(of, "--pauses", "full")[1]
    why, answer = history_fails(heap, scripts, listing, int(of.split()[1]))
    if why:
        return why
    if "\n".join(graph_lines(listing)) + "\n" != answer:
        return "the objects end with another graph, or with other replies"
    lines = text(of)
    if lines[lines.index("graph") :] != answer.splitlines()[answer.splitlines().index("graph") :]:
        return "the text ends with another graph"
    return None


def main():
    count, seed = map(int, [*sys.argv[1:], TRACES, 0][:2] if len(sys.argv) < 2 else [*sys.argv[1:], 0][:2])
    traces = [(f"trace({it}) of settling.py", trace(it)) for it in range(seed, seed + count)]
    # (what has a line `answer` is no trace alone: it is for the word check)
    examples = [(it.name, it.read_text()) for it in sorted((TOP / "examples").glob("*.trace")) if it.read_text().startswith("shen ")]
    traces += [(name, of) for name, of in examples if "answer" not in of.splitlines()]
    failed, lines, folded = False, 0, 0
    for name, of in traces:
        why = forms_fail(of) or ends_fail(of) or entries_fail(of) or count_fails(of)
        if why:
            failed = True
            print(f"{name}: {why}")
        lines, folded = lines + len(text(of, "--no-fold")), folded + len(text(of))
    print(f"{len(traces)} traces were listed in all forms: {lines} lines, and {folded} with runs")
    return failed


if __name__ == "__main__":
    sys.exit(main())
