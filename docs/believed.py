#!/usr/bin/env python3
"""Counts what has to be believed: the definitions to which the clause `headline` leads, and their lines, without those of std.

usage: believed.py            writes the counts into docs/DEFINITIONS.md, between its lines <!-- counts --> and <!-- end -->
       believed.py --check    says whether they stand there; it ends with 1 where not
       believed.py --list     prints the definitions, crate by crate

The first count is of what is behind the names of GRAPH: that some legal history has these scripts and this text. The second is of what
comes besides, where the history is that of the events of a schedule, or of some events: so much is behind the answers of `replay`, `run`
and `churn`. The third is of what the clause says besides, of the other modes. A definition cites another where its text has the name of
one of its own file, or of one that the file imports. Types that code declares are counted apart.
"""
import os
import re
import sys

TOP = os.path.dirname(os.path.dirname(os.path.abspath(__file__)))
PAGE = os.path.join(TOP, "docs", "DEFINITIONS.md")
MARKS = re.compile(r"(<!-- counts -->\n)(.*?)(<!-- end -->)", re.S)
# What says that some legal history has these scripts and this text; and the rest of the clause.
GRAPH = [
    ("trace_reading", "Grammar", "Reads"),
    ("trace_reading", "Grammar", "Came"),
    ("shen_graph", "History", "Follows"),
    ("shen_graph", "Crowd", "IsLegalHistory"),
    ("trace_text", "Answer", "IsAnswerText"),
    ("trace_runs", "Words", "Asks"),
    ("trace_runs", "Churned", "IsChurned"),
]
EVENTS = [("trace_runs", "Replayed", "IsReplayed"), ("trace_runs", "Replayed", "IsRun")]
# The whole clause.
HEADLINE = [("trace_runs", "Answered", "HasAnswered")]
HEAD = re.compile(r"^ *(?:(?:abbrev|unfoldable|opaque|pub|data|record) )+([^\s:(){}]+)")
IMPORT = re.compile(r"^(?:pub )?use Rattle\.(\w+)\.specs\.([\w.]+?)(?:\.\{([^}]*)\}| as (\w+))?$", re.M)
MODULES = {}


def module(crate, name):
    """A file of definitions: each name's text, and what its imported names are."""
    if (crate, name) in MODULES:
        return MODULES[crate, name]
    path = os.path.join(TOP, "crates", crate, "specs", *name.split(".")) + ".antt"
    texts, names, aliases = {}, {}, {}
    if not os.path.exists(path):
        # (a file of another crate that this one hands on whole)
        lib = os.path.join(TOP, "crates", crate, "specs", "Lib.antt")
        with open(lib, encoding="utf-8") as file:
            handed = re.search(rf"^pub use Rattle\.(\w+)\.specs\.({re.escape(name)})$", file.read(), re.M)
        if handed:
            MODULES[crate, name] = module(handed[1], handed[2])
            return MODULES[crate, name]
    if os.path.exists(path):
        with open(path, encoding="utf-8") as file:
            text = file.read()
        for of, other, listed, alias in IMPORT.findall(text):
            if alias:
                aliases[alias] = (of, other)
            for item in listed.split(","):
                old, _, new = item.strip().partition(" as ")
                if old:
                    names[new or old] = (of, other, old)
        at = None
        for line in text.splitlines():
            found = HEAD.match(line)
            if found and found[1] != "use" and not line.startswith(("use", "pub use", "  pub ")):
                at = found[1]
            if at and line.strip() and not line.lstrip().startswith(("--", "use ", "pub use ")):
                texts.setdefault(at, []).append(line)
    MODULES[crate, name] = texts, names, aliases
    return MODULES[crate, name]


def reached(start):
    """All that these definitions cite, themselves among them, and the types of code that are named."""
    todo, found, types = list(start), {}, set()
    for crate, name, word in todo:
        if (crate, name, word) in found or crate == "std":
            continue
        if name.startswith("declared"):
            types.add((crate, name, word))
            continue
        texts, names, aliases = module(crate, name)
        if word not in texts:
            # (handed on by `pub use`, or a constructor of a `data` of that file)
            if word in names:
                todo.append(names[word])
            todo += [(crate, name, it) for it, lines in texts.items() if any(re.match(rf" +{re.escape(word)} :", line) for line in lines)]
            continue
        found[crate, name, word] = len(texts[word])
        for token in re.findall(r"(\w+)\.(\w+)|([^\s(){}.,;:×→≡]+)", "\n".join(texts[word])):
            if token[0] in aliases:
                todo.append((*aliases[token[0]], token[1]))
            for it in (token[0], token[1], token[2]):
                if it in texts:
                    todo.append((crate, name, it))
                elif it in names:
                    todo.append(names[it])
    return found, types


def main():
    if sys.argv[1:] not in ([], ["--check"], ["--list"]):
        print("usage: believed.py [--check | --list]", file=sys.stderr)
        return 2
    graph, graph_types = reached(GRAPH)
    runs, run_types = reached(GRAPH + EVENTS)
    whole, whole_types = reached(GRAPH + EVENTS + HEADLINE)
    if "--list" in sys.argv:
        for key in sorted(whole):
            print("graph " if key in graph else "events" if key in runs else "modes ", *key, whole[key])
        return 0
    rest = {key: lines for key, lines in runs.items() if key not in graph}
    modes = {key: lines for key, lines in whole.items() if key not in runs}
    counts = (
        f"That some legal history has these scripts and this text: {len(graph)} definitions in {sum(graph.values())} lines, over {len(graph_types)} types and\n"
        f"variants that code declares. That it is the history of the events of a schedule, or of some events: {len(rest)} more in {sum(rest.values())} lines, and\n"
        f"{len(run_types - graph_types)} more of code. What the clause `headline` says besides, of a history behind the answer, of dumps, of a queue and of\n"
        f"a check: {len(modes)} more in {sum(modes.values())} lines, and {len(whole_types - run_types)} of code. Counted by `docs/believed.py`, without std's.\n"
    )
    with open(PAGE, encoding="utf-8") as file:
        page = file.read()
    new = MARKS.sub(lambda it: it[1] + counts + it[3], page)
    if "--check" in sys.argv:
        if new != page:
            print("docs/DEFINITIONS.md has other counts: docs/believed.py writes them")
        else:
            print(f"docs/DEFINITIONS.md has the counts of {len(whole)} definitions")
        return int(new != page)
    with open(PAGE, "w", encoding="utf-8") as file:
        file.write(new)
    return 0


sys.exit(main())
