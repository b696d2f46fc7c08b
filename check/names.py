#!/usr/bin/env python3
"""Looks whether names of files and of definitions tell their place: names that stand in many crates, or for several ideas.

usage: names.py            prints files whose name stands in more than three crates, and definitions that two files or more define
       names.py --check    the same in two lines, and ends with 1 where there are more than the limits below allow

A definition is what a file of specs/ declares for others: those are the words that contracts cite. Words of a convention are left
out, which mean the same of each part, role or type, and so do names of files; both lists stand below, each word with what it means.
What proofs/ defines besides is counted and not limited.
"""
import os
import re
import sys

TOP = os.path.dirname(os.path.dirname(os.path.abspath(__file__)))
MOST_FILES = 0
MOST_NAMES = 60
# Names of files that mean the same in each crate.
FILES = {
    "Lib": "the list of a folder's files",
    "Rows": "the rows of a part or role: its access at each spot, and what follows",
    "Seen": "what callers know of a machine",
    "State": "what callers know of a type",
    "Fit": "by which words a machine can go on",
    "Facts": "what a machine counts on at each spot",
    "Ready": "whether a machine can make its next access",
    "Waits": "where a step says that it waits",
    "Ends": "by which words a unit ends",
    "Inside": "that the accesses of a machine are of words of the table",
    "Hinted": "how a machine goes on with a hint",
    "Laws": "the statements of a crate's laws",
    "Steps": "what the steps of a pause make of words",
    "Reading": "words of an image that are read at their places",
    "Marking": "marking from a snapshot: a folder, or one file",
    "Evacuation": "choosing regions and copying out of them: a folder",
    "Updating": "updating of references: a folder",
}
# Words of rows, that each part or role has.
ROWS = """place_at touch_at next_at says_at says_of says_by takes_at answer_at is_ended is_ready IsFit PartFit WaitsAt waits_at HasNoneLeft
IsDoneAt has_unit next_spot spot_then numbers_fit begins_unit is_gone take_next after_enter after_evacuation after_resolve after_scan after_shape
after_take after_first after_words after_updating after_word evacuating_says scanning_says updating_says AccessesAreInside StaysReady UnitGoesOn
takes_hint hinted_by greys_at IsHintFor""".split()
# What callers see of a type: its configuration, words, machines, spot, hint; that it is inside its image, and how far; its next access; and that nothing of it changes.
READERS = """config_of config_in config_of_stop spot_of spot_of_enter spot_of_stop words_of machines_of machine_at order_of order_at orders_of hint_of has_turn
IsUnchanged is_inside_image loads_left stores_left access_of""".split()
# A part by itself, between the steps of others.
ALONE = "Move IsMove AreMoves after_move after_moves word_found".split()
CONVENTIONS = set(ROWS + READERS + ALONE)
# At the start of a line, or inside a module with parameters.
DEFINITION = re.compile(r"^(?:(?=(?:\w+ )*pub )| +(?=(?:pub )?(?:abbrev|unfoldable|opaque|data|record) ))(?:(?:abbrev|unfoldable|opaque|pub|data|record) )+([^\s:(){}]+)")
OF_FUNCTIONS = ("Answers.antt", "Invariants.antt", "Proof.antt")


def files():
    """The files of definitions and lemmas: crate, part and path."""
    crates = os.path.join(TOP, "crates")
    for crate in sorted(os.listdir(crates)):
        for part in ("specs", "proofs"):
            for at, folders, names in os.walk(os.path.join(crates, crate, part)):
                # (folders of functions begin with a small letter)
                folders[:] = sorted(it for it in folders if it[0].isupper())
                for name in sorted(names):
                    if name.endswith(".antt") and name not in OF_FUNCTIONS:
                        yield crate, part, os.path.join(at, name)


def defined(path):
    with open(path, encoding="utf-8") as file:
        found = (DEFINITION.match(line) for line in file)
        return {it[1] for it in found if it and it[1] not in ("use", "mod")}


def main(words):
    if words not in ([], ["--check"]):
        sys.exit(__doc__)
    crates_of, specs, proofs = {}, {}, {}
    for crate, part, path in files():
        crates_of.setdefault(os.path.basename(path)[:-5], set()).add(crate)
        for name in defined(path):
            (specs if part == "specs" else proofs).setdefault(name, []).append(os.path.relpath(path, os.path.join(TOP, "crates")))
    wide = {name: those for name, those in crates_of.items() if len(those) > 3 and name not in FILES}
    twice = {name: those for name, those in specs.items() if len(those) > 1}
    several = {name: those for name, those in twice.items() if name not in CONVENTIONS}
    lemmas = [name for name, those in proofs.items() if len(those) > 1]
    if not words:
        for name, those in sorted(wide.items()):
            print(f"file {name}: {', '.join(sorted(those))}")
        for name, those in sorted(several.items()):
            print(f"name {name}: {', '.join(sorted(those))}")
        print(f"of a convention: {', '.join(sorted(set(twice) & CONVENTIONS))}")
    print(f"{len(wide)} names of files stand in more than three crates, of at most {MOST_FILES}")
    print(f"{len(several)} names of definitions stand in two files or more, of at most {MOST_NAMES}, besides {len(twice) - len(several)} of conventions; {len(lemmas)} names of lemmas do")
    return int(words == ["--check"] and (len(wide) > MOST_FILES or len(several) > MOST_NAMES))


sys.exit(main(sys.argv[1:]))
