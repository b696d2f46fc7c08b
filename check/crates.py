#!/usr/bin/env python3
"""Looks whether each line of crates.txt names exactly the crates that the files of its crate name, and how many paths lead down these lines.

usage: crates.py            prints what each line should be, where it is another
       crates.py --check    the same, and ends with 1 where there is such a line, or there are too many paths
       crates.py --write    writes the lines

A file names a crate by a path that begins with it, in code (`heap_words::Config`) or in a definition or a proof
(`Rattle.heap_words.specs.Words`). The crates of std, and words in comments and strings, do not count. The toolchain walks the lists
once for each path down, and some kits read every file of a library each time that a walk comes to it: with two million paths that took
more than an hour of a gate, with the number below some minutes. A crate that hands on what it stands on (a `pub use` in its code and in specs/Lib.antt) lets those
above name it alone, and small crates with one user each can be one.

The picture of the layers in docs/ARCHITECTURE.md has each crate once, and each above those that it names, or beside them.
"""
import os
import re
import sys

TOP = os.path.dirname(os.path.dirname(os.path.abspath(__file__)))
TABLE = os.path.join(TOP, "crates.txt")
PAGE = os.path.join(TOP, "docs", "ARCHITECTURE.md")
# So many paths there may be from all crates down.
MOST_PATHS = 600_000
# The crates of the kit that a line may name.
KIT = {"arrayvec", "atomic_table", "crossbeam_deque", "crossbeam_utils"}
CODE_PATH = re.compile(r"(?<![\w:])(\w+)::")
PROOF_PATH = re.compile(r"\bRattle\.(\w+)\.")
QUIET = re.compile(r'//[^\n]*|--[^\n]*|"(?:\\.|[^"\\])*"')


def text_of(path):
    with open(path, encoding="utf-8") as file:
        return file.read()


def rows():
    """The lines of the table: name, settings and the crates named; others as they are."""
    for line in text_of(TABLE).splitlines():
        head, colon, below = line.partition(":")
        if not colon or line.startswith("#"):
            yield line, None, None
        else:
            yield head.split()[0], head.split()[1:], below.split()


def files_of(crate):
    for part, ending in (("src", ".rt"), ("specs", ".antt"), ("proofs", ".antt")):
        for at, _, names in os.walk(os.path.join(TOP, "crates", crate, part)):
            for name in names:
                if name.endswith(ending):
                    yield os.path.join(at, name)


def named(crate, known):
    """The crates that the files of one name, itself left out."""
    in_code, in_proofs, modules = set(), set(), set()
    for path in files_of(crate):
        is_code = path.endswith(".rt")
        quiet = re.compile(QUIET.pattern.replace("|--[^\\n]*", "")) if is_code else re.compile(r"--[^\n]*")
        text = quiet.sub("", text_of(path))
        in_proofs.update(PROOF_PATH.findall(text))
        if is_code:
            in_code.update(CODE_PATH.findall(text))
            modules.update(re.findall(r"^\s*(?:pub )?mod (\w+);", text, re.M))
    # (a path in code that begins with a module of the crate's own names no crate)
    return ((in_code - modules) | in_proofs) & known - {crate}


def paths(table):
    """How many paths lead down from each crate, itself one of them, all together."""
    direct = {name: below for name, settings, below in table if settings is not None}
    known = {}

    def count(name):
        if name not in known:
            known[name] = 1 + sum(count(it) for it in direct[name] if it in direct)
        return known[name]

    return sum(map(count, direct))


def drawn(page):
    """The words of the picture of the layers, which is the indented lines below that heading: those of each line, from the top."""
    section = page.partition("\n## The layers\n")[2].partition("\n## ")[0]
    return [re.findall(r"\w+", line) for line in section.splitlines() if line.startswith("    ")]


def misdrawn(direct, lines):
    """What is wrong with a picture of crates, of which each has those that it names: it has each once, and none above one that names it."""
    out = []
    at = {name: [line for line, words in enumerate(lines) for it in words if it == name] for name in direct}
    for name, below in direct.items():
        if len(at[name]) != 1:
            out.append(f"has {name} {len(at[name])} times")
        out += [f"has {it} above {name}, which names it" for it in below if at.get(it) and at[name] and at[it][0] < at[name][0]]
    return out


def main(words):
    if words not in ([], ["--check"], ["--write"]):
        sys.exit(__doc__)
    table = list(rows())
    known = {name for name, settings, _ in table if settings is not None}
    place = {name: at for at, (name, _, _) in enumerate(table)}
    order = lambda name: (place.get(name, len(place)), name)
    out, wrong = [], 0
    for name, settings, below in table:
        if settings is None:
            out.append(name)
            continue
        wanted = sorted(named(name, known | KIT), key=order)
        out.append(" ".join([name] + settings) + ":" + "".join(" " + it for it in wanted))
        if set(below) != set(wanted) or len(below) != len(wanted):
            wrong += 1
            lacking, needless = sorted(set(wanted) - set(below)), sorted(set(below) - set(wanted))
            print(f"crates.txt, {name}: lacks {', '.join(lacking) or 'none'}; names {', '.join(needless) or 'none'} that no file of it names")
    folders = {it for it in os.listdir(os.path.join(TOP, "crates")) if os.path.isdir(os.path.join(TOP, "crates", it, "src"))}
    for name in sorted(folders ^ known):
        wrong += 1
        print(f"crates.txt and crates/ do not agree on {name}")
    for it in misdrawn({name: below for name, settings, below in table if settings is not None}, drawn(text_of(PAGE))):
        wrong += 1
        print(f"docs/ARCHITECTURE.md: the picture of the layers {it}")
    if words == ["--write"]:
        with open(TABLE, "w", encoding="utf-8") as file:
            file.write("\n".join(out) + "\n")
        return 0
    if not wrong:
        print(f"crates.txt names what {len(known)} crates name, and no more")
        many = paths(table)
        print(f"{many} paths lead down its lines, of at most {MOST_PATHS}")
        wrong += many > MOST_PATHS
    return int(wrong > 0 and words == ["--check"])


if __name__ == "__main__":
    sys.exit(main(sys.argv[1:]))
