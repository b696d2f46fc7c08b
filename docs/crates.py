#!/usr/bin/env python3
"""Writes docs/CRATES.md: each crate of crates.txt in the words with which its root begins.

usage: crates.py            writes docs/CRATES.md
       crates.py --check    says whether docs/CRATES.md is up to date; it ends with 1 where not

A crate is described by the first `//!` lines of its root, and nowhere else; the page has them up to the first colon or full stop.
"""
import os
import re
import sys

TOP = os.path.dirname(os.path.dirname(os.path.abspath(__file__)))
PAGE = os.path.join(TOP, "docs", "CRATES.md")
HEAD = """# The crates

Written by `docs/crates.py` from the first lines of the crates; do not edit. [ARCHITECTURE.md](ARCHITECTURE.md) has them as layers.

"""


def text_of(path):
    with open(path, encoding="utf-8") as file:
        return file.read()


def names():
    """The crates of crates.txt, in its order."""
    rows = [row.split("#")[0].partition(":") for row in text_of(os.path.join(TOP, "crates.txt")).splitlines()]
    return [head.split()[0] for head, colon, _ in rows if colon]


def sentence(crate):
    """The first words of a crate's root, or None."""
    for root in ("lib.rt", "main.rt"):
        path = os.path.join(TOP, "crates", crate, "src", root)
        if os.path.exists(path):
            found = re.match(r"(?://!.*\n)+", text_of(path))
            if not found:
                return None
            whole = " ".join(line[3:].strip() for line in found[0].splitlines())
            return re.match(r"(.*?)[.:](?= |$)|(.*)", whole)[0].rstrip(".:")
    return None


def main():
    if sys.argv[1:] not in ([], ["--check"]):
        print("usage: crates.py [--check]", file=sys.stderr)
        return 2
    rows, lacking = [], []
    for crate in names():
        said = sentence(crate)
        if not said:
            lacking.append(crate)
            continue
        rows.append(f"- `{crate}`: {said}\n")
    if lacking:
        print(f"the root of a crate begins with no `//!` line: {' '.join(lacking)}")
    page = HEAD + "".join(rows)
    if "--check" in sys.argv:
        is_new = os.path.exists(PAGE) and text_of(PAGE) == page
        print(f"docs/CRATES.md has {len(rows)} crates" if is_new else "docs/CRATES.md is not up to date: docs/crates.py writes it")
        return 1 if lacking or not is_new else 0
    with open(PAGE, "w", encoding="utf-8") as file:
        file.write(page)
    return 1 if lacking else 0


sys.exit(main())
