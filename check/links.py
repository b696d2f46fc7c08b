#!/usr/bin/env python3
"""Looks whether what the pages name is there: links to files, paths in backticks, and calls as `crate::name`.

usage: links.py            prints what is not there
       links.py --check    the same; it ends with 1 where there is such a thing
"""
import os
import re
import sys

TOP = os.path.dirname(os.path.dirname(os.path.abspath(__file__)))
LINK = re.compile(r"\]\(([^)#:]+)(?:#[^)]*)?\)")
PATH = re.compile(r"`((?:crates/)?[a-z_]+/(?:src|specs|proofs)/[\w/]+\.\w+|(?:bench|check|docs|examples)/[\w/.]+)`")
CALL = re.compile(r"`([a-z_]+)::([\w:]+)`")


def text_of(path):
    with open(path, encoding="utf-8") as file:
        return file.read()


def pages():
    """The pages of the repository, but for the index, which a script writes."""
    yield "README.md"
    for folder in ("docs", "examples"):
        for name in sorted(os.listdir(os.path.join(TOP, folder))):
            if name.endswith(".md") and name != "INDEX.md":
                yield f"{folder}/{name}"


def source_of(crate):
    """All text of a crate's sources, or None."""
    found = []
    for at, _, names in os.walk(os.path.join(TOP, "crates", crate, "src")):
        found += [text_of(os.path.join(at, name)) for name in sorted(names) if name.endswith(".rt")]
    return "\n".join(found) if found else None


def is_there(path):
    inside = path if re.match(r"(crates|bench|check|docs|examples)/", path) else f"crates/{path}"
    return os.path.exists(os.path.join(TOP, inside))


def main():
    if sys.argv[1:] not in ([], ["--check"]):
        print("usage: links.py [--check]", file=sys.stderr)
        return 2
    sources, wrong, count = {}, 0, 0
    for page in pages():
        text = text_of(os.path.join(TOP, page))
        lost = [it for it in LINK.findall(text) if not os.path.exists(os.path.join(TOP, os.path.dirname(page), it))]
        lost += [it for it in PATH.findall(text) if not is_there(it)]
        for crate, name in sorted(set(CALL.findall(text))):
            source = sources.setdefault(crate, source_of(crate))
            # (a module of a crate, as `laws::rows_obey`, is told by its function alone)
            if source is not None and not re.search(rf"\b{name.split('::')[-1]}\b", source):
                lost.append(f"{crate}::{name}")
        count += len(LINK.findall(text)) + len(PATH.findall(text)) + len(CALL.findall(text))
        for it in sorted(set(lost)):
            wrong += 1
            print(f"{page}: there is no {it}")
    if not wrong:
        print(f"{count} files and calls that pages name are there")
    return 1 if wrong and sys.argv[1:] else 0


sys.exit(main())
