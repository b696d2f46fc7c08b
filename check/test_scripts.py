#!/usr/bin/env python3
"""Tries two checks of the repository's own on small things: the picture of the layers (crates.py) on pictures of three crates, and
bodies of commits (log.py) on repositories of a few commits, whole and cut short.

usage: test_scripts.py
"""
import os
import subprocess
import sys
import tempfile

sys.dont_write_bytecode = True
from crates import drawn, misdrawn  # pylint: disable=wrong-import-position
from log import looked, said  # pylint: disable=wrong-import-position

DIRECT = {"run": ["heap", "text"], "text": [], "heap": ["text"]}
PICTURES = [
    ("run\nheap\ntext", []),
    ("run  heap\n  text  all texts", []),
    ("run\ntext\nheap", ["has text above heap, which names it"]),
    ("heap\nrun\ntext", ["has heap above run, which names it"]),
    ("run\nheap", ["has text 0 times"]),
    ("run\nheap\ntext\nbase  heap", ["has heap 2 times"]),
]

# What each commit says, and when.
OLD, UNASKED, LATER = 1000, 2000, 3000
BODY = "Thing\n\nIt was wrong for one thread, since nobody looked.\n"
BARE = "Thing\n"
SIGNED = "Thing\n\nSigned-off-by: Some Body Here <some@body.example>\n"


def commit(folder, text, when, *words):
    """Makes a commit, or a merge by the words of one, and returns its number."""
    at = f"@{when} +0000"
    names = {f"GIT_{who}_{what}": value for who in ("AUTHOR", "COMMITTER") for what, value in (("NAME", "N"), ("EMAIL", "n@n.example"), ("DATE", at))}
    clean = {name: value for name, value in os.environ.items() if not name.startswith("GIT_")}
    words = words or ("commit", "--allow-empty")
    subprocess.run(["git", "-C", folder, "-c", "commit.gpgsign=false", *words, "-q", "-m", text], env={**clean, **names}, check=True)
    return said(folder, "rev-parse", "HEAD").strip()


def repository(folder, *later):
    """A repository with an old commit and the last unasked one, bare both, and then these; the number of the unasked one."""
    os.mkdir(folder)
    said(folder, "init", "-q")
    commit(folder, BARE, OLD)
    unasked = commit(folder, BARE, UNASKED)
    for text, when in later:
        commit(folder, text, when)
    return unasked


def merged(folder, text):
    """A repository in which an old branch with a bare commit is merged; the number of the unasked commit."""
    unasked = repository(folder, (BODY, LATER))
    said(folder, "branch", "main-line")
    said(folder, "checkout", "-q", "-b", "side", "HEAD~2")
    commit(folder, BARE, OLD + 1)
    said(folder, "checkout", "-q", "main-line")
    commit(folder, text, LATER, "merge", "--no-ff", "side")
    return unasked


def logs(room):
    """Of each repository: what it is, what is found, and how many commits should be asked and lack a body."""
    plain = os.path.join(room, "plain")
    os.mkdir(plain)
    yield "no repository", looked(plain, "0" * 40, UNASKED), None
    for number, (later, wanted) in enumerate(
        [
            ([], (0, 0)),
            ([(BODY, LATER)], (1, 0)),
            ([(BODY, LATER), (BARE, LATER)], (2, 1)),
            ([(SIGNED, LATER)], (1, 1)),
            ([(BARE, OLD)], (1, 1)),
        ]
    ):
        folder = os.path.join(room, f"line{number}")
        yield f"repository {number}", looked(folder, repository(folder, *later), UNASKED), wanted
    os.mkdir(os.path.join(folder, "inside"))
    yield "a folder of a repository", looked(os.path.join(folder, "inside"), "0" * 40, UNASKED), None
    for name, text, lack in (("said", BODY, 0), ("silent", BARE, 1)):
        whole, cut = os.path.join(room, name), os.path.join(room, f"{name}-cut")
        unasked = merged(whole, text)
        yield f"a {name} merge", looked(whole, unasked, UNASKED), (2, lack)
        said(room, "clone", "-q", "--depth", "1", f"file://{whole}", cut)
        yield f"a {name} merge alone", looked(cut, unasked, UNASKED), (1, lack)


def main():
    wrong = 0
    for picture, wanted in PICTURES:
        page = "# A\n\n## The layers\n\n" + "".join(f"    {line}\n" for line in picture.splitlines()) + "\ntext, heap.\n\n## B\n\n    text\n"
        if misdrawn(DIRECT, drawn(page)) != wanted:
            wrong += 1
            print(f"the picture {picture!r}: {misdrawn(DIRECT, drawn(page))}, and not {wanted}")
    count = 0
    if said(".", "--version") is not None:
        with tempfile.TemporaryDirectory() as room:
            for name, found, wanted in logs(room):
                count += 1
                got = found and (found[0], len(found[1]))
                if got != wanted:
                    wrong += 1
                    print(f"{name}: {got}, and not {wanted}")
    if not wrong:
        print(f"{len(PICTURES)} pictures and {count} repositories are told as they should be")
    return int(wrong > 0)


if __name__ == "__main__":
    sys.exit(main())
