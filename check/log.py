#!/usr/bin/env python3
"""Looks whether each commit and each merge has a body: some words below its first line, which say why, or what it brings.

usage: log.py            prints those that have none
       log.py --check    the same; it ends with 1 where there is one

It is asked of what came after one commit: of all that stand on it, and of all that are dated later, so that a clone that does not
reach back to it is asked too. Lines by which people sign (`Signed-off-by: ..`), and comments of git (`# ..`), are no body. Where there
is no git, or no repository, it says nothing.
"""
import os
import re
import subprocess
import sys

TOP = os.path.dirname(os.path.dirname(os.path.abspath(__file__)))
# The last commit of which it is not asked, and its date in seconds.
LAST_UNASKED = "a8c5079411de93cd0457123d802ba9bf39ac9b3d"
DATED = 1796021259
# So many words a body has at least.
FEWEST_WORDS = 4
SIGNED = re.compile(r"[A-Z][\w-]*: .*<.*>$|#")


def said(folder, *words):
    """What git says in a folder; None where it fails, or is not there."""
    try:
        ran = subprocess.run(["git", "-C", folder, *words], stdout=subprocess.PIPE, stderr=subprocess.DEVNULL, check=False)
    except OSError:
        return None
    return ran.stdout.decode(errors="replace") if ran.returncode == 0 else None


def has_body(body):
    return len([word for line in body.splitlines() if not SIGNED.match(line) for word in line.split()]) >= FEWEST_WORDS


def looked(folder, unasked, dated):
    """How many commits are asked, and the number and the first line of each that lacks a body; None where there is no repository."""
    top = said(folder, "rev-parse", "--show-toplevel")
    log = said(folder, "log", "-z", "--format=%H%n%ct%n%s%n%b")
    # (a folder inside the repository of something else has none of its own)
    if top is None or log is None or not os.path.samefile(top.rstrip("\n"), folder):
        return None
    behind = set((said(folder, "rev-list", "--ancestry-path", f"{unasked}..HEAD") or "").split())
    commits = [entry.split("\n", 3) for entry in log.split("\0") if entry]
    asked = [it for it in commits if it[0] in behind or int(it[1]) > dated]
    return len(asked), [(number, first) for number, _, first, body in asked if not has_body(body)]


def main():
    if sys.argv[1:] not in ([], ["--check"]):
        print("usage: log.py [--check]", file=sys.stderr)
        return 2
    found = looked(TOP, LAST_UNASKED, DATED)
    if found is None:
        return 0
    asked, lacking = found
    for number, first in lacking:
        print(f"commit {number[:8]} has no body: {first}")
    if not lacking:
        print(f"each of {asked} commits has a body")
    return 1 if lacking and sys.argv[1:] else 0


if __name__ == "__main__":
    sys.exit(main())
