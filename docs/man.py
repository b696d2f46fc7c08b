#!/usr/bin/env python3
"""Installs the man page of ./shensteps, made from what `./shensteps --help` writes.

usage: man.py [FOLDER]      into FOLDER, or else into ~/.local/share/man/man1, where `man shensteps` finds it
"""
import os
import pathlib
import re
import subprocess
import sys

TOP = pathlib.Path(__file__).resolve().parent.parent
NAME = "shensteps"
USAGE = re.compile(r"usage: \./(.*?)(?: {2,}\((.*)\))?$")
OPTION = re.compile(r"  (\S.*?) {2,}(.*)$")
END = """.SH EXIT STATUS
0: all was listed. 1: nothing could be run. 2: other words. 3: no trace. 4: a machine has work left. 5, 6: a read, a write failed.
7: no memory. 8, 9: the words could not be read.
.SH ENVIRONMENT
NO_COLOR: no colours. COLUMNS: how wide a line may be. SHENRUN_PROVED=1: nothing runs that is not proved.
.SH SEE ALSO
docs/LISTINGS.md, docs/FORMATS.md and docs/RACES.md of the repository.
"""


def escaped(text):
    """A text as a man page spells it."""
    text = text.replace("\\", "\\e").replace("-", "\\-").replace("'", "\\(aq")
    return re.sub(r"`(.*?)`", r"\\fB\1\\fR", text)


def page(text):
    """The man page that says what a help text says."""
    title, *lines = text.splitlines()
    yield f'.TH {NAME.upper()} 1 "" "covremuj"'
    name, what = title.split(': ', 1)
    yield f".SH NAME\n{name} \\- {escaped(what)}"
    for line in filter(None, lines):
        usage, option = USAGE.match(line), OPTION.match(line)
        if usage:
            yield f".SH SYNOPSIS\n\\fB{escaped(usage[1])}\\fR\n.SH DESCRIPTION\n{escaped((usage[2] or '').capitalize())}."
        elif option:
            yield f".TP\n\\fB{escaped(option[1])}\\fR\n{escaped(option[2])}"
        else:
            yield f".SH {escaped(line.upper())}"
    yield END.rstrip()


def main():
    if any(word.startswith("-") for word in sys.argv[1:]) or len(sys.argv) > 2:
        print("usage: man.py [FOLDER]", file=sys.stderr)
        sys.exit(2)
    folder = pathlib.Path(sys.argv[1] if len(sys.argv) > 1 else os.path.expanduser("~/.local/share/man/man1"))
    help_text = subprocess.run([TOP / NAME, "--help"], stdout=subprocess.PIPE, text=True, check=True).stdout
    folder.mkdir(parents=True, exist_ok=True)
    (folder / f"{NAME}.1").write_text("\n".join(page(help_text)) + "\n")
    print(folder / f"{NAME}.1")


main()
