#!/usr/bin/env python3
"""Runs a program of this repository on many traces, and writes a line for each: its status, its file, and the last line of its answer.

usage: each.py [--jobs N] shenrun|shensteps [WORD ..] -- FILE ..

The proved program is run, N at a time, once it has been made of the sources as they are; else `rt try` builds it once, unproved, and
runs it on all files, with its limits of time and size. It ends with 1 where a status is not 0.
"""
import concurrent.futures
import os
import pathlib
import re
import shutil
import subprocess
import sys
import tempfile

sys.dont_write_bytecode = True
sys.path.insert(0, os.path.join(os.path.dirname(os.path.dirname(os.path.abspath(__file__))), "check"))
from cases import TOP, program  # pylint: disable=wrong-import-position

CASE = re.compile(r"case=(\d+) run=ended status=(\d+) ")


def proved(name):
    """The proved program of this name, or None where there is none of the sources as they are."""
    asked, words = {**os.environ, "SHENRUN_PROVED": "1"}, ["replay"] if name == "shenrun" else []
    ran = subprocess.run([os.path.join(TOP, name), *words], env=asked, stdin=subprocess.DEVNULL, capture_output=True, check=False)
    # An empty input is no trace, as the program says; else the script refuses to run.
    return program(name) if ran.returncode == 3 else None


def last(text):
    """The last line of a text."""
    return text.splitlines()[-1] if text.strip() else ""


def run(path, words, file):
    """The status and the answer of a program to the trace of a file."""
    with open(file, "rb") as source:
        ran = subprocess.run([path, *words], stdin=source, capture_output=True, check=False)
    return ran.returncode, (ran.stdout or ran.stderr).decode(errors="replace")


def tried(name, words, files):
    """The same of the program as `rt try` builds it, for all files; None where it had no answer."""
    with tempfile.TemporaryDirectory() as room:
        for number, file in enumerate(files):
            shutil.copyfile(file, os.path.join(room, str(number)))
        ran = subprocess.run(
            ["rt", "try", "--cases", room, "--", *words], cwd=os.path.join(TOP, "crates", name), capture_output=True, text=True, check=False
        )
    answers = dict(re.findall(r"^== (\d+)\n(.*?)(?=^== \d+\n|\Z)", ran.stdout, re.M | re.S))
    statuses = dict(CASE.findall(ran.stderr + ran.stdout))
    return [(int(statuses[str(it)]), answers.get(str(it), "")) if str(it) in statuses else (None, "") for it in range(len(files))]


def main():
    words = sys.argv[1:]
    jobs = os.cpu_count()
    if words[:1] == ["--jobs"] and len(words) > 1 and words[1].isdecimal():
        jobs, words = int(words[1]), words[2:]
    if "--" not in words or words[0] not in ("shenrun", "shensteps"):
        print(__doc__.split("\n")[2], file=sys.stderr)
        return 2
    end = words.index("--")
    name, asked, files = words[0], words[1:end], [str(pathlib.Path(it).resolve()) for it in words[end + 1 :]]
    path = proved(name)
    if path:
        with concurrent.futures.ThreadPoolExecutor(max(jobs, 1)) as pool:
            answers = list(pool.map(lambda file: run(path, asked, file), files))
    else:
        print("each.py: not proved yet, so rt try builds it once for all", file=sys.stderr)
        answers = tried(name, asked, files)
    for file, (status, text) in zip(words[end + 1 :], answers):
        print(f"{'-' if status is None else status} {file} {last(text)}".rstrip())
    return 0 if all(status == 0 for status, _ in answers) else 1


sys.exit(main())
