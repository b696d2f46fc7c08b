#!/usr/bin/env python3
"""Builds the proved archive, crates/covremuj/out/libcovremuj.a, over the libraries that `rt ci` has left.

usage: over_gate.py        ends with 0 once it is built, with 3 where there are no such libraries, or not of the text that stands, and with
                           what the compiler ends with where that fails

`rt ci` leaves the library of each crate that it proved in the crate's out/rlib, with no stamp that says of which text it is; so `rt lib` proves all
of them again, which takes as long as the gate took for them. Here the time of the program shenrun tells it, which the same run leaves behind them: no
file that a proof reads is newer. Where a library has a stamp it is one of `rt check`, and `rt lib` goes on from these. The compiler is called by the
kit's own code, as `rt lib` calls it: it proves covremuj, over what is proved below it.
"""
import importlib.util
import os
import shutil
import sys

TOP = os.path.dirname(os.path.dirname(os.path.realpath(__file__)))
CRATES = os.path.join(TOP, "crates")
NAME = "covremuj"
NOT_LEFT = 3


def kit():
    """The folder of the kit whose rt is on the path, or None."""
    rt = shutil.which("rt")
    return rt and os.path.dirname(os.path.dirname(os.path.realpath(rt)))


def libraries_below():
    """The names of the libraries of this repository that the archive is built over."""
    with open(os.path.join(TOP, "crates.txt"), encoding="utf-8") as file:
        rows = [row.split("#")[0].partition(":") for row in file]
    direct = {head.split()[0]: names.split() for head, _, names in rows if head.strip()}
    found, ahead = set(), [NAME]
    while ahead:
        for name in direct[ahead.pop()]:
            if name in direct and name not in found:
                found.add(name)
                ahead.append(name)
    return found


def newest_text():
    """When a file that a proof reads was written last."""
    times = [os.lstat(os.path.join(TOP, "crates.txt")).st_mtime]
    for name in os.listdir(CRATES):
        for part in ("src", "specs", "proofs"):
            for at, _, files in os.walk(os.path.join(CRATES, name, part)):
                times += [os.lstat(os.path.join(at, it)).st_mtime for it in [".", *files]]
    return max(times)


def are_left():
    """Whether `rt ci` has left all these libraries, of the text that stands."""
    program = os.path.join(CRATES, "shenrun", "out", "shenrun")
    if not os.path.isfile(program) or os.lstat(program).st_mtime <= newest_text():
        return False
    folders = [os.path.join(CRATES, name, "out", "rlib") for name in libraries_below()]
    is_left = lambda at: os.path.isfile(os.path.join(at, f"{at.split(os.sep)[-3]}.rlib", "format")) and not os.path.exists(os.path.join(at, "stamp"))
    return all(map(is_left, folders))


def main():
    found = kit()
    code = found and os.path.join(found, "bin", "rtlib.py")
    if not code or not os.path.isfile(code) or not are_left():
        return NOT_LEFT
    loader = importlib.util.spec_from_file_location("rtlib", code)
    rtlib = importlib.util.module_from_spec(loader)
    sys.modules["rtlib"] = rtlib
    loader.loader.exec_module(rtlib)
    folder = os.path.join(CRATES, NAME)
    os.chdir(folder)
    crate = rtlib.Crate(folder, TOP, {})
    return crate.build_static([])


if __name__ == "__main__":
    sys.exit(main())
