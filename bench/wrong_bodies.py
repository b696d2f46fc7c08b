#!/usr/bin/env python3
"""Tries what the merge gate does not try: the wrong bodies of bench/edits and the wrong protocols of bench/protocols.

usage: wrong_bodies.py [--jobs N] [NAME..]   tries them all, or the bodies of these crates and the protocols of these names
       wrong_bodies.py --check               says which have to be tried again; it ends with 1 where there are such that
                                             bench/behind.txt does not name, and where that names one that is tried

A wrong body, bench/edits/CRATE/NAME.edit, changes the code of one crate, so that its own contract must refuse it. The gate tries those
of crates/NAME/must-fail, three for each library with code; those here each show what no other shows.
They are tried on a throwaway copy of the crates as they stand, without the edits of the gate, by `rt ci CRATE..`, which takes what the gate
proved on this machine, or, with a kit whose `rt ci` takes no names, by `rt must-fail CRATE..` over the libraries that `rt check` kept in this
tree: a crate costs one check of its own and ten to thirty seconds for each edit.

A wrong protocol, bench/protocols/NAME.protocol, changes code and row together, so that the code is its row still, or the definition to
which the code of a pause is held, and a law above has to refuse it. Its file says in words what is turned and what would go wrong, and then, a line each:
    own: CRATE               the row's crate, which must be proved still; several such lines are several crates, `none` is none
    own: CRATE but F, G      so is all of it but these, which are the laws that refuse, or lemmas that contracts above cite
    law: CRATE::F            the law that must refuse it, or `none`: this is a finding, and says which promise would be needed
    file: PATH               from crates/ on; and then pairs `old: TEXT` and `new: TEXT`. Each old text stands once in the file, after
                             the pairs before it; a text of several lines has a line `old: ` or `new: ` for each
It is tried in a throwaway copy over what `rt check` kept in crates/*/out of this tree, or of another checkout on this machine: run it
where everything is proved. The own crates are checked first and the law's crate then, up to the first refusal. One takes half a minute
to three minutes.

bench/edits/tried.txt and bench/protocols/tried.txt say what came of it, with a checksum of what decides it: the text of the crates, what
they and those below define in specs/, and the edits. So what changed is tried again before the change can land. Contracts that a crate
below has in its own text are not in the sums, nor is what is inlined. These are records that whoever runs this leaves, and prove nothing: the gate tries
nothing of it. An edit that is refused only because a proof names what it takes away, or only by a limit of the prover, tells nothing
and does not count as refused. The status is 1 where something was not refused, or not tried.
"""
import concurrent.futures
import hashlib
import os
import re
import shutil
import subprocess
import sys
import tempfile

TOP = os.path.dirname(os.path.dirname(os.path.abspath(__file__)))
CRATES = os.path.join(TOP, "crates")
EDITS = os.path.join(TOP, "bench", "edits")
PROTOCOLS = os.path.join(TOP, "bench", "protocols")
# So many crates are given to one run of rt ci, which says what came of them once it ends.
TOGETHER = 12
# So many lemmas are named of those at which a law is refused.
NAMED = 3
REFUSED = re.compile(r"must-fail (\w+)/\S+\.edit: refused, as it must be(?! \(only )")
# What a run says of each edit, and its last line, where the kit's command has one: a run that was cut off lacks both.
TOLD = re.compile(r"must-fail (\w+)/\S+\.edit: ")
ENDED = re.compile(r"^\d+ passed, \d+ failed", re.M)
UNPROVED = re.compile(r"^fn (\S+): (?!proved\b)", re.M)
ERROR = re.compile(r"^(?:\./)?(\S+?\.(?:antt|rt)):\d+:\d+: error(?:\[\S+\])?: (.*)$", re.M)
# What the code generator is told, which decides nothing of a proof: no sum counts it.
INLINED = re.compile(rb"^ *#\[inline(?:\(\w+\))?\]\n", re.M)
# What follows from an error that stands elsewhere, and what says that a text does not read.
FOLLOWS = re.compile(r"\d+ declarations? that depends? on ")
UNREAD = re.compile(r"is not in scope|has no field|has no `|is no name|operand is missing|expected the end|cannot continue|was not admitted")


def below():
    """The crates that each crate stands on, itself among them."""
    with open(os.path.join(TOP, "crates.txt"), encoding="utf-8") as file:
        rows = [row.split("#")[0].partition(":") for row in file]
    direct = {head.split()[0]: names.split() for head, _, names in rows if head.strip()}
    # (a name with no row of its own is a crate of the kit)
    direct = {name: [it for it in names if it in direct] for name, names in direct.items()}
    known = {}

    def walk(name):
        if name not in known:
            known[name] = {name}.union(*map(walk, direct[name]))
        return known[name]

    for name in direct:
        walk(name)
    return known


def files_in(folder):
    return [os.path.join(at, name) for at, _, names in os.walk(folder) for name in names]


def sum_of(files):
    whole = hashlib.sha256()
    for path in sorted(set(files)):
        with open(path, "rb") as file:
            text = INLINED.sub(b"", file.read())
            whole.update(os.path.relpath(path, TOP).encode() + b"\0" + hashlib.sha256(text).digest())
    return whole.hexdigest()[:16]


def texts_of(crates, stands_on):
    """The files that decide what is proved of these crates: their text, and the definitions of all that they stand on."""
    files = [it for name in crates for it in files_in(os.path.join(CRATES, name, "src"))]
    return files + [it for name in set().union(*(stands_on[it] for it in crates)) for it in files_in(os.path.join(CRATES, name, "specs"))]


def tried(folder):
    """What the record says: of each name the checksum, and what came of it."""
    path = os.path.join(folder, "tried.txt")
    if not os.path.exists(path):
        return {}
    with open(path, encoding="utf-8") as file:
        return {row[0]: (row[1], " ".join(row[2:])) for row in map(str.split, file) if row and row[0] != "#"}


def note(folder, head, noted):
    with open(os.path.join(folder, "tried.txt"), "w", encoding="utf-8") as file:
        file.write(f"# Written by bench/wrong_bodies.py: {head}\n")
        file.writelines(" ".join([name, *noted[name]]).rstrip() + "\n" for name in sorted(noted))


# Wrong bodies.


def refusals(names):
    """Tries the edits of these crates, and returns how many of each were refused, or None where the run did not come to its end."""
    usage = subprocess.run(["rt", "help"], stdout=subprocess.PIPE, stderr=subprocess.STDOUT, text=True).stdout
    takes_names = "rt ci [" in usage or "rt ci NAME" in usage
    with tempfile.TemporaryDirectory() as room:
        lay_out(room, () if takes_names else os.listdir(CRATES))
        for name in names:
            shutil.copytree(os.path.join(EDITS, name), os.path.join(room, "crates", name, "must-fail"))
        words = ["rt", "ci" if takes_names else "must-fail", *names]
        said = subprocess.run(words, cwd=room, stdout=subprocess.PIPE, stderr=subprocess.STDOUT, text=True).stdout
    print(said, end="", flush=True)
    found, told = REFUSED.findall(said), TOLD.findall(said)
    is_whole = ENDED.search(said) or all(told.count(name) == len(os.listdir(os.path.join(EDITS, name))) for name in names)
    return {name: found.count(name) for name in names} if is_whole else None


def body_sums(stands_on):
    """The crates that have wrong bodies, with the checksum of each."""
    # (git keeps no empty folder, and one with no edit has none to be refused)
    known = sorted(it for it in os.listdir(EDITS) if files_in(os.path.join(EDITS, it)))
    return {name: sum_of(texts_of([name], stands_on) + files_in(os.path.join(EDITS, name))) for name in known}


def try_bodies(names, sums):
    noted = {name: row for name, row in tried(EDITS).items() if name in sums}
    lacking, cut_off = [], []
    for at in range(0, len(names), TOGETHER):
        together = names[at : at + TOGETHER]
        counts = refusals(together)
        if counts is None:
            cut_off += together
            continue
        for name, count in counts.items():
            if count == len(os.listdir(os.path.join(EDITS, name))):
                noted[name] = (sums[name], "")
            else:
                lacking.append(name)
                noted.pop(name, None)
        note(EDITS, "the crates of whose text and definitions every edit here was refused.", noted)
    if names:
        print(f"of {len(names)} crates every edit was refused in all but: {' '.join(lacking) or 'none'}")
    if cut_off:
        print(f"not tried, as the run of rt was cut off; what the record says of them stays: {' '.join(cut_off)}")
    return bool(lacking or cut_off)


# Wrong protocols.


class Protocol:
    """What a file of bench/protocols says."""

    def __init__(self, name):
        self.name, self.path = name, os.path.join(PROTOCOLS, f"{name}.protocol")
        self.own, self.law, self.pairs = [], None, []
        with open(self.path, encoding="utf-8") as file:
            lines = file.read().split("\n")
        self.first = next((it for it, line in enumerate(lines) if line.startswith("own:")), len(lines))
        self.says = "\n".join(lines[: self.first]).strip()
        at, last = None, ""
        for line in lines[self.first :]:
            key, _, text = line.partition(":")
            text = text[1:] if text.startswith(" ") else text
            if key == "own":
                crate, _, laws = text.strip().partition(" but ")
                self.own += [] if crate == "none" else [(crate, [it.strip() for it in laws.split(",") if it.strip()])]
            elif key == "law":
                self.law = None if text.strip() == "none" else text.strip()
            elif key == "file":
                at = text.strip()
            elif key in ("old", "new") and key == last:
                self.pairs[-1][key] += f"\n{text}"
            elif key == "old":
                self.pairs.append({"file": at, "old": text, "new": None})
            elif key == "new":
                self.pairs[-1]["new"] = text
            elif line.strip():
                sys.exit(f"{self.path}: this line is none of own, law, file, old and new: {line}")
            last = key

    def crates(self):
        """The crates that are checked, in turn."""
        return [it for it, _ in self.own] + ([self.law.split("::")[0]] if self.law else [])

    def texts(self):
        """The files that it changes, as they are then, and why it cannot be applied, if it cannot."""
        texts = {}
        for pair in self.pairs:
            path = os.path.join(CRATES, pair["file"] or "")
            if pair["new"] is None or not os.path.isfile(path):
                return texts, f"{pair['file']}: there is no such file, or an old text has no new one"
            if path not in texts:
                with open(path, encoding="utf-8") as file:
                    texts[path] = file.read()
            count = texts[path].count(pair["old"])
            if count != 1:
                return texts, f"{pair['file']}: this stands there {count} times, and not once: {pair['old']}"
            texts[path] = texts[path].replace(pair["old"], pair["new"])
        return texts, None if self.says and texts and self.crates() else "it has no words, no pair, or no crate to be checked"

    def sum(self, stands_on):
        return sum_of([self.path, *texts_of(self.crates(), stands_on)])


def link_or_copy(one, other):
    # (a check replaces such a file, and changes none)
    if one.endswith(".oantt"):
        try:
            os.link(one, other)
            return
        except OSError:
            pass
    shutil.copy2(one, other)


def lay_out(room, kept=()):
    """Copies the tree's crates into a folder, with the work that rt check kept of some of them."""
    for file in ("crates.txt", "HANDLES"):
        shutil.copy(os.path.join(TOP, file), room)
    shutil.copytree(CRATES, os.path.join(room, "crates"), ignore=shutil.ignore_patterns("out", "must-fail"))
    for name in kept:
        if os.path.isdir(os.path.join(CRATES, name, "out")):
            shutil.copytree(os.path.join(CRATES, name, "out"), os.path.join(room, "crates", name, "out"), copy_function=link_or_copy, symlinks=True)
    subprocess.run(["git", "init", "-q", "."], cwd=room, check=True)


def is_named(function, names):
    return any(function == it or function.endswith(f"::{it}") for it in names)


class Check:
    """What came of a check of a crate: whether it is proved, the functions that are not, and where it says so."""

    def __init__(self, room, crate):
        ran = subprocess.run(["timeout", "1500", "rt", "check"], cwd=os.path.join(room, "crates", crate), stdout=subprocess.PIPE, stderr=subprocess.STDOUT, text=True)
        self.said = ran.stdout
        self.proved = ran.returncode == 0
        self.unproved = UNPROVED.findall(self.said)
        errors = [(path, why) for path, why in ERROR.findall(self.said) if not FOLLOWS.match(why)]
        self.bad = next((f"{path}: {why}" for path, why in errors if path.startswith(("src/", "specs/")) and UNREAD.search(why)), None)
        told = [(path, why) for path, why in errors if not UNREAD.search(why)]
        self.lemmas = sorted({lemma[1] for lemma in (re.match(r"`([^`]+)`:", why) for _, why in told) if lemma})
        if not self.proved and (ran.returncode != 1 or not (self.unproved or self.lemmas)):
            self.bad = self.bad or next((f"{path}: {why}" for path, why in errors), f"ended with status {ran.returncode}")
        self.only_names = bool(errors) and not told
        self.where = self.places(told)

    def places(self, told):
        """The lemmas that are refused, each with its file, and the clauses that are."""
        places = []
        for path, why in told:
            lemma = re.match(r"`([^`]+)`:", why)
            place = f"{lemma[1] if lemma else 'a goal'} in {path}"
            places += [] if place in places else [place]
        clauses = [f"clause {it}" for it in sorted(set(re.findall(r"`?returns-clause-(\w+)", self.said)))]
        named = clauses[:NAMED] + places[:NAMED]
        more = len(clauses) + len(places) - len(named)
        return ", ".join(named) + (f" and {more} more" if more else "")


def try_in(room, protocol):
    """Whether the protocol is refused as its file says, and what came of it."""
    for crate, laws in protocol.own:
        check = Check(room, crate)
        if check.proved:
            continue
        if check.bad or check.only_names:
            return False, f"BAD: {crate}: {check.bad or check.where or 'a proof names what it takes away'}"
        refused = check.unproved or check.lemmas
        others = [it for it in refused if not is_named(it, laws)]
        if others:
            return False, f"BAD: {crate} is not proved: {', '.join(others)}, at {check.where}"
        return True, f"refused by {', '.join(refused)} at {check.where}"
    if not protocol.law:
        return True, "no law refuses it"
    crate = protocol.law.split("::")[0]
    check = Check(room, crate)
    if check.proved:
        return False, f"NOT REFUSED: {crate} is proved"
    if check.bad or check.only_names:
        return False, f"BAD: {crate}: {check.bad or 'a proof names what it takes away'}"
    if not is_named(protocol.law, check.unproved):
        return False, f"REFUSED ELSEWHERE: {', '.join(check.unproved)}, at {check.where}"
    return True, f"refused by {protocol.law} at {check.where}"


def try_protocol(name, stands_on):
    protocol = Protocol(name)
    texts, why = protocol.texts()
    if why:
        return name, None, f"BAD: {why}"
    total = protocol.sum(stands_on)
    with tempfile.TemporaryDirectory(prefix="protocol-") as room:
        lay_out(room, set().union(*(stands_on[it] for it in protocol.crates())))
        for path, text in texts.items():
            with open(os.path.join(room, "crates", os.path.relpath(path, CRATES)), "w", encoding="utf-8") as file:
                file.write(text)
        is_right, said = try_in(room, protocol)
    return name, total if is_right else None, said


def protocol_names():
    return sorted(it.removesuffix(".protocol") for it in os.listdir(PROTOCOLS) if it.endswith(".protocol"))


def try_protocols(names, stands_on, jobs):
    known, lacking = protocol_names(), []
    noted = {name: row for name, row in tried(PROTOCOLS).items() if name in known}
    with concurrent.futures.ThreadPoolExecutor(jobs) as pool:
        for done in concurrent.futures.as_completed([pool.submit(try_protocol, it, stands_on) for it in names]):
            name, total, said = done.result()
            print(f"{name}: {said}", flush=True)
            if total:
                noted[name] = (total, said)
            else:
                lacking.append(name)
                noted.pop(name, None)
            note(PROTOCOLS, "what came of each wrong protocol, of which text and definitions.", noted)
    if names:
        print(f"of {len(names)} protocols each came to what its file says, but: {' '.join(sorted(lacking)) or 'none'}")
    return bool(lacking)


def stale_protocols(stands_on):
    noted, stale = tried(PROTOCOLS), []
    for name in protocol_names():
        protocol = Protocol(name)
        why = protocol.texts()[1]
        if why:
            print(f"bench/protocols/{name}.protocol cannot be applied: {why}")
        if why or noted.get(name, ("",))[0] != protocol.sum(stands_on):
            stale.append(name)
    return stale


def say_stale(stands_on, sums):
    noted = tried(EDITS)
    stale = [name for name in sums if noted.get(name, ("",))[0] != sums[name]] + stale_protocols(stands_on)
    behind = owed()
    if stale:
        print(f"these have to be tried again: bench/wrong_bodies.py {' '.join(stale)}")
        print(f"{len([it for it in stale if it in behind])} of these {len(stale)} are named in bench/behind.txt, as tried on an older text alone or not yet")
    else:
        print(f"the edits of bench/edits, of {len(sums)} crates, and {len(protocol_names())} wrong protocols were tried on the contracts as they stand")
    settled = [it for it in behind if it not in stale]
    if settled:
        print(f"bench/behind.txt names what is tried: {' '.join(settled)}")
    return bool(settled) or any(it not in behind for it in stale)


def owed():
    """What bench/behind.txt says was tried on an older text alone, or not yet. Nothing else may be stale, and nothing that is not."""
    path = os.path.join(TOP, "bench", "behind.txt")
    if not os.path.exists(path):
        return []
    with open(path, encoding="utf-8") as file:
        return [row.strip() for row in file if row.strip() and not row.startswith("#")]


def main(words):
    stands_on = below()
    sums = body_sums(stands_on)
    if words == ["--check"]:
        return say_stale(stands_on, sums)
    jobs = 1
    if words[:1] == ["--jobs"]:
        jobs, words = int(words[1]), words[2:]
    known = protocol_names()
    for name in words:
        if name not in sums and name not in known:
            sys.exit(f"{name} is neither a crate of bench/edits nor a protocol of bench/protocols")
    bodies = [it for it in words or sums if it in sums]
    protocols = [it for it in words or known if it in known]
    return try_bodies(bodies, sums) | try_protocols(protocols, stands_on, jobs)


if __name__ == "__main__":
    sys.exit(main(sys.argv[1:]))
