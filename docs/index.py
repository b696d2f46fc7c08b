#!/usr/bin/env python3
"""Writes docs/INDEX.md: each name that a crate defines in specs/, with its file, the comment above it, and the public
contracts that cite it.

usage: index.py            writes docs/INDEX.md
       index.py --check    says whether docs/INDEX.md is up to date, and whether each definition that docs/DEFINITIONS.md
                           names is there, in the file named; it ends with 1 where not

A public contract is what stands in `requires` and `ensures` of a function that another crate can call, in the ghost members
of a public trait, and in the ghost fields of a public struct whose fields are public.
"""
import os
import re
import sys

TOP = os.path.dirname(os.path.dirname(os.path.abspath(__file__)))
INDEX = os.path.join(TOP, "docs", "INDEX.md")
DEFINITIONS = os.path.join(TOP, "docs", "DEFINITIONS.md")
# At the start of a line, or inside a module with parameters (where a field of a record begins with `pub` too).
DEFINITION = re.compile(r"^(?:(?=(?:\w+ )*pub )| +(?=(?:pub )?(?:abbrev|unfoldable|opaque|data|record) ))(?:(?:abbrev|unfoldable|opaque|pub|data|record) )+([^\s:(){}]+)")
IMPORT = re.compile(r"ghost use Rattle\.(\w+)\.specs\.([\w.]+?)(?:\.\{([^}]*)\}|\s+as\s+(\w+))?;")
HEAD = """# Index of definitions

Written by `docs/index.py`; do not edit. Each name that a crate defines in `specs/`, with the file, the comment above it,
and the public contracts that cite it themselves. [DEFINITIONS.md](DEFINITIONS.md) says what the ones that matter mean.
"""


def text_of(path):
    with open(path, encoding="utf-8") as file:
        return file.read()


def files_in(crate, part, ending):
    """The paths of a crate's files below a folder of it, in order."""
    found = []
    for at, _, names in os.walk(os.path.join(TOP, "crates", crate, part)):
        found += [os.path.join(at, name) for name in names if name.endswith(ending)]
    return sorted(found)


def crates():
    """The crates of crates.txt, in its order."""
    lines = text_of(os.path.join(TOP, "crates.txt")).splitlines()
    return [line.split(":")[0].split()[0] for line in lines if ":" in line and not line.startswith("#")]


def definitions(crate):
    """The definitions of a crate: module, name and the comment above, in the order of modules and lines."""
    for path in files_in(crate, "specs", ".antt"):
        module = os.path.splitext(os.path.relpath(path, os.path.join(TOP, "crates", crate, "specs")))[0].replace(os.sep, ".")
        comment = []
        for line in text_of(path).splitlines():
            if line.lstrip().startswith("--"):
                comment.append(line.lstrip()[2:].strip())
                continue
            found = DEFINITION.match(line)
            if found and module != "Lib" and found[1] != "use":
                yield module, found[1], " ".join(comment)
            comment = []


def blanked(text):
    """Rust text with comments and strings blanked, of the same length."""
    return re.sub(r"//[^\n]*|\"(?:\\.|[^\"\\])*\"|'(?:\\.|[^'\\])'", lambda it: re.sub(r"[^\n]", " ", it[0]), text)


def close_of(text, at):
    """The position behind the bracket that closes the one at a position."""
    depth = 0
    for here in range(at, len(text)):
        depth += text[here] in "({["
        depth -= text[here] in ")}]"
        if depth == 0:
            return here + 1
    return len(text)


def clauses(text, at):
    """The texts of the clauses behind the name of a function, up to its body."""
    at = close_of(text, text.index("(", at))
    while True:
        found = re.compile(r"\b(?:requires|ensures)\b[^{;]*\{|[{;]").search(text, at)
        if not found or found[0] in "{;":
            return
        end = close_of(text, found.end() - 1)
        yield text[found.end() : end - 1]
        at = end


def blocks(text):
    """The impls, traits and structs of a file: kind, name, start and end."""
    for found in re.finditer(r"^[ ]*(?:pub(?:\(crate\))? )?(impl|trait|struct)\b([^{;]*)\{", text, re.M):
        kind, head = found[1], re.sub(r"^<[^>]*>", "", found[2].strip())
        of_trait = kind == "impl" and " for " in head
        name = re.search(r"\w+", head.split(" for ")[-1])
        if name:
            yield ("impl of a trait" if of_trait else kind), name[0], found.end() - 1, close_of(text, found.end() - 1)


def exported(crate):
    """The names that a library hands out, itself or in a module that it shows; nothing for a program."""
    source = os.path.join(TOP, "crates", crate, "src")
    if not os.path.exists(os.path.join(source, "lib.rt")):
        return None
    names, todo = set(), ["lib"]
    for module in todo:
        text = blanked(text_of(os.path.join(source, module + ".rt")))
        names.update(re.findall(r"\w+", " ".join(re.findall(r"pub use ([^;]*);", text))))
        names.update(re.findall(r"pub (?:fn|struct|enum|trait) (\w+)", text))
        todo += re.findall(r"pub mod (\w+);", text)
    return names


def contracts(crate):
    """The public contracts of a crate: their name and their text, with the file's imports."""
    names = exported(crate)
    for path in files_in(crate, "src", ".rt"):
        if os.path.basename(path) == "tests.rt":
            continue
        text = blanked(text_of(path))
        shown = lambda name: names is None or name in names
        imports = [it.groups() for it in IMPORT.finditer(text)]
        inside = list(blocks(text))
        for kind, owner, start, end in inside:
            is_open = kind == "struct" and re.search(r"^\s*pub \w+:", text[start:end], re.M)
            if shown(owner) and (kind == "trait" or is_open):
                for found in re.finditer(r"^\s*ghost (\w+):[^{]*\{", text[start:end], re.M):
                    at = start + found.end() - 1
                    yield f"{owner}.{found[1]}", text[at : close_of(text, at)], imports
        for found in re.finditer(r"(\bpub )?(?:const )?(?:unsafe )?\bfn (\w+)", text):
            owners = [it for it in inside if it[2] < found.start() < it[3]]
            kind, owner = owners[-1][:2] if owners else ("", "")
            if not (found[1] or kind in ("trait", "impl of a trait")) or not shown(owner or found[2]):
                continue
            name = f"{owner}::{found[2]}" if owner else found[2]
            yield name, " ".join(clauses(text, found.end())), imports


def cited(text, imports):
    """The definitions that a contract cites: crate, module and name."""
    for crate, module, names, alias in imports:
        if module.startswith("declared"):
            continue
        if alias:
            for name in re.findall(rf"(?<![\w.]){alias}\.([^\s(){{}},]+)", text):
                yield crate, module, name
        for word in (names or "").split(","):
            name, _, local = word.strip().partition(" as ")
            if name and re.search(rf"(?<![\w.]){re.escape(local or name)}(?!\w)", text):
                yield crate, module, name


def handed_on():
    """Of each name that a file of specs/ hands on by `pub use`: the crate, the file and the name of its definition."""
    there = {}
    for crate in crates():
        for path in files_in(crate, "specs", ".antt"):
            module = os.path.splitext(os.path.relpath(path, os.path.join(TOP, "crates", crate, "specs")))[0].replace(os.sep, ".")
            for of, other, names in re.findall(r"^pub use Rattle\.(\w+)\.specs\.([\w.]+)\.\{([^}]*)\}", text_of(path), re.M):
                there.update({(crate, module, name.strip()): (of, other, name.strip()) for name in names.split(",")})
    return there


def index():
    citing = {}
    aliases = handed_on()
    for crate in crates():
        for name, text, imports in contracts(crate):
            for key in cited(text, imports):
                key = aliases.get(key, key)
                place = citing.setdefault(key, {})
                place.setdefault(crate, {})[name] = None
    out = [HEAD]
    for crate in crates():
        rows = list(definitions(crate))
        if not rows:
            continue
        out.append(f"\n## `{crate}`\n\n| name | file | says | cited by |\n|---|---|---|---|\n")
        for module, name, comment in rows:
            by = citing.get((crate, module, name), {})
            where = "; ".join(f"`{it}`: " + ", ".join(f"`{n}`" for n in by[it]) for it in by)
            out.append(f"| `{name}` | `{module}` | {comment.replace('|', chr(92) + '|')} | {where} |\n")
    return "".join(out)


def lost():
    """What docs/DEFINITIONS.md names in its tables and no crate of that section defines in such a file."""
    there = {(crate, module, name) for crate in crates() for module, name, _ in definitions(crate)}
    inside = []
    for line in text_of(DEFINITIONS).splitlines():
        if line.startswith("## "):
            inside = re.findall(r"`(\w+)`", line)
        cells = line.split(" | ")
        if not line.startswith("| `") or len(cells) < 3:
            continue
        modules = re.findall(r"`([^`]+)`", cells[1])
        for name in re.findall(r"`([^`]+)`", cells[0]):
            if not any((crate, module, name) in there for crate in inside for module in modules):
                yield f"{name} ({', '.join(modules)})"


def main():
    if sys.argv[1:] not in ([], ["--check"]):
        print("usage: index.py [--check]", file=sys.stderr)
        return 2
    made = index()
    if sys.argv[1:]:
        is_same = os.path.exists(INDEX) and text_of(INDEX) == made
        gone = list(lost())
        if not is_same:
            print("docs/INDEX.md is not up to date: run docs/index.py")
        if gone:
            print(f"docs/DEFINITIONS.md names what is not there: {'; '.join(gone)}")
        if is_same and not gone:
            print("docs/INDEX.md and docs/DEFINITIONS.md are up to date")
        return 0 if is_same and not gone else 1
    with open(INDEX, "w", encoding="utf-8") as file:
        file.write(made)
    return 0


sys.exit(main())
