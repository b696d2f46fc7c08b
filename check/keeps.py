#!/usr/bin/env python3
"""Looks whether the lines `// keeps NAME` of the code and the invariants of docs/INVARIANTS.md go together.

usage: keeps.py --check    says whether they do; it ends with 1 where not

Such a line says which invariants an access has to keep: `// keeps A`, `// keeps A, B and C`, with a reason behind a colon if there is
one. An access may have several of them. The rules:

1. Directly above each access that writes, in the crates of MACHINES, stands such a line.
2. Each name in such a line stands in backticks on the page, and is defined in exactly that spelling, in
   specs/ of one crate; or in proofs/ of one, if in no specs/. `Record.field` is a field of a record that is defined so. A name that
   several crates define is followed by `of CRATE`, in the line and on the page.
3. Each name in the brackets behind the bold head of an invariant there stands in such a line. So a fact that no access has to
   keep has no brackets there: its name stands in the text.
"""
import os
import re
import sys

TOP = os.path.dirname(os.path.dirname(os.path.abspath(__file__)))
PAGE = os.path.join(TOP, "docs", "INVARIANTS.md")
# The crates whose code makes the accesses of the heap's machines.
MACHINES = "alloc_buffers collector_rows evac_room handshake load_barrier mutator regions satb_barrier unit_part".split()
LINE = re.compile(r"^\s*// keeps (.*)$")
WRITE = re.compile(r"\bAccess::(?:store|swap|exchange|and|or|add|sub)\(|\bAccess::(?:Store|Swap|Exchange|And|Or|Add|Sub) \{")
NAME = re.compile(r"([A-Za-z]\w*(?:\.\w+)?)(?: of (\w+))?")
PAGE_NAME = re.compile(r"`([A-Za-z]\w*(?:\.\w+)?)`(?: of `(\w+)`)?")
HEAD = re.compile(r"^\*\*[^*]+\*\* \(([^)]*)\)\.", re.M)
# As in index.py: at the start of a line, or inside a module with parameters (where a field of a record begins with `pub` too).
DEFINITION = re.compile(r"^(?:(?=(?:\w+ )*pub )| +(?=(?:pub )?(?:abbrev|unfoldable|opaque|data|record) ))(?:(?:abbrev|unfoldable|opaque|pub|data|record) )+([^\s:(){}]+)")
FIELD = re.compile(r"^ +pub ([^\s:(){}]+) :")


def files_in(crate, part, ending):
    """The paths of a crate's files below a folder of it, with their lines."""
    for at, _, names in sorted(os.walk(os.path.join(TOP, "crates", crate, part))):
        for name in sorted(names):
            if name.endswith(ending):
                path = os.path.join(at, name)
                with open(path, encoding="utf-8") as file:
                    yield os.path.relpath(path, TOP), file.read().splitlines()


def definitions(part):
    """By name, and by record and field, the crates that define it in a folder of theirs."""
    found = {}
    for crate in sorted(os.listdir(os.path.join(TOP, "crates"))):
        for _, lines in files_in(crate, part, ".antt"):
            record = None
            for line in lines:
                name, field = DEFINITION.match(line), FIELD.match(line)
                if name:
                    record = name[1] if "record " in line[: name.start(1)] else None
                    found.setdefault(name[1], set()).add(crate)
                elif field and record:
                    found.setdefault(f"{record}.{field[1]}", set()).add(crate)
                elif line and not line.startswith(" "):
                    record = None
    return found


def told(name, crate):
    return f"{name} of {crate}" if crate else name


def main():
    if sys.argv[1:] != ["--check"]:
        print("usage: keeps.py --check", file=sys.stderr)
        return 2
    with open(PAGE, encoding="utf-8") as file:
        part = file.read()
    on_page = {told(*it.groups()) for it in PAGE_NAME.finditer(part)}
    in_heads = {told(*it.groups()) for head in HEAD.finditer(part) for it in PAGE_NAME.finditer(head[1])}
    specs, proofs = definitions("specs"), definitions("proofs")
    kept, wrong, writes, lines_there = set(), [], 0, 0
    for crate in sorted(os.listdir(os.path.join(TOP, "crates"))):
        for path, lines in files_in(crate, "src", ".rt"):
            for number, line in enumerate(lines, 1):
                if crate in MACHINES and WRITE.search(line.split("//")[0]):
                    writes += 1
                    if number < 2 or not LINE.match(lines[number - 2]):
                        wrong.append(f"{path}:{number}: an access writes, and no line above it says what it keeps")
                found = LINE.match(line)
                if not found:
                    continue
                lines_there += 1
                for item in re.split(r", | and ", found[1].split(":")[0].strip()):
                    name = NAME.fullmatch(item)
                    if not name:
                        wrong.append(f"{path}:{number}: `{item}` is no name")
                        continue
                    kept.add(item)
                    by = specs.get(name[1]) or proofs.get(name[1]) or set()
                    if item not in on_page:
                        wrong.append(f"{path}:{number}: `{item}` is no invariant of docs/INVARIANTS.md")
                    if not by or name[2] and name[2] not in by:
                        wrong.append(f"{path}:{number}: no crate defines `{item}`")
                    elif len(by) > 1 and not name[2]:
                        wrong.append(f"{path}:{number}: `{item}` of which of {', '.join(sorted(by))}?")
    for name in sorted(in_heads - kept):
        wrong.append(f"docs/INVARIANTS.md: `{name}` stands behind the head of an invariant, and no line says that an access keeps it")
    for it in wrong:
        print(it)
    if not wrong:
        print(f"{lines_there} lines say what {writes} accesses keep, and name {len(kept)} facts of docs/INVARIANTS.md")
    return 1 if wrong else 0


sys.exit(main())
