"""The colours of pages and pictures, as variables of CSS."""
import re

LIGHT = """
    --paper: #fff; --ground: #f6f7f9; --ink: #1c2433; --soft: #667085; --line: #c3cad6; --accent: #1d5fd1;
    --lost: #d92d20; --won: #15803d; --pause: #5b5f97; --pause-ground: #e6e7f6; --call: #eef3fc; --phase1: #fff6dc;
    --phase2: #ffe9dd; --phase3: #e3f5e7; --cursor: #facc15; --object: #cfe0fb; --object-edge: #3b6fd4; --old: #f9e3c4;
    --old-edge: #b26a00; --pale: #e9eef7; --pale-edge: #b4c0d4; --frame: #c2410c; --t1: #1d5fd1; --t2: #c2410c;
    --t3: #15803d; --t4: #7c3aed; --t5: #be185d; --t6: #0e7490; --t7: #92610a; --t8: #4d6b0f; --h1: #0f766e;
    --h2: #5b21b6; --h3: #9f1239; --c: #475467; --empty: #fbfcfd; --grey: #8a94a6; --black: #111827; --field: #475467;
"""

DARK = """
    --paper: #12161f; --ink: #e7ebf3; --soft: #98a4b8; --line: #364154; --empty: #171c27; --object: #1f3b6b;
    --object-edge: #7aa7f7; --old: #4a3413; --old-edge: #f0b35a; --pale: #222b3b; --pale-edge: #3a4456;
    --frame: #fb923c; --grey: #8793a8; --black: #f8fafc; --field: #a9b4c6; --t1: #7db0ff; --t2: #ff9a62; --t3: #62d58a;
    --t4: #b79bff; --t5: #ff8ac0; --t6: #5fd0e6; --t7: #e8bd5f; --t8: #b5d65f; --h1: #5eead4; --h2: #c4b5fd;
    --h3: #fda4af; --c: #b5bfce; --ground: #0b0e14; --accent: #7db0ff; --lost: #ff7a70; --won: #62d58a;
    --pause: #b3b7f0; --pause-ground: #23264a; --call: #1a2436; --phase1: #2a2510; --phase2: #2f1d12; --phase3: #12271a;
    --cursor: #fde047;
"""


def some(block, names):
    """The variables of a block that have these names."""
    return " " + " ".join(f"{name}: {value};" for name, value in re.findall(r"(--[\w-]+): ([^;]+);", block) if name in names) + " "


def colours(selector, names):
    """The rules that give an element the colours of these names, as the reader's system wants them."""
    light, dark = some(LIGHT, names), some(DARK, names)
    return f"{selector} {{{light}}}\n@media (prefers-color-scheme: dark) {{ {selector} {{{dark}}} }}\n"


def chosen(selector):
    """The same, where the reader may choose: by the attribute data-theme."""
    dark = f"@media (prefers-color-scheme: dark) {{ {selector}:not([data-theme]) {{{DARK}}} }}"
    picks = f'{selector}[data-theme="dark"] {{ color-scheme: dark; {DARK}}}\n{selector}[data-theme="light"] {{ color-scheme: light; }}'
    return f"{selector} {{ color-scheme: light dark; {LIGHT}}}\n{dark}\n{picks}\n"
