#!/usr/bin/env python3
"""Brings the repository's own definitions and lemmas to snake case, after the kit's port.py and once.

usage: python3 tools/respell.py [--list]      at the top of the repository

It takes the names that crates/*/specs/*.antt and crates/*/proofs/*.antt define: `product-fits` and `firstOf-none` become
`product_fits` and `first_of_none`, `isLive` becomes `is_live`; a name that begins with a capital is a type or a fact and keeps its
spelling. It writes them so in every .antt file, in the clauses of every .rt file and in every must-fail edit. --list prints what
changes and what falls together, and writes nothing.
"""

import collections
import os
import re
import sys

TOKEN = re.compile(r"[^\s(){}\[\].,;@\"`]+")
# A record's field, a constructor, a definition or a lemma: its name stands at the head of a line, before a colon.
HEAD = re.compile(r"^\s*(?:(?:pub|abbrev|unfoldable) )*(?:(?:data|record) )?([^\s(){}\[\].,;@\"`:|]+)(?:\s+[({].*)?\s*:")
RULES = re.compile(r"^\s*(?:pub )?ruleset ([^\s(){}\[\].,;]+)")
# Names of the library too, in other files: they stay.
STAY = {"and-true", "or-true"}
GIVEN = {"Counts-by": "CountsBy", "Said-by": "said_by"}
# A lemma or a field that would fall together with a definition, in the file that has it and in those that use it.
APART = {
    "is_live": ("is_live_lem", "Rattle.sound.proofs.Live"),
    "find_at": ("find_at_lem", "Rattle.entrylaws.proofs.Making"),
    "in_use": ("in_use_lem", "Rattle.census.proofs.Halves"),
}
APART_IN = {
    "crates/halves/proofs/Alike.antt": {"find_at": "find_at_lem"},
    "crates/order/proofs/Room.antt": {"no_cell": "holds_no_cell"},
    "crates/order/proofs/NoneFull.antt": {"no_cell": "holds_no_cell"},
    "crates/order/specs/Claims.antt": {"no_cell": "holds_no_cell"},
    "crates/order/specs/Engine.antt": {"no_cell": "holds_no_cell"},
}


def files(root, *ends):
    for folder, dirs, names in os.walk(os.path.join(root, "crates")):
        dirs[:] = sorted(d for d in dirs if d != "out")
        for name in sorted(names):
            if name.endswith(ends):
                yield os.path.join(folder, name)


def read(path):
    with open(path, encoding="utf-8") as f:
        return f.read()


def snake(name):
    if name in GIVEN:
        return GIVEN[name]
    if name in STAY or not re.match(r"[a-z]", name):
        return name
    name = re.sub(r"([a-z0-9])([A-Z])", lambda m: m[1] + "_" + m[2].lower(), name)
    return name.replace("-", "_").lower()


def own(root):
    """Each name that a specs/ or proofs/ file of the repository defines, with the files that do."""
    found = collections.defaultdict(set)
    for path in files(root, ".antt"):
        if not re.search(r"/(specs|proofs)/[^/]+\.antt$", path):
            continue
        for line in read(path).splitlines():
            if line.lstrip().startswith("--"):
                continue
            m = HEAD.match(line) or RULES.match(line)
            if m:
                found[m[1]].add(path)
    return found


def together(found):
    """The names that would be one, by the spelling they would have."""
    into = collections.defaultdict(set)
    for n in found:
        into[snake(n)].add(n)
    return {k: v for k, v in into.items() if len(v) > 1}


def renamed(found):
    """The names that change. Of a definition and a lemma on it that would be one, the lemma gets `_lem`."""
    names = {n: snake(n) for n in found if snake(n) != n}
    for new, olds in together(found).items():
        for n in olds:
            if "-" in n and n not in GIVEN:
                names[n] = new + "_lem"
    return names


def apart(root, path, text):
    """What is renamed in this file alone."""
    here = dict(APART_IN.get(os.path.relpath(path, root), {}))
    for n, (new, module) in APART.items():
        defines = path.endswith(module.replace("Rattle.", "crates/").replace(".", "/") + ".antt")
        uses = re.search(r"use " + re.escape(module) + r"\.\{[^}]*(?<![\w-])" + n + r"(?![\w-])", text)
        if defines or uses:
            here[n] = new
    return here


def respelled(text, names, strings_stay):
    def turn(m):
        return names.get(m[0], m[0])

    if not strings_stay:
        return TOKEN.sub(turn, text)
    parts = re.split(r'("(?:[^"\\]|\\.)*")', text)
    return "".join(p if i % 2 else TOKEN.sub(turn, p) for i, p in enumerate(parts))


def main():
    root = os.getcwd()
    found = own(root)
    names = renamed(found)
    ends = (".antt", ".rt", ".edit")
    if "--list" in sys.argv:
        for k, v in sorted(together(found).items()):
            print("together:", k, "<-", *sorted(v), "|", *sorted({os.path.relpath(p, root) for n in v for p in found[n]}))
        for path in files(root, *ends):
            tokens = set(TOKEN.findall(read(path)))
            for t in sorted(tokens):
                if t in names and names[t] in tokens:
                    print("beside:", t, names[t], os.path.relpath(path, root))
        print(len(names), "names change of", len(found))
        return
    changed = 0
    for path in files(root, *ends):
        old = read(path)
        new = respelled(old, names | apart(root, path, old), path.endswith(".rt"))
        if new != old:
            changed += 1
            with open(path, "w", encoding="utf-8") as f:
                f.write(new)
    print(len(names), "names,", changed, "files")


main()
