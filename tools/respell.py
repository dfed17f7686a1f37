#!/usr/bin/env python3
"""Brings the names that this repository gives in specs/ and proofs/ to one spelling: types in camel case, all else in snake case.

usage: python3 tools/respell.py [--check]        at the top of the repository, once, after the kit's own port.py

It goes by the text: a name with a dash that a file of specs/ or proofs/ gives (a definition, a lemma, a field, a constructor) is respelled
wherever it stands as a word of a .rt or .antt file, of a must-fail edit or of a page of docs/. Names that Rattle makes
(goals, steps and their fields) are left, and so is what stands behind `goal.`. With --check it writes nothing and prints the table.
A name that another already has gets the ending _lem. A definition may have the name of the function of src/ that it speaks of.
"""

import os
import re
import sys

GIVEN = re.compile(r"^\s*((?:pub |abbrev |unfoldable |data |record )*)([^\s:(){}\[\],;.]+)(?: :|\s*[({].*\) :|\s*[({].*} :)(.*)$")
WORD = re.compile(r"(?<![\w'₁₂◌-])[A-Za-z_](?:[\w'₁₂]|-(?=[\w]))*")


def texts(root):
    for top in ("crates", "docs"):
        for folder, dirs, files in os.walk(os.path.join(root, top)):
            dirs[:] = sorted(d for d in dirs if d not in ("out", ".git"))
            for f in sorted(files):
                if f.endswith((".rt", ".antt", ".edit", ".md")):
                    yield os.path.join(folder, f)


def given(root):
    """The names with a dash that files of specs/ and proofs/ give, and those that Rattle gives answers."""
    own, made = {}, set()
    for p in texts(root):
        if not p.endswith(".antt") or p.endswith("Proof.antt"):
            continue
        with open(p, encoding="utf-8") as f:
            for line in f:
                m = GIVEN.match(line)
                if not m or "-" not in m[2]:
                    continue
                if m[3].strip().startswith("goal."):
                    made.add(m[2])
                else:
                    own.setdefault(m[2], []).append(os.path.relpath(p, root))
    return {n: ps for n, ps in own.items() if n not in made and re.fullmatch(WORD, n)}


def others(read):
    """The names with no dash that files of specs/ and proofs/ give, or import from a library."""
    names = set()
    for p, text in read.items():
        if p.endswith(".antt"):
            names |= {m[2] for m in map(GIVEN.match, text.splitlines()) if m and not m[3].strip().startswith("goal.")}
        for m in re.finditer(r"use (Rattle\.(?:std|core)|borrow|denote|lib|native|Prim|mathlib)[\w.]*\.\{([^}]*)\}", text):
            names |= {n.strip().split(" as ")[-1] for n in m[2].split(",")}
    return names


def respelled(name):
    parts = name.split("-")
    if name[0].isupper():
        return "".join(p[0].upper() + p[1:] for p in parts)
    return "_".join(p.lower() for p in parts)


def main(argv):
    root = os.getcwd()
    table = {n: respelled(n) for n in given(root)}
    read = {}
    for p in texts(root):
        with open(p, encoding="utf-8") as f:
            read[p] = f.read()
    taken = others(read) | {to for to in table.values() if list(table.values()).count(to) > 1}
    for n, to in sorted(table.items()):
        if to in taken:
            table[n] = to + "_lem"
        if "--check" in argv:
            print(f"{n} -> {table[n]}" + (", since that name is taken" if to in taken else ""))
    if "--check" in argv:
        return 0

    def one(text):
        def turn(m):
            before = text[max(0, m.start() - 5):m.start()]
            if before.endswith("goal.") or (before.endswith(("w.", "c.")) and m[0].endswith("-is")):
                return m[0]
            return table.get(m[0], m[0])

        return WORD.sub(turn, text)

    n = 0
    for p, text in read.items():
        new = one(text)
        if new != text:
            n += 1
            with open(p, "w", encoding="utf-8") as f:
                f.write(new)
    print(f"respell: {len(table)} names in {n} files")
    return 0


if __name__ == "__main__":
    raise SystemExit(main(sys.argv[1:]))
