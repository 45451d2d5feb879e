#!/usr/bin/env python3
"""Brings the repository's own definitions, lemmas and record fields to the spelling of today's Rattle.

usage: python3 tools/respell.py [ROOT]

What specs/ and proofs/ define with dashes in its name is written in snake case, or in camel case where it is a type. Names that
Rattle makes (goals, invariants, measures) keep their dashes, and so does everything in src/ but the clauses. It stops, and writes
nothing, where two names would fall together.
"""

import os
import re
import sys

# Names that no rule gives.
SPECIAL = {"getD-zeros": "get_or_zeros"}

HEAD = re.compile(r"\s*(?:(?:pub|abbrev|unfoldable|record|data)\s+)*([^\s:(){}]+(?:\s+[^\s:(){}]+)*)\s+(?:\([^:]*:[^)]*\)\s*)*:\s(.*)")
NAME = re.compile(r"[^\s(){}\[\],;.]+")
ALIAS = re.compile(r"[{,]\s*[^\s,{}]+ as ([a-z]+-[a-z-]+)")
LEFT = re.compile(r"([a-z_]+(?: [^=→:]+)?) =(?: |$)")


def files(root):
    for folder, dirs, names in os.walk(os.path.join(root, "crates")):
        dirs[:] = sorted(d for d in dirs if d not in ("out", "data"))
        for name in sorted(names):
            if name.endswith((".rt", ".antt")):
                yield os.path.join(folder, name)


def text_of(path):
    with open(path, encoding="utf-8") as f:
        return f.read()


def defined(text):
    """The names that a file of antt defines, but for the answers to Rattle's own goals."""
    for line in text.splitlines():
        if line.lstrip().startswith(("--", "let ", "use ")):
            continue
        m = HEAD.match(line)
        if m and "=" not in m.group(1) and "→" not in m.group(1) and not m.group(2).startswith("goal."):
            yield from m.group(1).split()


def local(path, text):
    """The aliases of imports, and in specs/ the parameters of definitions."""
    for line in text.splitlines():
        if re.match(r"\s*(ghost )?use ", line):
            yield from ALIAS.findall(line)
        elif "/specs/" in path:
            m = LEFT.match(line.strip())
            if m:
                yield from (w for w in NAME.findall(m.group(1)) if re.fullmatch(r"[a-z]+-[a-z-]+", w))


def respelt(name):
    if name in SPECIAL:
        return SPECIAL[name]
    if name[0].isupper():
        return "".join(part[0].upper() + part[1:] for part in name.split("-"))
    return name.replace("-", "_")


def main(root):
    texts = {path: text_of(path) for path in files(root)}
    names = {n for path, text in texts.items() if path.endswith(".antt") for n in defined(text)}
    names |= {n for path, text in texts.items() for n in local(path, text)}
    turned = {n: respelt(n) for n in names if "-" in n.strip("-◌") and "◌" not in n}
    taken = {}
    for old, new in turned.items():
        taken.setdefault(new, set()).add(old)
    clashes = [f"{sorted(olds)} would all be {new}" for new, olds in taken.items() if len(olds) > 1]
    clashes += [f"{olds.pop()} would be {new}, which is a name already" for new, olds in taken.items() if new in names]
    if clashes:
        print("\n".join(sorted(clashes)))
        return 1
    changed = 0
    for path, text in texts.items():
        new = NAME.sub(lambda m: turned.get(m.group(0), m.group(0)), text)
        if new != text:
            changed += 1
            with open(path, "w", encoding="utf-8") as f:
                f.write(new)
    print(f"{len(turned)} names respelt in {changed} files")
    return 0


if __name__ == "__main__":
    raise SystemExit(main(sys.argv[1] if len(sys.argv) > 1 else "."))
