#!/usr/bin/env python3
"""Brings the repository's own words, lemmas and fields of specs/ and proofs/ to snake case, as today's Rattle spells them.

usage: python3 tools/snake_names.py      at the top, after port.py; run again, it changes nothing

A word that some specs/ or proofs/ defines, or that a use line brings under, and that begins in lower case loses its capitals: sideAt becomes
side_at, in every .antt file, in the clauses of every .rt file, and in the must-fail edits. Strings, functions, types, variants and modules
keep their names. It stops where two names would fall together.
"""
import os
import re
import sys

ALIAS = re.compile(r"^(?:ghost )?use .*$", re.M)
DEFINED = re.compile(r"^\s*(?:(?:abbrev|unfoldable|pub)\s+)*([^\s:(){}\[\]λ;,.=]+) (?:\([^)]*\) )*: ")
PART = re.compile(r"(?<=[a-z0-9])([A-Z])")
STRING = re.compile(r'"(?:[^"\\]|\\.)*"')


def files(*ends):
    for folder, dirs, names in os.walk("crates"):
        dirs[:] = sorted(d for d in dirs if d != "out")
        for name in sorted(names):
            if name.endswith(ends):
                yield os.path.join(folder, name)


def read(path):
    with open(path, encoding="utf-8") as f:
        return f.read()


def snake(word):
    # A part of a name that is a type or a fact keeps its capital: only a capital behind a small letter is a new word. A law named after
    # the library's getD is named after what that is called now.
    return PART.sub(lambda m: "_" + m.group(1).lower(), word.replace("getD", "get_or"))


def defined():
    names = set()
    for path in files(".antt"):
        for line in read(path).splitlines():
            m = DEFINED.match(line)
            if m:
                names.add(m.group(1))
    for path in files(".antt", ".rt"):
        for line in ALIAS.findall(read(path)):
            names.update(re.findall(r" as ([^\s,};]+)", line))
    return names


def main():
    names = defined()
    turned = {n: snake(n) for n in names if n.lstrip("◌")[:1].islower() and PART.search(n)}
    for old, new in sorted(turned.items()):
        if new in names or list(turned.values()).count(new) > 1:
            sys.exit(f"{old} and another would both be {new}")
    # an infix word is written without its circles where it is used
    turned |= {o.strip("◌"): n.strip("◌") for o, n in turned.items() if o.startswith("◌")}
    if not turned:
        return
    word = re.compile(r"(?<![\w'-])(?:" + "|".join(sorted(map(re.escape, turned), key=len, reverse=True)) + r")(?![\w'-])")
    changed = 0
    for path in files(".antt", ".rt", ".edit"):
        text = read(path)
        parts, at = [], 0
        for m in STRING.finditer(text) if path.endswith(".rt") else ():
            parts += [word.sub(lambda w: turned[w.group()], text[at:m.start()]), m.group()]
            at = m.end()
        new = "".join(parts) + word.sub(lambda w: turned[w.group()], text[at:])
        if new != text:
            with open(path, "w", encoding="utf-8") as f:
                f.write(new)
            changed += 1
    print(f"{len(turned)} names, {changed} files")


main()
