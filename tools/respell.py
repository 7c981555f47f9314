#!/usr/bin/env python3
"""Respells the repository's own definitions and lemmas: words in snake case, as the Rattle of rattle-kit-13f spells them.

usage: python3 tools/respell.py [--list]      at the top of the repository, once, right after port.py

What is respelled: every name that a line of specs/ or proofs/ declares (definitions, lemmas, local lemmas, fields of
records) and that has a dash or a capital inside a word. Names that Rattle makes, such as the goals of a function, and
the names of src/ stay. --list prints the names and changes nothing.
"""
import os
import re
import sys

# A lemma whose plain spelling a word of the library has: bit of a bit_xor.
APART = {"bit-xor": "bit-bit_xor"}
DECLARED = re.compile(r"^\s*(?:(?:pub|abbrev|unfoldable) )*([a-z][\w'-]*)(?:\s+[({].*)?\s*:\s*(\S*)")
# A name, or first a comment or a text in quotes, which keep their words.
SPOKEN = re.compile(r"((?:--|//)(?=[ \n]).*|\"(?:[^\"\\\n]|\\.)*\")|(?<![\w'·-])[A-Za-z_][\w']*(?:-[\w']+)*")


def files():
    for folder, dirs, names in os.walk("crates"):
        dirs[:] = sorted(d for d in dirs if d != "out")
        for name in sorted(names):
            if name.endswith((".rt", ".antt")):
                yield os.path.join(folder, name)


def respelled(name):
    plain = re.sub(r"(?<=[a-z0-9])([A-Z])(?=[a-z])", lambda m: "_" + m.group(1).lower(), name)
    if name in APART.values():
        return name
    return APART.get(name, plain.replace("-", "_").lower())


def own_names():
    """The names that specs/ and proofs/ declare and whose spelling changes."""
    found = set()
    for path in files():
        if path.endswith(".antt"):
            for line in open(path, encoding="utf-8"):
                m = DECLARED.match(line)
                if m and not m.group(2).startswith("goal."):
                    found.add(m.group(1))
    return {name: respelled(name) for name in found if respelled(name) != name}


def main():
    names = own_names()
    if "--list" in sys.argv:
        for old in sorted(names):
            print(old, names[old])
        return
    for path in files():
        text = open(path, encoding="utf-8").read()
        new = SPOKEN.sub(lambda m: m.group(0) if m.group(1) else names.get(m.group(0), m.group(0)), text)
        if new != text:
            open(path, "w", encoding="utf-8").write(new)


main()
