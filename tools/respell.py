#!/usr/bin/env python3
"""Brings this repository's own definitions and laws to the spelling that Rattle's library has: words in snake case.

usage: tools/respell.py        in the repository, once, after port.py and before any edit by hand

A name that specs/ or proofs/ declare is turned where it has a capital behind a small letter or a dash between words; a name of the library's is not
declared here and stays. In src/ only `ghost use` lines and clauses are read. Where two names of ours would fall together, the law of the two gets
`_lem` behind it. It prints every name turned with --list.
"""

import os
import re
import sys

SEPARATORS = re.compile(r"([\s(){}\[\].,;⌜⌝\"]+)")
DECLARED = re.compile(r"^ *(?:abbrev |unfoldable )?(?:pub )?(?:abbrev |unfoldable )?(?:data |record )?([^\s:=.(){}\[\],;]+) :(?= |$)")
CONSTRUCTORS = re.compile(r"^ +(?:pub )?([^\s:=.(){}\[\],;]+) :(?= |$)")


def files(root, kind):
    for folder, dirs, names in os.walk(os.path.join(root, "crates")):
        dirs[:] = sorted(d for d in dirs if d != "out")
        for n in sorted(names):
            if n.endswith(kind):
                yield os.path.join(folder, n)


def snake(name):
    name = name.replace("-", "_")
    return re.sub(r"([a-z0-9])([A-Z])", lambda m: m.group(1) + "_" + m.group(2).lower(), name)


def declared(root):
    specs, proofs = {}, {}
    for p in files(root, ".antt"):
        to = specs if "/specs/" in p else proofs
        for line in open(p, encoding="utf-8"):
            m = DECLARED.match(line)
            if m and not m.group(1)[0].isupper() and m.group(1) not in ("_", "→"):
                to.setdefault(m.group(1), set()).add(p)
    return specs, proofs


def turned(root):
    """Each old name with its new one: a definition of specs/ has the plain one, and a law that would share it `_lem`."""
    specs, proofs = declared(root)
    to, taken = {}, {}
    for names in (specs, proofs):
        for old in sorted(names, key=lambda n: (snake(n) != n, n)):
            if old[0] in "◌+" or old in to:
                continue
            new = snake(old)
            if names is proofs and old in specs:
                continue
            if taken.get(new, old) != old:
                new += "_lem"
            taken.setdefault(new, old)
            if new != old:
                to[old] = new
    return to


def in_text(text, to):
    parts = SEPARATORS.split(text)
    return "".join(to.get(p, p) for p in parts)


def in_source(text, to):
    out = []
    for line in text.split("\n"):
        if re.match(r"\s*(ghost use|requires|ensures)\b", line) or "≡" in line or re.match(r"\s*ghost\b", line):
            line = in_text(line, to)
        out.append(line)
    return "\n".join(out)


def main():
    root = os.path.dirname(os.path.dirname(os.path.abspath(__file__)))
    if len(sys.argv) > 1 and sys.argv[1] != "--list":
        root = sys.argv[1]
    to = turned(root)
    if "--list" in sys.argv:
        for old in sorted(to):
            print(old, to[old])
        return
    for kind, turn in ((".antt", in_text), (".rt", in_source)):
        for p in files(root, kind):
            text = open(p, encoding="utf-8").read()
            new = turn(text, to)
            if new != text:
                open(p, "w", encoding="utf-8").write(new)
    print(len(to), "names turned")


main()
