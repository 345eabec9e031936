#!/usr/bin/env python3
"""Gives the definitions and lemmas of this repository today's spelling: words are joined by `_`, and types and facts are
in camel case. Run once at the top of a checkout, after /opt/rattle/port/port.py.

A name is turned where it is defined with a dash in specs/ or in a file of lemmas in proofs/, or is one of OTHERS: local
variables, and names that port.py turned everywhere but in edits. Names that the checker makes (goals, steps) and names of the library are left alone.
"""

import glob
import re

NAME = r"[^\s:(){}\[\].,;=|λ→∧×]+"
DEFINED = re.compile(r"^\s*(?:(?:abbrev|unfoldable|pub|record|data)\s+)*(" + NAME + r")(?:\s*[({].*?)?\s:(?:\s|$)")
OTHERS = ["b-inside", "by-now", "counts-m", "counts-n", "k-inside", "extent-entries", "run-entries", "goes-on", "same-kind",
          "min-count", "on-it", "r-solid", "yes-so", "zero-here"]


def files(*patterns):
    return sorted(f for p in patterns for f in glob.glob(p, recursive=True))


def read(path):
    with open(path, encoding="utf-8") as f:
        return f.read()


def turned(name):
    words = name.split("-")
    if name[0].isupper():
        return "".join(w[0].upper() + w[1:] for w in words)
    return "_".join(words)


def main():
    names = set(OTHERS)
    for path in files("crates/*/specs/**/*.antt", "crates/*/proofs/*.antt"):
        for line in read(path).splitlines():
            m = DEFINED.match(line)
            if m and "-" in m[1].strip("-"):
                names.add(m[1])
    table = {n: turned(n) for n in sorted(names)}
    # a dash, a quote or a letter on either side belongs to a longer name
    token = re.compile(r"(?<![\w'-])(" + "|".join(map(re.escape, sorted(table, key=len, reverse=True))) + r")(?![\w'-])")
    for path in files("crates/**/*.antt", "crates/**/*.rt", "crates/**/*.edit"):
        if "/out/" in path:
            continue
        old = read(path)
        new = token.sub(lambda m: table[m[1]], old)
        if new != old:
            with open(path, "w", encoding="utf-8") as f:
                f.write(new)
    print(f"{len(table)} names")


if __name__ == "__main__":
    main()
