#!/usr/bin/env python3
"""Brings the names of definitions and lemmas to today's spelling: words in snake case, types and facts in camel case.

usage: python3 tools/respell_names.py [TOP]     run once, after port.py, at the top of the repository (or for the one at TOP)

The table beside this file has a line for each name: old, new and, where one file alone is meant, that file. Names of the
code and names that Rattle makes stay. Text after `old:` and `new:` of a must-fail edit is turned too, and names in
backquotes in README.md and docs/.
"""
import os
import re
import sys

HERE = os.path.dirname(os.path.realpath(__file__))
TOKEN = re.compile(r"(?<![\w'-])([A-Za-z][\w'-]*)")


def table():
    everywhere, single = {}, {}
    with open(os.path.join(HERE, "respell_names.tsv"), encoding="utf-8") as f:
        for line in f:
            old, new, *where = line.rstrip("\n").split("\t")
            if where:
                single.setdefault(where[0], {})[old] = new
            else:
                everywhere[old] = new
    return everywhere, single


def fields(top):
    """The names that a record of the repository gives to a part: only these are turned behind a dot."""
    found = set()
    for p in files(top, (".antt",)):
        inside = None
        for line in open(p, encoding="utf-8"):
            depth = len(line) - len(line.lstrip())
            if not line.strip():
                continue
            if inside is not None and depth <= inside:
                inside = None
            if re.match(r"\s*(pub )?record \S+.* where", line):
                inside = depth
            elif inside is not None:
                m = re.match(r"\s*(?:pub )?([A-Za-z][\w'-]*(?: [A-Za-z][\w'-]*)*) :", line)
                if m:
                    found |= set(m.group(1).split())
    return found


def files(top, ends):
    for folder, dirs, names in os.walk(os.path.join(top, "crates")):
        dirs[:] = sorted(d for d in dirs if d != "out")
        for n in sorted(names):
            if n.endswith(ends):
                yield os.path.join(folder, n)


def clausal(name):
    return "-" in name or (name[0].islower() and name != name.lower())


def turn(text, names, parts):
    def one(m):
        old = m.group(1)
        if old not in names:
            return old
        before = text[: m.start()]
        if before.endswith(".") and not before.endswith("..") and old not in parts:
            owner = re.search(r"([\w'-]+)\.$", before)
            if not (owner and owner.group(1)[:1].isupper()):
                return old
        return names[old]

    return TOKEN.sub(one, text)


def main():
    top = sys.argv[1] if len(sys.argv) > 1 else "."
    everywhere, single = table()
    parts = fields(top)
    for p in files(top, (".antt", ".rt")):
        names = everywhere | single.get(os.path.relpath(p, top), {})
        old = open(p, encoding="utf-8").read()
        if p.endswith(".rt"):
            # a name with a dash, or a capital within, stands only in clauses, and is no part of a string
            names = {a: b for a, b in names.items() if clausal(a)}
            new = "".join(l if '"' in l else turn(l, names, parts) for l in old.splitlines(True))
        else:
            new = turn(old, names, parts)
        if new != old:
            open(p, "w", encoding="utf-8").write(new)
    dashed = {a: b for a, b in everywhere.items() if clausal(a)}
    for p in files(top, (".edit",)):
        old = open(p, encoding="utf-8").read()
        new = "".join(turn(l, dashed, parts) if l.startswith(("old:", "new:")) else l for l in old.splitlines(True))
        if new != old:
            open(p, "w", encoding="utf-8").write(new)
    pages = [os.path.join(top, "README.md")] + [os.path.join(top, "docs", n) for n in sorted(os.listdir(os.path.join(top, "docs"))) if n.endswith(".md")]
    for p in pages:
        old = open(p, encoding="utf-8").read()
        new = re.sub(r"`[^`\n]+`", lambda m: turn(m.group(0), everywhere, parts), old)
        if new != old:
            open(p, "w", encoding="utf-8").write(new)


if __name__ == "__main__":
    main()
