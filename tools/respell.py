#!/usr/bin/env python3
"""Brings the names of this repository's own definitions and lemmas to snake case.

usage: python3 tools/respell.py     once, at the top, right after the toolchain's port.py

Definitions, fields and constructors: maxNodes becomes max_nodes. Lemmas: a dash stays between two names that are defined,
as in length-map, and is an underscore elsewhere. A lemma that would get a definition's name gets _lem. Types keep their capitals.
"""
import glob
import re

CAMEL = re.compile(r"[a-z][a-z0-9]*[A-Z]")
TOKEN = re.compile(r"[^\s(){}\[\];,.:\"`&|!]+")
DECLARED = re.compile(r"(\s*)((?:unfoldable |abbrev |pub |data |record )*)([^\s:(){}.]+)(?: [({].*)? ?:(?: |$)")
KNOWN = {"length", "drop", "take", "map", "filter", "get_or", "set", "sum", "le", "lt", "eqb", "append", "cond", "not", "min", "max"}


def snake(name):
    return re.sub(r"(?<=[a-z0-9])([A-Z])", lambda m: "_" + m.group(1).lower(), name)


def files(*patterns):
    return sorted(p for q in patterns for p in glob.glob(q, recursive=True) if "/out/" not in p)


def declared():
    """Definitions, and everything else that a file of specs/ or of proofs/ itself declares."""
    defined, proved = set(), set()
    for p in files("crates/*/specs/*.antt", "crates/*/proofs/*.antt"):
        for line in open(p, encoding="utf-8"):
            m = DECLARED.match(line)
            if not m or m.group(3) in ("use", "module", "--", "let", "in"):
                continue
            inner, marks, name = m.groups()
            if inner and "pub" not in marks:
                continue
            if not inner and ("unfoldable" in marks or "abbrev" in marks or "data" in marks or "record" in marks):
                defined.add(name)
            else:
                proved.add(name)
    return defined, proved


def dashed(name, names):
    parts = [snake(p) for p in name.split("-")]
    out = [parts[0]]
    i = 1
    while i < len(parts):
        # the longest run of parts that is one name
        for j in range(len(parts), i, -1):
            run = "_".join(parts[i:j])
            if j == i + 1 or run in names:
                break
        left = out[-1].split("-")[-1]
        out[-1] = out[-1] + ("-" if left in names and run in names else "_") + run
        i = j
    return out[0]


def mapping():
    defined, proved = declared()
    names = {snake(d) for d in defined if not d[0].isupper()} | KNOWN
    to = {d: snake(d) for d in defined if CAMEL.match(d)}
    taken = {snake(d) for d in defined} | {"bit_and", "bit_or", "bit_xor"}
    for name in sorted(proved):
        if name in defined:
            continue
        new = name if name[:1].isupper() else dashed(name, names) if "-" in name else snake(name)
        if new in taken and (new != name or new in to.values()):
            new += "_lem"
        if new != name:
            to[name] = new
            assert new not in taken, (name, new)
            taken.add(new)
    return to


def turn(text, to, pick):
    return TOKEN.sub(lambda m: to.get(m.group(), m.group()) if pick(m) else m.group(), text)


def main():
    to = mapping()
    known = set().union(*declared()) | set(to.values())
    own = {n for n, new in to.items() if new.endswith("_lem") and "-" not in n and not CAMEL.match(n)}
    clash = {n: new for n, new in to.items() if n in own}
    plain = {n: new for n, new in to.items() if n not in own}
    for p in files("crates/*/specs/**/*.antt", "crates/*/proofs/**/*.antt"):
        text = open(p, encoding="utf-8").read()
        lines = []
        here = {n: new for n, new in clash.items() if re.search(rf"(?m)^(use [^\n]*[{{ ,]{n}[,}}]| *(pub )?{n} :)", text)}
        for line in text.split("\n"):
            if line.lstrip().startswith("--"):
                line = turn(line, plain, lambda m: CAMEL.match(m.group()))
            else:
                line = turn(line, here, lambda m: True)
                line = TOKEN.sub(lambda m: plain.get(m.group(), snake(m.group()) if CAMEL.match(m.group()) else m.group()), line)
            lines.append(line)
        open(p, "w", encoding="utf-8").write("\n".join(lines))
    for p in files("crates/*/src/**/*.rt", "crates/*/must-fail/*.edit"):
        text = open(p, encoding="utf-8").read()
        new = "\n".join(turn(line, plain, lambda m: CAMEL.match(m.group()) or (line.startswith("ghost ") or "specs/" in text) and "-" in m.group()) for line in text.split("\n"))
        open(p, "w", encoding="utf-8").write(new)
    for p in files("README.md", "docs/*.md", "bench/README.md"):
        text = open(p, encoding="utf-8").read()
        said = lambda m: TOKEN.sub(lambda t: plain.get(t.group(), snake(t.group()) if CAMEL.match(t.group()) and snake(t.group()) in known else t.group()), m.group())
        open(p, "w", encoding="utf-8").write(re.sub(r"`[^`\n]*`", said, text))
    for n in sorted(to):
        print(n, to[n])


main()
