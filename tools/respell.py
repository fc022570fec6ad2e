#!/usr/bin/env python3
"""Brings the repository's own definitions and lemmas to today's spelling, after port.py: words in snake case, a dash only behind a library's name.

usage: python3 tools/respell.py         in the repository: rewrites crates/ by tools/respelled.txt, each name with its new one, which it writes if it is not there
       python3 tools/respell.py PATH..  the same names in other files (pages, scripts)

A name that is declared in a file of specs/ or proofs/ is turned wherever it stands as a whole word. Functions of src/, texts and numbers stay.
A lemma that would get its function's name gets `_lem`.
"""
import collections
import os
import re
import sys

HERE = os.path.dirname(os.path.realpath(__file__))
LIST = os.path.join(HERE, "respelled.txt")
WORD = re.compile(r"\.?[A-Za-z_][\w'\-₀-₉]*")
DECLARED = re.compile(r"^\s*(?:(?:abbrev|unfoldable|pub)\s+)*([a-z][\w'\-₀-₉]*)((?:\s+[a-z][\w'\-₀-₉]*)*)\s*:(?:\s|$)")
CAMEL = re.compile(r"[a-z][a-z0-9]*[A-Z]")
# functions of the library that lemmas are named after
LIBRARY = set("length take drop append sets set map sum min max get_or slice_index leb ltb eqb suc and or not mul add sub div mod lt le reverse zero one".split())
ACRONYM = {"withTH": "with_th", "nearMAX": "near_max"}


def snake(name):
    if name in ACRONYM:
        return ACRONYM[name]
    return re.sub(r"(?<=[a-z0-9])([A-Z])(?=[a-z0-9_'\-]|$)", lambda m: "_" + m.group(1).lower(), name)


def dashes(name):
    """A dash stays behind a library's name; a plain word is added with an underscore."""
    front, *rest = name.split("-")
    if rest and front in LIBRARY:
        return front + "-" + "_".join(rest)
    return "_".join([front, *rest])


def files(root, kinds):
    for folder, dirs, names in os.walk(root):
        dirs[:] = sorted(d for d in dirs if d != "out")
        for n in sorted(names):
            if n.endswith(kinds):
                yield os.path.join(folder, n)


def read(path):
    with open(path) as f:
        return f.read()


def declared(root):
    """The names that files of definitions and lemmas declare, and which of them are fields of a record."""
    names, fields = set(), set()
    for p in files(root, (".antt",)):
        inside = None
        for line in read(p).splitlines():
            if not line.strip():
                continue
            indent = len(line) - len(line.lstrip())
            if inside is not None and indent <= inside:
                inside = None
            m = DECLARED.match(line)
            if m and ": tie." not in line:
                these = {m.group(1), *m.group(2).split()}
                names |= these
                if inside is not None:
                    fields |= these
            if re.match(r"\s*(pub\s+)?record\b.*\bwhere\s*$", line):
                inside = indent
    return names, fields


def plan(root):
    names, fields = declared(root)
    used = collections.Counter()
    for p in files(root, (".antt", ".rt")):
        used.update(w.lstrip(".") for w in WORD.findall(read(p)))
    new = {w: snake(w) for w in used if CAMEL.match(w) and "-" not in w and snake(w) != w}
    taken = set(new.values()) | {n for n in names if "-" not in n and not CAMEL.match(n)}
    for n in sorted(names):
        if n in new or n in ACRONYM:
            continue
        t = dashes(snake(n))
        if t == n:
            continue
        if t in taken and n not in fields:
            t += "_lem"
        if t in new.values():
            print(f"{n} would fall together with another {t}, and stays")
            continue
        new[n] = t
        taken.add(t)
    return new


def turn(path, new):
    text = read(path)
    # other names that a file gives to modules
    aliases = set(re.findall(r"\bas ([\w\-]+')", text))

    def word(m):
        w = m.group(0)
        dot, w = ("." if w[0] == "." else ""), w.lstrip(".")
        base = w.rstrip("'")
        if dot and "-" in base and base in new:
            return dot + dashes(snake(base)) + w[len(base):]
        if not dot and w == "is_same" and "crates/lexer/proofs" in path:
            return "is_same_lem"
        if w in aliases:
            return dot + dashes(snake(base)) + w[len(base):]
        return dot + new.get(base, base) + w[len(base):]

    out = WORD.sub(word, text)
    if out != text:
        with open(path, "w") as f:
            f.write(out)


def main(argv):
    if argv:
        new = dict(line.split() for line in read(LIST).splitlines())
        for p in argv:
            turn(p, new)
        return
    if not os.path.exists(LIST):
        new = plan("crates")
        with open(LIST, "w") as f:
            f.writelines(f"{n} {new[n]}\n" for n in sorted(new))
    new = dict(line.split() for line in read(LIST).splitlines())
    for p in files("crates", (".antt", ".rt", ".edit")):
        turn(p, new)
    print(f"{len(new)} names turned")


if __name__ == "__main__":
    main(sys.argv[1:])
