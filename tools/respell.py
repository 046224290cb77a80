#!/usr/bin/env python3
"""Spells the names that this repository defines in antt as Rattle spells its own: words in snake case, types in camel case.

usage: respell.py            at the top of the repository, once, with everything committed; it prints each name and its new spelling
       respell.py --list     prints them and writes nothing

A name of a definition, lemma, constructor, field or local value with a dash gets an underscore for it (`arena-nodes`, `arena_nodes`), and one
that begins with a capital loses it (`Tokens-only`, `TokensOnly`); so do names with a prime between letters. Names of Rattle's own library, and
those that Rattle makes for a function's proof (after `c.`, `l.`, `goal.`, and where a proof file answers a goal), stay as they are. It stops
where two names would fall together.
"""
import os
import re
import sys

NAME = r"[A-Za-z][A-Za-z0-9_₀-₉]*(?:-[A-Za-z0-9_₀-₉]+)+'*"
TOKEN = re.compile(r"(?<![\w'₀-₉·◌-])(" + NAME + r")(?![\w'₀-₉◌-])")
TOP = re.compile(r"^(?:pub |abbrev |unfoldable |private )*(?:(?:record|data) )?([A-Za-z][^\s:(]*)(?= |$)")
INNER = re.compile(r"^ +(?:pub |abbrev |unfoldable |private )*(?:(?:record|data) )?([A-Za-z][^\s:(]*(?: [A-Za-z][^\s:(]*)*) (?::|\(|\{)")
USE = re.compile(r"^(?:ghost )?use ([A-Za-z][\w.+·-]*)\.\{([^}]*)\}", re.M)
LOCAL = re.compile(r"(?:\blet |λ |[({])(" + NAME + r")(?= [:=]|\.| [a-z'-]+ :)")


def files(root):
    for folder, dirs, names in os.walk(os.path.join(root, "crates")):
        dirs[:] = sorted(d for d in dirs if d not in ("out", ".git"))
        for n in sorted(names):
            if n.endswith((".antt", ".rt", ".edit")):
                yield os.path.join(folder, n)


def read(p):
    with open(p, encoding="utf-8", newline="") as f:
        return f.read()


def spelled(name):
    if name[0].isupper():
        return "".join(w[0].upper() + w[1:] for w in name.split("-"))
    return name.replace("-", "_")


def answers(p):
    """Whether a file answers goals of a function: names of goals are Rattle's there."""
    return os.path.basename(p) in ("Answers.antt", "Invariants.antt", "Choices.antt")


def defined(p, text):
    out, goals = set(), set()
    for line in text.split("\n"):
        if line[:1] not in ("", " ", "-"):
            m = TOP.match(line)
            if m and not line.startswith(("use ", "pub mod ", "mod ")):
                (goals if answers(p) and re.search(r" : goal\.", line) else out).add(m.group(1))
        else:
            m = INNER.match(line)
            if m and re.match(r" *(?:pub |abbrev |unfoldable |record |data )*[A-Za-z][^:({]* :", line):
                out.update(w for w in m.group(1).split() if re.fullmatch(NAME, w))
    out.update(LOCAL.findall(text))
    out.update(re.findall(r"(?m)^ +deriving \w+ as (" + NAME + ")", text))
    return out - goals, goals


def imported(text, kit):
    """Names that a file imports from the kit (or, with kit false, from this repository)."""
    out = set()
    for m in USE.finditer(text):
        ours = m.group(1).startswith("Rattle.") and not m.group(1).startswith("Rattle.std.")
        if ours != kit:
            out.update(w.split(" as ")[0].strip() for w in m.group(2).split(","))
    return out


def main(argv):
    root = "."
    texts = {p: read(p) for p in files(root)}
    names, goals, by = set(), {}, {}
    for p, t in texts.items():
        if p.endswith(".antt"):
            by[p], goals[p] = defined(p, t)
            names |= by[p]
    names = {n for n in names if "-" in n}
    kit = {n for t in texts.values() for n in imported(t, True) if "-" in n}
    for n in sorted(names & kit):
        print(f"look: {n} is also a name of the kit; it stays where a file imports that one")
    new = {n: spelled(n) for n in sorted(names)}
    old = {n for d in by.values() for n in d if "-" not in n}
    back = {}
    for n, s in new.items():
        back.setdefault(s, []).append(n)
    bad = 0
    for s, ns in back.items():
        if len(ns) > 1:
            print(f"fall together: {' '.join(ns)} as {s}")
            bad += 1
        elif s in old:
            where = [p for p in by if s in by[p]]
            both = [p for p in by if (s in by[p] or s in imported(texts[p], False)) and re.search(r"(?<![\w'-])" + re.escape(ns[0]) + r"(?![\w'-])", texts[p])]
            print(f"same word elsewhere: {ns[0]} as {s}: {' '.join(where[:3])}; in one file: {' '.join(both) or 'none'}")
            bad += bool(both)
    for n, s in new.items():
        clash = [p for p in texts if s in imported(texts[p], True) and TOKEN.search(texts[p]) and n in set(TOKEN.findall(texts[p]))]
        if clash:
            print(f"a word of the kit: {n} as {s}: {' '.join(clash)}")
            bad += 1
    if bad:
        print(f"{bad} names to look at")
    if "--list" in argv:
        for n, s in new.items():
            print(f"{n} -> {s}")
        return 0
    for p, t in texts.items():
        keep = imported(t, True) | goals.get(p, set())

        def turn(m):
            n = m.group(1)
            before = t[max(0, m.start() - 5) : m.start()]
            if n in keep or n not in new or (answers(p) and re.search(r"(?:^|[\s(,])(?:c|l|goal)\.$", before)):
                return n
            return new[n]

        out = TOKEN.sub(turn, t)
        if out != t:
            with open(p, "w", encoding="utf-8", newline="") as f:
                f.write(out)
    for n, s in new.items():
        print(f"{n} -> {s}")
    return 0


if __name__ == "__main__":
    sys.exit(main(sys.argv[1:]))
