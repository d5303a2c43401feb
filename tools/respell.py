#!/usr/bin/env python3
"""Respells the repository's own definitions and lemmas: words in snake case, types in upper camel case.

Run once, at the top, after /opt/rattle/port/port.py. A name is turned where its file declares it, imports it from
a crate of this repository, or writes it behind a module of one. Names that Rattle makes, names of std, functions,
strings, inputs and outputs stay.
"""
import glob
import os
import re
import sys

WORD = r"[A-Za-z0-9_'ℕℤ]+(?:-[A-Za-z0-9_'ℕℤ]+)*"
DECLARED = re.compile(r"^\s*(?:(?:abbrev|unfoldable|pub|data|record|ruleset) )*(" + WORD + r")\s*:(?!=)")
CONSTRUCTOR = re.compile(r"^\s*\|?\s*(" + WORD + r")\s*:")
HEADED = re.compile(r"^\s*(?:pub )?(?:data|record|ruleset) (" + WORD + r")|^\s*(?:data|record|ruleset) pub (" + WORD + r")")
MADE = re.compile(r"^(loop|returns|overflow|bounds|slice_bounds|nonzero|invariant|measure|in_ok|in_err|prove|offset_bounds|type_inv|invariant_of)[-_]")


# names that would fall together with the library's word that they speak of
APART = {"bit-or": "bit_or_lem", "bit-and": "bit_and_lem"}


def respelled(name):
    if name in APART:
        return APART[name]
    parts = name.split("-")
    if name[0].isupper():
        return "".join(p[0].upper() + p[1:] for p in parts)
    return "_".join(parts)


def files():
    found = []
    for pattern in ("crates/*/specs/**/*.antt", "crates/*/proofs/**/*.antt", "crates/*/src/**/*.rt"):
        found += glob.glob(pattern, recursive=True)
    return sorted(f for f in found if "/out/" not in f)


def declared_in(path, text):
    names = set()
    if not path.endswith(".antt"):
        return names
    goals = path.endswith(("Answers.antt", "Invariants.antt"))
    for line in text.split("\n"):
        for m in (DECLARED.match(line), HEADED.match(line)):
            name = m and next(g for g in m.groups() if g)
            if name and "-" in name and name[0].isalpha():
                if goals and (re.search(r":\s*goal\.", line) or MADE.match(name)):
                    continue
                names.add(name)
    return names


def fields_in(text):
    """Names of the fields of records that a file declares."""
    names, inside = set(), False
    for line in text.split("\n"):
        if HEADED.match(line) or re.match(r"^\s*(?:pub )?record\b", line):
            inside = True
        elif line and not line[0].isspace():
            inside = False
        m = DECLARED.match(line)
        if inside and m and "-" in m.group(1):
            names.add(m.group(1))
    return names


def imported_in(text, crates):
    """Names that the file takes from this repository, and its aliases with a dash."""
    names, aliases, foreign = set(), set(), set()
    for m in re.finditer(r"use Rattle\.([a-z_0-9]+)\.[^\s{]*\{([^}]*)\}", text):
        for item in m.group(2).split(","):
            parts = item.split(" as ")
            name = parts[0].strip()
            if m.group(1) in crates:
                names.add(name)
            else:
                foreign.add(name)
            if len(parts) > 1 and "-" in parts[1]:
                aliases.add(parts[1].strip())
    return names, aliases, foreign


def turn(text, mine, all_names, fields):
    token = re.compile(r'"(?:[^"\\\n]|\\.)*"|(?<![A-Za-z0-9_\'-])' + WORD)

    def one(m):
        name = m.group(0)
        if name.startswith('"') or "-" not in name:
            return name
        before = text[: m.start()]
        behind = re.search(r"([A-Za-z0-9_\-]+)\.$", before)
        if behind:
            # behind a module of the repository, or behind Goals, a record or a field of Rattle's
            of_module = behind.group(1)[0].isupper() and behind.group(1) != "Goals" and name in all_names
            return respelled(name) if of_module or name in fields else name
        if before.endswith("."):
            return respelled(name) if name in fields else name
        return respelled(name) if name in mine else name

    return token.sub(one, text)


def main():
    crates = {os.path.basename(c) for c in glob.glob("crates/*")}
    texts = {f: open(f, encoding="utf-8").read() for f in files()}
    declared = {f: declared_in(f, t) for f, t in texts.items()}
    all_names = set().union(*declared.values())
    fields = set().union(*(fields_in(t) for t in texts.values()))
    clashes = []
    out = {}
    for f, t in texts.items():
        names, aliases, foreign = imported_in(t, crates)
        mine = declared[f] | {n for n in names if "-" in n} | aliases | (all_names - foreign)
        both = declared[f] & foreign
        if both:
            clashes.append((f, "declares and imports", both))
        code = re.sub(r"--.*|//.*", "", t)
        there = set(re.findall(WORD, re.sub(r"\.[A-Za-z0-9_\-]+", "", code))) if f.endswith(".antt") else set(re.findall(r"\{([^}]*)\}", code))
        for n in sorted(mine & set(re.findall(WORD, t))):
            new = respelled(n)
            if f.endswith(".antt") and new in there:
                clashes.append((f, n, new))
        out[f] = turn(t, mine, all_names, fields)
    for c in clashes:
        print("falls together:", *c)
    if "--try" in sys.argv:
        return
    for f, t in out.items():
        if t != texts[f]:
            open(f, "w", encoding="utf-8").write(t)


if __name__ == "__main__":
    main()
