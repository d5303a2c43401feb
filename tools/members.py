#!/usr/bin/env python3
"""Writes the ghost members of a bound in clauses behind its type parameter, as `J.lists`. Run once, after respell.py."""
import glob
import re

MEMBERS = {
    "OrderKind": ["proper", "encode", "decode"],
    "QuorumRule": ["quorum"],
    "Journal": ["owners", "limit", "lists"],
    "MembersTest": ["holds"],
}
BOUND = re.compile(r"\b([A-Z]): (" + "|".join(MEMBERS) + r")\b")


def turn_clause(line, bounds):
    for parameter, trait in bounds:
        line = line.replace(f"{parameter}.{trait}.", f"{parameter}.")
        for member in MEMBERS[trait]:
            line = re.sub(r"(?<![\w.'-])" + member + r"(?![\w'-])", f"{parameter}.{member}", line)
    return line


def turn(text):
    out, of_impl, of_fn, head = [], [], [], False
    for line in text.split("\n"):
        if re.match(r"impl\b", line):
            of_impl = BOUND.findall(line)
        elif line == "}":
            of_impl = []
        if re.match(r"\s*(?:pub(?:\(crate\))? )?fn \w+", line):
            head, of_fn = True, []
        if head and not re.match(r"\s*(?:ensures|requires)", line):
            of_fn += BOUND.findall(line)
        if re.match(r"\s*(?:ensures|requires)\b", line):
            label, brace, clause = line.partition("{")
            line = label + brace + turn_clause(clause, of_impl + of_fn)
        if re.match(r"\s*\{$", line) or line.endswith(";"):
            head = False
        out.append(line)
    return "\n".join(out)


for path in sorted(glob.glob("crates/*/src/**/*.rt", recursive=True)):
    with open(path, encoding="utf-8") as file:
        old = file.read()
    new = turn(old)
    if new != old:
        with open(path, "w", encoding="utf-8") as file:
            file.write(new)
