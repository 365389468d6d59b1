#!/usr/bin/env python3
"""Brings the project's own definitions, lemmas, fields and constructors to today's spelling: words in snake case, primes as
apostrophes. Run once at the top, after the kit's port.py and before any edit by hand. Functions of src/, exported names, strings,
inputs and outputs keep their names. It says which names it turned, and stops where two would fall together."""
import re
import sys
from collections import defaultdict
from pathlib import Path

LEMMA = "_lem"  # ends a lemma that would have its definition's name

# Where a name of another definition stands already, a name that says more.
OTHERWISE = {"slot-by": "slot_of_number"}

EDGE = r"\s()\[\]{},;.:`\"|"
ITEM = re.compile(r"((?:abbrev |unfoldable |opaque |pub )*)([^\s({:◌]+) (?:[({].*)?:(?: |$)")
TYPE = re.compile(r"(?:abbrev |unfoldable |pub )*(record|data) (?:pub )?([^\s({:]+)")
MEMBER = re.compile(r"  (?:pub )?((?:[^\s({:]+ )+):")
WORDS = {"mod", "use", "record", "data", "--", "infix", "infixl", "infixr"}
KIND = {"record": "member", "data": "member"}


def snake(name):
    parts = []
    for part in name.replace("′", "'").split("-"):
        if part and part[0].islower():
            part = re.sub(r"(?<=[a-z0-9])([A-Z])", r"_\1", part)
            part = re.sub(r"(?<=[A-Z])([A-Z])(?=[a-z])", r"_\1", part).lower()
        parts.append(part)
    return "_".join(parts)


def declared(text):
    """The names that a file of antt declares, each with its kind: a definition, a lemma, or a member of a record or of data."""
    inside = None
    for line in text.split("\n"):
        kind = TYPE.match(line)
        if kind:
            inside = kind[1]
            yield kind[2], "type"
            continue
        item = ITEM.match(line if inside or not line.startswith("  ") else line[2:])
        if item and item[2] not in WORDS:
            inside = None
            yield item[2], "definition" if "abbrev" in item[1] or "unfoldable" in item[1] else "lemma"
            continue
        if line and not line[0].isspace() and not line.startswith("--"):
            inside = None
        member = MEMBER.match(line)
        if inside and member and not line.startswith("    "):
            for name in member[1].split():
                yield name, KIND[inside]


def turned(kinds):
    """The new name of each name that changes."""
    wanted = defaultdict(list)
    for name in kinds:
        wanted[OTHERWISE.get(name, snake(name))].append(name)
    new = {}
    for to, names in wanted.items():
        first = [n for n in names if "lemma" not in kinds[n]]
        for name in names:
            alone = len(names) == 1 or (first and name == first[0]) or kinds[name] == {"member"}
            new[name] = to if alone else to + LEMMA
    taken = defaultdict(list)
    for name, to in new.items():
        taken[to].append(name)
    for to, names in taken.items():
        if len([n for n in names if kinds[n] != {"member"}]) > 1:
            sys.exit(f"port-names: {', '.join(names)} would fall together as {to}")
    return {name: to for name, to in new.items() if to != name}


def brought_in(text):
    """The names that a file takes from a library that is not the project's."""
    found = set()
    for path, names in re.findall(r"use ([\w.·]+)\.\{([^}]*)\}", text):
        if path.startswith(("Rattle.std", "Rattle.core", "native.", "lib.", "mathlib.", "Prim.")):
            found |= {n.strip().split(" as ")[-1] for n in names.split(",")}
    return found


def respelled(text, new, kinds):
    kept = brought_in(text)

    def one(match):
        before, name = match[1], match[2]
        if name not in new or name in kept:
            return match[0]
        if before.endswith(".") and kinds[name] != {"member"} and not re.search(r"Rattle\.[\w.]+\.$", before):
            return match[0]  # a label that the prover makes
        return before + new[name]

    token = re.compile(rf"(Rattle\.[\w.]+\.|[{EDGE}\\](?!Rattle\.)|^(?!Rattle\.))([^{EDGE}\\]+)", re.M)
    return token.sub(one, text)


def main():
    crates = Path("crates")
    proofs = [p for p in sorted(crates.glob("*/*/**/*.antt")) if p.parts[2] in ("specs", "proofs")]
    kinds = defaultdict(set)
    for path in proofs:
        for name, kind in declared(path.read_text()):
            kinds[name].add(kind)
    new = turned(kinds)
    for path in proofs + sorted(crates.glob("*/src/**/*.rt")):
        text = path.read_text()
        clauses = respelled(text, new, kinds)
        if path.suffix == ".rt":  # strings keep their words, and functions their names: no clause cites a lemma
            pieces = re.split(r'("(?:[^"\\\n]|\\.)*")', text)
            cited = {name: to for name, to in new.items() if not to.endswith(LEMMA)}
            clauses = "".join(p if i % 2 else respelled(p, cited, kinds) for i, p in enumerate(pieces))
        if clauses != text:
            path.write_text(clauses)
    for name in sorted(new):
        print(f"{name} {new[name]}")


if __name__ == "__main__":
    main()
