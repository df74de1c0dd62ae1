#!/usr/bin/env python3
"""Lists what stands in many contracts: facts that three or more functions require, and parameters that three or more take
side by side.

    tools/facts.py [FOLDER]     FOLDER has crates/NAME/src; the top of the repository if none is named
"""
import collections
import pathlib
import re
import sys


def functions(folder):
    """Crate, name, parameters and clauses of each function."""
    for path in sorted(folder.glob("crates/*/src/*.rt")):
        text = path.read_text()
        for found in re.finditer(r"\bfn (\w+)[^(]*\(([^{;]*?)\)(?: -> [^\n]*)?((?:\n\s*(?:requires|ensures)[^\n]*)*)", text):
            yield f"{path.parts[-3]}::{found[1]}", found[2], found[3]


def required(clauses):
    """The facts of the `requires` clauses; lent memory is called T, whatever its name."""
    for clause in re.findall(r"requires (?:\w+ )?\{ (.*) \}", clauses):
        for fact in clause.split(" × "):
            yield re.sub(r"\b(t|table|list|operations|out|words|input)\.(old|now)\b", "T", fact.strip("() "))


def pairs(parameters):
    """Neighbours in a list of parameters, with their types."""
    each = [p.strip() for p in parameters.split(",") if ":" in p]
    return list(zip(each, each[1:]))


def show(title, places):
    print(title)
    for what, names in sorted(places.items(), key=lambda item: (-len(item[1]), item[0])):
        if len(names) >= 3:
            print(f"{len(names):4}  {what}: {', '.join(names)}")


def main():
    folder = pathlib.Path(sys.argv[1] if len(sys.argv) > 1 else pathlib.Path(__file__).parents[1])
    facts, groups = collections.defaultdict(list), collections.defaultdict(list)
    for name, parameters, clauses in functions(folder):
        for fact in required(clauses):
            facts[fact].append(name)
        for first, second in pairs(parameters):
            groups[f"{first}, {second}"].append(name)
    show("facts that three or more functions require", facts)
    show("parameters that three or more functions take side by side", groups)


main()
