#!/usr/bin/env python3
"""Prints as Markdown what changed in contracts, ghost items and definitions since a commit: old and new side by side.
usage: tools/side_by_side.py COMMIT      (at the top of the repository; reads the kit's port/contracts.py)"""
import json
import subprocess
import sys
import tempfile

KIT = "/opt/rattle/port/contracts.py"


def cell(text):
    text = " ".join(text.split())
    return "`` " + text.replace("|", "\\|") + " ``" if text else "none"


def clauses(requires, ensures):
    said = [("requires " + n).rstrip() + " { " + c + " }" for n, c in requires]
    said += [("ensures " + n).rstrip() + " { " + c + " }" for n, c in ensures]
    return "<br>".join(cell(c) for c in said) or "none"


def both(rows):
    return "<br>".join(cell(r) for r in rows) or "none"


def table(head, rows):
    print("| " + " | ".join(head) + " |")
    print("|" + "---|" * len(head))
    for r in rows:
        print("| " + " | ".join(r) + " |")
    print()


def main():
    commit = sys.argv[1]
    with tempfile.TemporaryDirectory() as old:
        subprocess.run(f"git archive {commit} crates crates.txt | tar -x -C {old}", shell=True, check=True)
        said = subprocess.run([sys.executable, KIT, old, ".", "--json"], capture_output=True, text=True, check=True).stdout
    d = json.loads(said)
    print("### Signatures\n")
    table(["Function", "Old", "New"], [[n, cell(a), cell(b)] for n, a, b in d["signatures changed"]])
    print("### Clauses\n")
    table(["Function", "Old", "New"], [[n, clauses(a, b), clauses(x, y)] for n, a, b, x, y in d["contracts changed"]])
    g = d["ghost items and constants"]
    print("### Ghost members, ghost fields, constants\n")
    table(["Crate", "Item", "Old", "New"], [[c, t + " " + m, both(a), both(b)] for c, t, m, a, b in g["changed"]])
    f = d["definitions"]
    print("### Definitions\n")
    table(["Crate", "Name", "Old", "New"], [[c, n, both(a), both(b)] for c, n, a, b in f["changed"]])


main()
