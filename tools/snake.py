#!/usr/bin/env python3
"""Turns this repository's own names with dashes to snake case, once, after the kit's port.py. usage: python3 tools/snake.py [--list] [TOP]

Own names are the definitions, lemmas, fields and constructors that specs/ and proofs/ declare. A name that
Rattle makes (a goal, a step) keeps its dashes, and so does one of the library. In a lemma's name a dash between
two names of functions stays, as in length-put. Names of src/ have none.
"""
import os
import re
import sys

NAME = r"[A-Za-zℕ0-9_']+(?:-[A-Za-zℕ0-9_'/<≤+]+)+"
# the dash stays: the left side of a lemma, the outer call first
HEADS = {"length", "leftmost", "tags", "++", "onto"}


def files(top):
    for root, dirs, names in os.walk(top):
        dirs[:] = sorted(d for d in dirs if d not in ("out", ".git", "target", "tools"))
        for n in sorted(names):
            if n.endswith((".antt", ".rt", ".edit")) or (n.endswith(".md") and not n.startswith("PORT")):
                yield os.path.join(root, n)


def declared(top):
    own, made, foreign = {}, set(), set()
    for p in files(top):
        if p.endswith(".rt"):
            for l in open(p, encoding="utf-8"):
                m = re.match(r"\s*(?:ghost )?use (.*)", l)
                if m and not re.match(r"Rattle\.(?!std\b)\w+\.", m.group(1)):
                    foreign |= set(re.findall(NAME, m.group(1)))
            continue
        if not p.endswith(".antt"):
            continue
        text = open(p, encoding="utf-8").read()
        for l in text.splitlines():
            m = re.match(r"\s*(?:pub )?use (.*)", l)
            if m:
                if not re.match(r"Rattle\.(?!std\b)\w+\.", m.group(1)):
                    foreign |= set(re.findall(NAME, m.group(1)))
                elif re.search(r"\.proofs\..*\.(Goals|Needs|Given|Choices)\b", m.group(1)):
                    made |= set(re.findall(NAME, m.group(1).split("{")[-1])) if "{" in m.group(1) else set()
                continue
            m = re.match(r"\s*(?:pub )?(?:record|data) (" + NAME + r")()", l)
            m = m or re.match(r"\s*(?:abbrev )?(?:unfoldable )?(?:pub )?(" + NAME + r")\s*:\s*(.*)", l)
            if m:
                if re.match(r"(?:need|goal)\.", m.group(2)):
                    made.add(m.group(1))
                else:
                    own.setdefault(m.group(1), p)
    return own, made, foreign


def turned(name, own):
    parts = name.split("-")
    if len(parts) == 2 and parts[0] in HEADS and parts[1] in HEADS:
        return name
    if parts[0][0].isupper():
        return "".join(p[0].upper() + p[1:] for p in parts)
    return "_".join(parts)


def main(argv):
    listing = "--list" in argv
    argv = [a for a in argv if a != "--list"]
    top = argv[0] if argv else "."
    own, made, foreign = declared(top)
    clash = sorted(set(own) & (made | foreign))
    names = {n: turned(n, own) for n in own if n not in made and n not in foreign}
    names = {a: b for a, b in names.items() if a != b}
    if listing:
        print("not turned:", *clash)
        for a, b in sorted(names.items()):
            print(a, b, own[a])
        return 0
    token = re.compile(r"(?<![\w'·-])(?:" + "|".join(re.escape(n) for n in sorted(names, key=len, reverse=True)) + r")(?![\w'-])")
    n = 0
    for p in files(top):
        text = open(p, encoding="utf-8").read()
        if p.endswith(".edit") or p.endswith(".md"):
            new = token.sub(lambda m: names[m.group(0)], text) if p.endswith(".edit") else re.sub(r"`[^`\n]+`", lambda q: token.sub(lambda m: names[m.group(0)], q.group(0)), text)
        else:
            new = token.sub(lambda m: names[m.group(0)], text)
        if new != text:
            open(p, "w", encoding="utf-8").write(new)
            n += 1
    print(f"{len(names)} names in {n} files")


if __name__ == "__main__":
    raise SystemExit(main(sys.argv[1:]) or 0)
