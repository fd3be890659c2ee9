#!/usr/bin/env python3
"""In proofs/, a name that Rattle makes keeps the spelling of the source: not-is-letter-digit is not-is_letter_digit. usage: python3 tools/keep_source_names.py [TOP]"""
import os
import re
import sys


def main(top):
    for c in sorted(os.listdir(os.path.join(top, "crates"))):
        base = os.path.join(top, "crates", c)
        names = set()
        for root, dirs, fs in os.walk(os.path.join(base, "src")):
            for f in fs:
                if f.endswith(".rt"):
                    names |= {n for n in re.findall(r"[A-Za-z]\w*", open(os.path.join(root, f), encoding="utf-8").read()) if "_" in n.strip("_")}
        if not names:
            continue
        dashed = {n.replace("_", "-"): n for n in names}
        token = re.compile(r"(?<![A-Za-z0-9_'])(?:" + "|".join(re.escape(d) for d in sorted(dashed, key=len, reverse=True)) + r")(?![A-Za-z0-9_'])")
        for root, dirs, fs in os.walk(os.path.join(base, "proofs")):
            for f in fs:
                p = os.path.join(root, f)
                text = open(p, encoding="utf-8").read()
                new = token.sub(lambda m: dashed[m.group(0)], text)
                if new != text:
                    open(p, "w", encoding="utf-8").write(new)
                    print(p)


main(sys.argv[1] if len(sys.argv) > 1 else ".")
