#!/usr/bin/env python3
"""Brings the names in README.md and docs/ to the new spelling, after tools/respell.py and once.

usage: python3 tools/respell_docs.py NAMES     NAMES: what `tools/respell.py --list` printed before it was run
Only words between backticks are changed.
"""

import glob
import re
import sys

WORD = re.compile(r"(?<![\w'\\-])[A-Za-z_][\w']*(?:-[\w'+]+)*")


def main():
    with open(sys.argv[1], encoding="utf-8") as f:
        to = {a: b for a, b in (line.split()[0:3:2] for line in f)}
    for p in ["README.md", *sorted(glob.glob("docs/*.md"))]:
        if p == "docs/PORT.md":
            continue
        with open(p, encoding="utf-8") as f:
            t = f.read()
        new = re.sub(r"`[^`\n]*`", lambda m: WORD.sub(lambda w: to.get(w.group(0), w.group(0)), m.group(0)), t)
        if new != t:
            print(p)
            with open(p, "w", encoding="utf-8") as f:
                f.write(new)


main()
