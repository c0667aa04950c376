#!/usr/bin/env python3
"""Brings the repository's own names in specs/ and proofs/ to Rattle's spelling, after port.py and once.

usage: python3 tools/respell.py            at the top of the repository: rewrites .rt, .antt and .edit files in place
       python3 tools/respell.py --list     prints each change of a name, and the new names that already stand somewhere

- a function or a lemma in lower camel case goes to snake case: causeNumber -> cause_number
- a type or a fact with hyphens goes to upper camel case: Well-formed -> WellFormed
- a field of a record in specs/ with hyphens goes to snake case: load-keeps-words -> load_keeps_words
Lemmas keep their hyphens between the parts of their statements.
"""

import os
import re
import sys

WORD = re.compile(r"(?<![\w'\\-])[A-Za-z_][\w']*(?:-[\w'+]+)*")
# Fields whose new name would be a function's of the device definitions.
APART = {
    "interrupt-enable": "interrupt_enable_reads",
    "divisor-low": "divisor_low_reads",
    "divisor-high": "divisor_high_reads",
    "line-control": "line_control_reads",
    "modem-control": "modem_control_reads",
    "modem-status": "modem_status_reads",
    "line-status": "line_status_reads",
}


def files():
    for folder, dirs, names in os.walk("crates"):
        dirs[:] = sorted(d for d in dirs if d not in ("out", "data"))
        for n in sorted(names):
            if n.endswith((".rt", ".antt", ".edit")):
                yield os.path.join(folder, n)


def snake(word):
    return re.sub(r"(?<=[a-z0-9])[A-Z]+", lambda m: "_" + m.group(0).lower(), word)


def is_camel(word):
    return re.match(r"[a-z]\w*$", word) is not None and re.search(r"[a-z0-9][A-Z]", word) is not None


def record_fields(text):
    inside = False
    for line in text.split("\n"):
        if re.match(r"(pub )?record ", line):
            inside = True
        elif line and not line[0].isspace():
            inside = False
        m = re.match(r"\s+(?:pub )?([a-z]\w*(?:-\w+)+) :", line)
        if inside and m:
            yield m.group(1)


def renamings(texts):
    fields = {f for p, t in texts.items() if "/specs/" in p and p.endswith(".antt") for f in record_fields(t)}
    words = {w for t in texts.values() for w in WORD.findall(t)}
    to = {}
    for w in sorted(words):
        parts = w.split("-")
        if w in fields:
            to[w] = APART.get(w, "_".join(snake(x) for x in parts))
        elif len(parts) > 1 and re.match(r"[A-Z]", w) and w in DECLARED:
            to[w] = "".join(x[:1].upper() + x[1:] for x in parts)
        elif any(is_camel(x) for x in parts):
            to[w] = "-".join(snake(x) if is_camel(x) else x for x in parts)
    return {a: b for a, b in to.items() if a != b}, words


DECLARED = set()


def main():
    texts = {}
    for p in files():
        with open(p, encoding="utf-8") as f:
            texts[p] = f.read()
    for p, t in texts.items():
        if p.endswith(".antt"):
            DECLARED.update(re.findall(r"^\s*(?:abbrev |unfoldable )?(?:pub )?(?:record |data )?([A-Z][\w']*(?:-[\w']+)+)(?= [({:])", t, re.M))
    to, words = renamings(texts)
    if "--list" in sys.argv:
        for a, b in to.items():
            print(a, "->", b, "(stands already)" if b in words else "")
        return
    for p, t in texts.items():
        new = WORD.sub(lambda m: to.get(m.group(0), m.group(0)), t)
        if new != t:
            with open(p, "w", encoding="utf-8") as f:
                f.write(new)


main()
