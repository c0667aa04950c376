"""Lists places in src/ that may stand in an older form, by the points of docs/DESIGN-PASS.md: python3 tools/forms.py [FOLDER]
By text alone: it lists candidates, and the page says what each is."""

import collections
import pathlib
import re
import sys

ROOT = pathlib.Path(sys.argv[1] if len(sys.argv) > 1 else ".") / "crates"
SOURCES = {p: p.read_text() for p in sorted(ROOT.glob("*/src/**/*.rt")) if p.name not in ("table.rt", "tests.rt")}
FN = re.compile(r"^ *(?:pub(?:\([a-z]+\))? )?fn (\w+)", re.M)


def lines(pattern):
    """Places where a line of code matches."""
    found = []
    for path, text in SOURCES.items():
        for n, line in enumerate(text.split("\n"), 1):
            code = line.split("//")[0]
            if re.search(pattern, code):
                found.append((f"{path.relative_to(ROOT)}:{n}", code.strip()))
    return found


def functions():
    """Name, head and body of each function."""
    for path, text in SOURCES.items():
        for m in FN.finditer(text):
            rest = text[m.end():]
            indent = re.match(r" *", m.group(0).lstrip("\n")).group(0)
            end = rest.find(f"\n{indent}}}")
            if end < 0:
                continue
            whole = rest[: end + 1]
            cut = whole.find(f"\n{indent}{{")
            if cut < 0:
                cut = whole.find("{\n")
            if cut < 0 or ";" in whole[:cut]:
                continue
            yield f"{path.relative_to(ROOT)}: {m.group(1)}", whole[:cut], whole[cut:]


def twins():
    """Functions whose bodies agree but for types, cases, sizes and constants."""
    groups = collections.defaultdict(list)
    for place, _, body in functions():
        blank = re.sub(r"\b(0x[0-9a-f_]+|\d[\d_]*)\b", "N", body)
        blank = re.sub(r"\b[A-Z]\w*(::[A-Z]\w*)?\b", "T", blank)
        blank = re.sub(r"\s+", " ", blank)
        if len(blank) > 24:
            groups[blank].append(place)
    return [(", ".join(v), k[:60]) for k, v in groups.items() if len(v) > 1]


def clauses():
    """Facts that stand in the clauses of three functions or more."""
    count = collections.defaultdict(set)
    for place, head, _ in functions():
        for clause in re.findall(r"requires(?: \w+)? \{ (.*) \}", head):
            count[clause].add(place)
    return [(f"{len(v)} functions", k) for k, v in count.items() if len(v) > 2]


def views():
    """Functions of specs/ through which the contracts of three functions or more see a value."""
    count = collections.defaultdict(set)
    for place, head, _ in functions():
        for view in re.findall(r"\b(\w+_of|meaning)\b[^()]*?(?:self|result)\b", head):
            count[f"{place.split('/')[0]}: {view}"].add(place)
    return [(f"{len(v)} functions", k) for k, v in count.items() if len(v) > 2]


POINTS = {
    "1 answers that are flags, cases that stand for none, numbers for kinds": lambda: lines(
        r"&mut self.*-> bool|\bNONE\b|^ +None,$|\b(kind|info|number|done|csr): (u8|u16|u32|bool)\b|-> Option<u32>$|pub enum (Feed|Refusal|\w+Refusal)\b"
    ),
    "2 functions that differ in a type, a size or a constant": twins,
    "3 loops": lambda: lines(r"\bwhile\b|\bloop\b|\bfor \w+ in \S*\.\.|\bfor \(\w+, ") + lines(r"\bfor \w+ in (?!\S*\.\.)"),
    "4 equality, order, conversion and printing by hand": lambda: lines(
        r"fn (eq|ne|cmp|partial_cmp|clone|number|cause|up|mip|show_\w+|\w+_width)\b"
    ),
    "5 facts in three contracts or more": clauses,
    "5 views in three contracts or more": views,
    "6 a buffer with a length or a mark beside it": lambda: lines(r"^\s+(pub(\(crate\))? )?(len|room|map|count|at|start|size): (usize|u8|u32),"),
    "7 functions as values": lambda: lines(r"\bdyn\b|\bfn\(|\bFn(Mut|Once)?\("),
}

for point, find in POINTS.items():
    found = find()
    print(f"{point}: {len(found)}")
    for place, what in found:
        print(f"    {place}  {what}")
proofs = sorted(p for p in ROOT.glob("*/proofs/**/*.antt"))
print(f"8 proof files: {len(proofs)}, of which {sum(p.name == 'Answers.antt' for p in proofs)} answers, {sum(len(p.read_text().splitlines()) for p in proofs)} lines")
