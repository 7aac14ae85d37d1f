#!/usr/bin/env python3
"""design_counts.py [FOLDER]: counts the places that docs/DESIGN-PASS.md speaks of, in the .rt files of FOLDER/crates (this checkout where none is given)."""
import collections
import glob
import os
import re
import sys

root = sys.argv[1] if len(sys.argv) > 1 else os.path.join(os.path.dirname(os.path.abspath(__file__)), "..")
files = sorted(glob.glob(os.path.join(root, "crates", "*", "src", "**", "*.rt"), recursive=True))
text = {os.path.relpath(f, os.path.join(root, "crates")): open(f, encoding="utf-8").read() for f in files}


def found(pattern):
    return [(f, m) for f, t in text.items() for m in re.finditer(pattern, t, re.M)]


def enums():
    """Point 1: own enums with a case that holds a rejection, or two cases of which one is empty."""
    for f, t in text.items():
        for m in re.finditer(r"^(?:pub )?enum (\w+) \{\n(.*?)^\}", t, re.M | re.S):
            body = m.group(2)
            if "Rejected(" in body or re.search(r"^    \w+,$", body, re.M) and len(re.findall(r"^    \w", body, re.M)) == 2:
                yield f, m


def kinds():
    """Point 1: files with a row of three or more constants of one number type that are names of kinds."""
    for f, t in text.items():
        rows = re.findall(r"^pub const [A-Z_0-9]+: (u64|u16|usize) = \d+;", t, re.M)
        if len(rows) >= 3:
            yield f, len(rows)


def loops():
    """Point 3: while loops whose test has a variable that the body moves by a constant; the others."""
    counted, others = [], []
    for f, t in text.items():
        lines = t.split("\n")
        for i, line in enumerate(lines):
            m = re.match(r"^(\s*)while (.*) \{$", line)
            if not m:
                continue
            j = i + 1
            while lines[j] != m.group(1) + "}":
                j += 1
            body = "\n".join(lines[i + 1 : j])
            words = re.findall(r"\b[a-z_]\w*\b", m.group(2))
            by_hand = any(re.search(rf"^\s*{w} [+-]= \d+;", body, re.M) for w in words)
            (counted if by_hand else others).append(f"{f}:{i + 1} while {m.group(2)}")
    return counted, others


def parameters():
    """Point 5: pairs of parameters that ten or more functions take side by side."""
    pairs = collections.Counter()
    for _, m in found(r"fn \w+(?:<[^>]*>)?\(([^)]*)\)"):
        names = [p.split(":")[0].strip() for p in m.group(1).split(",") if ":" in p]
        pairs.update(zip(names, names[1:]))
    return [(n, p) for p, n in pairs.most_common() if n >= 20]


print("functions:", len(found(r"\bfn \w+[<(]")))
shaped = sorted({(f, m.group(1)) for f, m in enums()})
print("1 own enums of the shape of an Option or a Result:", len(shaped), ", ".join(n for _, n in shaped))
print("1 answers taken apart by `let .. else` with a refusal handed on:", len(found(r"let \w+::\w+ = \w+ else")))
print("1 rows of numbers for kinds:", ", ".join(f"{f} ({n})" for f, n in kinds()))
counted, others = loops()
print("3 loops that count an index by hand:", len(counted))
for line in counted:
    print("   ", line)
print("3 other while loops:", len(others))
for line in others:
    print("   ", line)
print("3 for loops and chains:", len(found(r"^\s*for .* in ")), len(found(r"\.(?:iter|iter_mut|all|any|find|position|rev|zip|enumerate|chunks\w*|step_by)\(")))
print("5 parameters side by side, 20 functions or more:")
for n, p in parameters():
    print("   ", n, ", ".join(p))
print("6 arrays of a fixed length:", len(found(r"\[(?!(?:[ui]\d+|usize|bool|T|Section); )[\w()]+; [\w: *]+\]")))
print("7 closures:", len(found(r"\|\w+(?:, \w+)*\| ")))
