#!/usr/bin/env python3
"""Draws the crates in layers, from crates.txt: a crate stands one row above the highest that it cites. With --check the drawing in ARCHITECTURE.md
must be this one; with --write it is put there."""
import os
import sys

here = os.path.dirname(os.path.abspath(__file__))
page = os.path.join(here, "ARCHITECTURE.md")
cites = {}
for line in open(os.path.join(here, "..", "crates.txt"), encoding="utf-8"):
    if ":" in line.split("#")[0]:
        name, deps = line.split("#")[0].split(":", 1)
        cites[name.split()[0]] = deps.split()


def row(name):
    return 1 + max((row(d) for d in cites[name] if d in cites), default=-1)


def drawing():
    """Two columns: code at the left, definitions and laws at the right."""
    rows = {}
    for name in cites:
        rows.setdefault(row(name), []).append(name)
    lines = [f"{'':>2}  {'code, with contracts and proofs':<84}  definitions and laws"]
    for level in sorted(rows, reverse=True):
        code = "  ".join(sorted(n for n in rows[level] if not n.startswith("spec_")))
        spec = "  ".join(sorted(n for n in rows[level] if n.startswith("spec_")))
        lines.append(f"{level:>2}  {code:<84}  {spec}".rstrip())
    return "\n".join(lines)


begin, end = "```layers\n", "\n```"
text = open(page, encoding="utf-8").read()
before, rest = text.split(begin, 1)
old, after = rest.split(end, 1)
if "--write" in sys.argv:
    open(page, "w", encoding="utf-8").write(before + begin + drawing() + end + after)
elif "--check" in sys.argv:
    if old != drawing():
        sys.exit("docs/ARCHITECTURE.md: the drawing is not what crates.txt says: run docs/layers.py --write")
else:
    print(drawing())
