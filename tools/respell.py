#!/usr/bin/env python3
"""Brings this repository's own definitions and lemmas to the spelling of PORTING.md, part 3; run once, after port.py, at the top.

Definitions, fields and constructors are in snake case. In a lemma's name a dash joins two names, and plain words are added with an underscore.
Names of functions, of files and of what Rattle makes stay. Where two names would fall together, the old one stays and is printed.
"""

import collections
import glob
import os
import re
import sys

DECLARED = re.compile(r"^(?:  )?(?:(?:abbrev|unfoldable|pub|ruleset) )+(?!data |record |mod |use )([^\s:(){}]+)|^([^\s:(){}]+) :(?=\s|$)")
FIELD = re.compile(r"^  (?:pub )?([^\s:(){}]+) :(?=\s|$)")
TOKEN = re.compile(r"[^\s(){}\[\],;.\"]+")
# Names that would fall together with another's.
GIVEN = {"startRow": "starting_row", "start-row": "start-row"}
STD = "length take drop map cond min max append reverse add mul inv table at".split()


def files(*kinds):
    for kind in kinds:
        yield from sorted(glob.glob("crates/*/" + kind, recursive=True))


def snake(word):
    return re.sub(r"(?<=[a-z0-9])([A-Z])", lambda m: "_" + m.group(1).lower(), word)


def declared():
    """The names that specs/ declares, those that only lemma files do, and the fields of both."""
    specs, proofs, fields = set(), set(), set()
    for path in files("specs/**/*.antt", "proofs/**/*.antt"):
        if os.path.basename(path) in ("Proof.antt", "Lib.antt"):
            continue
        into = specs if "/specs/" in path else proofs
        record = False
        for line in open(path, encoding="utf-8"):
            if re.match(r"^(pub )?(record|data) ", line):
                record = True
            elif line[:1] not in (" ", "\n"):
                record = False
            m = FIELD.match(line) if record else None
            if m:
                fields.add(m.group(1))
                continue
            m = DECLARED.match(line)
            if m:
                into.add(m.group(1) or m.group(2))
    return specs, proofs - specs, fields - specs


def respelled(specs, proofs, fields):
    proofs = proofs - fields
    names = {snake(n) for n in specs if "-" not in n} | set(STD)
    new = {}
    for n in specs | fields:
        if n[:1].islower():
            new[n] = snake(n).replace("-", "_")
    for n in proofs:
        if n[:1].islower() or n[:1] == "≤":
            parts = snake(n).split("-")
            out = parts[0]
            for a, b in zip(parts, parts[1:]):
                out += ("-" if a in names and b in names else "_") + b
            new[n] = out + "_lem" if out in names else out
    for path in files("specs/**/*.antt", "proofs/**/*.antt"):
        for n in TOKEN.findall(re.sub(r"--.*|use .*", "", open(path, encoding="utf-8").read())):
            if re.match(r"[a-z][\w'-]*[a-z][A-Z]", n) and n not in new:
                out = snake(n).split("-")
                new[n] = out[0] + "".join(("-" if a in names and b in names else "_") + b for a, b in zip(out, out[1:]))
    new |= GIVEN
    back = collections.defaultdict(list)
    for n in specs | proofs:
        back[new.get(n, n)].append(n)
    for n in fields:
        if "-" in n and new[n] in fields:
            print("fields that fall together:", n, new[n])
    for to, olds in back.items():
        if len(olds) > 1:
            print("fall together:", to, *olds)
            for n in olds:
                new.pop(n, None)
    return {a: b for a, b in new.items() if a != b}


def foreign(lines):
    """The names that a file takes from libraries that are not this repository's."""
    names = set()
    for m in re.finditer(r"use ([\w.]+)\.\{([^}]*)\}", "".join(lines)):
        if not any(m.group(1).startswith(f"Rattle.{c}.") for c in os.listdir("crates")):
            names |= {n.split(" as ")[0].strip() for n in m.group(2).split(",")}
    return names


def turned(line, new, comment, others):
    at = line.find(comment)
    head, tail = (line, "") if at < 0 else (line[:at], line[at:])

    def one(m):
        n, before, after = m.group(0), head[: m.start()], head[m.end() :]
        if n in others and not before.endswith(".") and not (re.search(r"(^ +(pub )?|[{;] )$", before) and re.match(r" [:=] ", after)):
            return n
        return new.get(n, n)

    return TOKEN.sub(one, head) + tail


def main():
    new = respelled(*declared())
    count = 0
    for path in files("specs/**/*.antt", "proofs/**/*.antt", "src/**/*.rt", "must-fail/*.edit"):
        comment = "//" if path.endswith(".rt") else "--"
        with open(path, encoding="utf-8") as f:
            lines = f.readlines()
        others = foreign(lines)
        out = [turned(line, new, comment, others) for line in lines]
        if out != lines:
            count += 1
            with open(path, "w", encoding="utf-8") as f:
                f.writelines(out)
    with open("docs/respelled.txt", "w", encoding="utf-8") as f:
        f.writelines(f"{a} {b}\n" for a, b in sorted(new.items()))
    print(len(new), "names in", count, "files")


main()
