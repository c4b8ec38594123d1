#!/usr/bin/env python3
"""Brings the repository's own definitions and lemmas to the spelling of today's Rattle: words are in snake case.

usage: python3 tools/port/respell_names.py      at the top of the repository, once, after the kit's port.py

A name in lower camel case, as `floorAt`, becomes `floor_at`, also where it is a part of a name that is joined by dashes; a field
of an antt record with dashes, as `pool-within`, becomes `pool_within`. Types and modules keep upper camel case. Functions of src/
and exported names are in snake case already and stay. Written anew are the .antt and .rt files, the must-fail edits, README.md
and the pages of docs/, except docs/landings/, which say what was delivered then.
The script refuses names that would fall together.
"""

import collections
import glob
import os
import re
import sys

# a name as antt has it
NAME = re.compile(r"[A-Za-z_μ][A-Za-z0-9_'₀-₉μ\-]*")
CAMEL = re.compile(r"(?<=[a-z0-9])([A-Z])")
# names that would fall together with another, and what they become
APART = {"lastLine": "last_line_of", "shares-wait": "shares_waiting"}
RECORD = re.compile(r"^(?:(?:abbrev|unfoldable|pub|private) )*record\b")
FIELD = re.compile(r"^\s+(?:pub )?([^\s(){}:;=]+(?:\s+[^\s(){}:;=]+)*)\s*:")


def texts(*patterns):
    found = [p for it in patterns for p in glob.glob(it, recursive=True)]
    return sorted(p for p in found if "/out/" not in p and os.path.isfile(p))


def is_camel(name):
    return name[0].islower() and any(part[:1].islower() and CAMEL.search(part) for part in name.split("-"))


def snake(name):
    parts = [CAMEL.sub(lambda m: "_" + m.group(1).lower(), p) if p[:1].islower() else p for p in name.split("-")]
    return "-".join(parts)


def fields(path):
    """The fields with dashes of the records that a file declares."""
    inside = False
    with open(path, encoding="utf-8") as f:
        for line in f:
            if line.lstrip().startswith("--") or not line.strip():
                continue
            if RECORD.match(line):
                inside = True
            elif not line.startswith(" "):
                inside = False
            elif inside and FIELD.match(line):
                yield from (n for n in FIELD.match(line).group(1).split() if "-" in n and NAME.fullmatch(n) and n[0].islower())


def main():
    sources = texts("crates/**/*.antt", "crates/**/*.rt")
    used = collections.Counter()
    for p in sources:
        with open(p, encoding="utf-8") as f:
            used.update(NAME.findall(f.read()))
    new = {n: snake(n) for n in used if is_camel(n)}
    for p in sources:
        if p.endswith(".antt"):
            new.update((n, snake(n).replace("-", "_")) for n in fields(p))
    new.update(APART)
    together = collections.defaultdict(set)
    for old, name in new.items():
        together[name].add(old)
    bad = {name: olds for name, olds in together.items() if len(olds) > 1}
    if bad:
        sys.exit(f"names that fall together: {bad}")
    changed = 0
    for p in sources + texts("crates/*/must-fail/*.edit", "README.md", "docs/*.md"):
        with open(p, encoding="utf-8") as f:
            was = f.read()
        # a dotted path, as `Rattle.book.specs.Calls.{postReply}` or `l.k`, is respelled part by part
        now = NAME.sub(lambda m: new.get(m.group(0), m.group(0)), was)
        if now != was:
            with open(p, "w", encoding="utf-8") as f:
                f.write(now)
            changed += 1
    print(f"{len(new)} names, {changed} files")
    for old, name in sorted(new.items()):
        if name in used:
            print(f"look: {old} becomes {name}, which is a name already")


if __name__ == "__main__":
    main()
