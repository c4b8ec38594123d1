#!/usr/bin/env python3
"""Brings the names in README.md and docs/*.md to what they are in crates/ now.

usage: python3 tools/port/respell_pages.py [--check]      at the top of the repository

respell_names.py writes the pages anew, but the kit's port.py had before it renamed some of the repository's own names and left
the pages alone. So the declarations of each .antt file and the functions and types of each .rt file at the last commit of the older
Rattle (BEFORE) are paired, in order, with those of the same file at the commit where all of its spelling was turned and nothing else
was changed (AFTER). In backquotes a name that was declared at BEFORE and no longer stands in crates/ becomes the name that it is
paired with; `e .code` becomes `e.code`. Comments do not count as a place where a name stands. docs/landings/, which say what was
delivered then, and docs/PORT.md stay as they are.

Printed are the names that were turned, and those left over: names in backquotes that stood in crates/ at BEFORE or AFTER and
stand there no more, and paths in backquotes of a file or folder that is not in the tree. With --check nothing is written.
"""

import collections
import glob
import os
import re
import subprocess
import sys

BEFORE = "ad2557179028f0176da6de5301cb7006c008e01e"
AFTER = "843f1f883fe0bf834c79039146796cc7a6253ab9"

NAME = re.compile(r"[A-Za-z_μ][A-Za-z0-9_'′₀-₉μ\-·]*")
WORD = r"[^\s(){}:;=,\"]+"
# of .antt: the names before a colon, as in `record Layout` or `quantity operation : ℕ`
DECLARED = re.compile(
    rf"^\s*(?:(?:abbrev|unfoldable|opaque|pub|private) )*(?:(?:data|record|module)\s+({WORD})|((?:{WORD}\s+)*?{WORD})\s*:(?=\s|$))")
# of .rt
ITEM = re.compile(r"^\s*(?:pub(?:\([a-z]+\))? )?(?:unsafe )?(?:extern \"C\" )?(?:const )?(?:fn|struct|enum|const|mod|trait) (\w+)", re.M)
SPAN = re.compile(r"`([^`]+)`")
# a field that is asked for with a space before the dot, which today is none
FIELD = re.compile(r"(?<=[a-z])[ ]\.(?=[a-z_]+\b(?!/))")
PATH = re.compile(r"[A-Za-z0-9_.\-]+(?:/[A-Za-z0-9_.\-]+)*/?")
SOURCES = (".antt", ".rt")


def git(*words):
    return subprocess.run(["git", *words], capture_output=True, text=True, check=True).stdout


def at(commit):
    """The sources of crates/ at a commit, by their paths."""
    paths = git("ls-tree", "-r", "--name-only", commit, "crates").splitlines()
    return {p: git("show", f"{commit}:{p}") for p in paths if p.endswith(SOURCES)}


def now():
    paths = [p for p in glob.glob("crates/**/*", recursive=True) if p.endswith(SOURCES) and "/out/" not in p]
    return {p: open(p, encoding="utf-8").read() for p in paths}


def code(path, text):
    """The text without its comments."""
    return re.sub(r"(?m)(^|\s)--\s.*$" if path.endswith(".antt") else r"//.*", "", text)


def declared(path, text):
    """The names that a file declares, in order."""
    text = code(path, text)
    if path.endswith(".rt"):
        return ITEM.findall(text)
    found = []
    for line in text.splitlines():
        it = None if re.match(r"\s*(pub )?use ", line) else DECLARED.match(line)
        found += (it.group(1) or it.group(2)).split() if it else []
    return found


def paired(before, after):
    table = collections.defaultdict(set)
    for path, text in before.items():
        olds, news = declared(path, text), declared(path, after.get(path, ""))
        if len(olds) != len(news):
            print(f"look: {path} declares {len(olds)} names at BEFORE and {len(news)} at AFTER, so none of them is paired")
            continue
        for old, new in zip(olds, news):
            table[old].add(new)
    for old, news in table.items():
        if len(news) > 1:
            print(f"look: {old} is {' and '.join(sorted(news))}, and is left as it stands")
    return {old: min(news) for old, news in table.items() if len(news) == 1}


def standing(tree):
    return {n for path, text in tree.items() for n in NAME.findall(code(path, text))}


def is_missing(path):
    """Whether this looks like a path of the tree, by the rules of docs/TRACE.md and docs/CHANGING.md, and there is none."""
    if not PATH.fullmatch(path) or "/" not in path or path.startswith(("target/", "out/")) or "/out/" in path or "NAME" in path:
        return False
    tops = {os.path.basename(it) for it in glob.glob("crates/*")} | {"crates", "docs", "tools", "bench", "examples", "specs", "proofs", "src"}
    if path.split("/")[0] not in tops:
        return False
    # a path below a crate's folder is told with the crate or, where the page has just named it, without
    return not any(os.path.exists(it) for it in (path, f"crates/{path}")) and not glob.glob(f"crates/*/{path}")


def main():
    is_check = sys.argv[1:] == ["--check"]
    if sys.argv[1:] and not is_check:
        sys.exit(__doc__)
    before, after, here = at(BEFORE), at(AFTER), now()
    table, stands, stood = paired(before, after), standing(here), standing(before) | standing(after)
    turned, left = collections.Counter(), collections.defaultdict(list)

    def name(it):
        old = it.group(0)
        new = table.get(old, old)
        if old in stands or new == old:
            return old
        turned[f"{old} becomes {new}"] += 1
        return new

    def span(it):
        return "`" + FIELD.sub(".", NAME.sub(name, it.group(1))) + "`"

    for page in ["README.md", *sorted(glob.glob("docs/*.md"))]:
        if page == "docs/PORT.md":
            continue
        was = open(page, encoding="utf-8").read()
        text = SPAN.sub(span, was)
        if text != was and not is_check:
            open(page, "w", encoding="utf-8").write(text)
        for it in SPAN.finditer(text):
            place = f"{page}:{text.count(chr(10), 0, it.start()) + 1}"
            if is_missing(it.group(1)):
                left[f"path {it.group(1)}"].append(place)
            elif "/" not in it.group(1):
                for one in NAME.findall(it.group(1)):
                    if one in stood and one not in stands:
                        left[f"name {one}"].append(place)
    for it, count in sorted(turned.items()):
        print(f"{it}, {count} times")
    for it, places in sorted(left.items()):
        print(f"left over: {it}: {', '.join(places)}")


if __name__ == "__main__":
    main()
