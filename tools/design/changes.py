#!/usr/bin/env python3
"""Prints, old and new one under the other, what changed between a commit and the working tree: signatures and clauses of public
functions, type invariants, definitions of specs/, and the laws that README.md or docs/ name.

  changes.py COMMIT"""
import re
import subprocess
import sys


def texts(commit, pattern):
    """The files whose names the pattern finds, and their texts, of a commit or of the working tree."""
    if commit is None:
        names = subprocess.run(["git", "ls-files"], capture_output=True, text=True, check=True).stdout.split("\n")
        return {name: open(name).read() for name in names if re.fullmatch(pattern, name)}
    names = subprocess.run(["git", "ls-tree", "-r", "--name-only", commit], capture_output=True, text=True, check=True).stdout.split("\n")
    return {
        name: subprocess.run(["git", "show", f"{commit}:{name}"], capture_output=True, text=True, check=True).stdout
        for name in names
        if re.fullmatch(pattern, name)
    }


def exported(files):
    """The names that the roots of the crates export, by crate."""
    found = {}
    for name, text in files.items():
        crate = name.split("/")[1]
        if name.endswith("/lib.rt"):
            words = re.findall(r"\w+", " ".join(re.findall(r"^pub use ([^;]*);", text, re.M | re.S)))
            words += re.findall(r"^pub (?:extern \"C\" )?(?:fn|struct|enum) (\w+)", text, re.M)
            found.setdefault(crate, set()).update(words)
    return found


def heads(commit):
    """Public functions, structs and enums that a crate gives to others: their heads, with clauses."""
    files = texts(commit, r"crates/\w+/src/.*\.rt")
    names = exported(files)
    found = {}
    for name, text in sorted(files.items()):
        crate = name.split("/")[1]
        within = None
        for match in re.finditer(r"^(impl[^\n]*\{|\}|( *)pub (?:extern \"C\" )?fn (\w+)|pub (?:struct|enum|trait) (\w+))", text, re.M):
            if match.group(0).startswith("impl"):
                within = re.sub(r"<.*?>", "", re.sub(r"^impl(<[^>]*>)? ", "", match.group(0))).strip(" {")
                continue
            if match.group(0) == "}":
                within = None
                continue
            if match.group(3):
                owner = within or match.group(3)
                if owner.split(" ")[-1] not in names.get(crate, set()):
                    continue
                indent = match.group(2)
                end = re.compile(rf"^{indent}\{{$| \{{$|;$", re.M).search(text, match.end())
                key = f"{crate}: {within + '::' if within else ''}{match.group(3)}"
                found[key] = text[match.start() : end.start() if text[end.start()] != ";" else end.end()].strip("\n")
            elif match.group(4) in names.get(crate, set()):
                line_end = text.index("\n", match.end())
                end = line_end if text[match.end() : line_end].rstrip().endswith((";", "}")) else text.index("\n}", match.end()) + 2
                found[f"{crate}: {match.group(4)}"] = text[match.start() : end]
    return found


def definitions(commit):
    """The definitions of specs/ but for those of Inner, by crate and name."""
    found = {}
    for name, text in texts(commit, r"crates/\w+/specs/(?!Inner).*\.antt").items():
        crate = name.split("/")[1]
        lines = text.split("\n")
        starts = [i for i, line in enumerate(lines) if re.match(r"(?:abbrev |unfoldable )?pub (?:record |data )?[\w«]", line) and not line.startswith("pub use") and not line.startswith("pub mod")]
        for start in starts:
            key = re.match(r"(?:abbrev |unfoldable )?pub (?:record |data )?([^\s:(]+)", lines[start]).group(1)
            end = start + 1
            while end < len(lines) and lines[end] and not lines[end].startswith("--"):
                end += 1
            found[f"{crate}: {key}"] = "\n".join(lines[start:end])
    return found


def laws(commit, named):
    """The statements of the laws of proofs/ with these names."""
    found = {}
    for name, text in texts(commit, r"crates/\w+/proofs/[^/]*\.antt").items():
        crate = name.split("/")[1]
        lines = text.split("\n")
        for start, line in enumerate(lines):
            match = re.match(r"( *)pub ([\w-]+) : ", line)
            # a law has its proof below it; a record's field has none
            if not match or match.group(2) not in named:
                continue
            indent = len(match.group(1))
            end = start + 1
            while end < len(lines) and lines[end].strip() and len(lines[end]) - len(lines[end].lstrip()) > indent:
                end += 1
            proof = end < len(lines) and re.match(rf" {{{indent}}}(unfolding\b|{re.escape(match.group(2))}\b)", lines[end])
            if proof:
                found[f"{crate}: {match.group(2)}"] = "\n".join(lines[start:end])
    return found


def squeezed(text):
    """A text without what a layout or an import changes."""
    return re.sub(r"\s+", " ", text).strip()


def show(title, old, new, language):
    """A part of the page: what changed, what went and what is new."""
    print(f"### {title}\n")
    changed = [key for key in sorted(old) if key in new and squeezed(old[key]) != squeezed(new[key])]
    gone = [key for key in sorted(old) if key not in new]
    fresh = [key for key in sorted(new) if key not in old]
    print(f"{len(old)} before, {len(new)} now; {len(changed)} changed, {len(gone)} gone, {len(fresh)} new.\n")
    for key in changed:
        print(f"`{key}`\n\n```{language}\n{old[key]}\n```\n```{language}\n{new[key]}\n```\n")
    for key in gone:
        print(f"`{key}`, gone\n\n```{language}\n{old[key]}\n```\n")
    for key in fresh:
        print(f"`{key}`, new\n\n```{language}\n{new[key]}\n```\n")


def main():
    commit = sys.argv[1]
    # PORT.md lists how names were spelled before, of helpers too
    pages = "\n".join(text for name, text in texts(commit, r"README\.md|docs/[A-Z]+\.md").items() if name != "docs/PORT.md")
    named = set(re.findall(r"`([\w-]+)`", pages))
    show("Public functions, types and their clauses", heads(commit), heads(None), "rust")
    show("Definitions of specs/ outside Inner", definitions(commit), definitions(None), "text")
    show("Laws that README.md or docs/ named", laws(commit, named), laws(None, named), "text")


if __name__ == "__main__":
    main()
