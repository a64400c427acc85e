#!/usr/bin/env python3
"""Which definitions, lemmas, fields and clauses of two trees with the same files have other names: crate by crate, old and new, in the order of the files.

Use: renamed.py OLD NEW        two folders with crates/
"""
import os
import re
import sys

from respell import DECLARED, HEADED, read, walk


def names(path):
    found = []
    for line in read(path).split("\n"):
        line = re.sub(r"\s*--.*", "", line)
        match = DECLARED.match(line) or HEADED.match(line)
        name = match and match[match.lastindex]
        if name and len(name) > 1 and name not in ("let", "use", "mod", "module"):
            found.append(name)
    return found


def main(old, new):
    crates = {}
    for path in walk(old, ".antt"):
        below = os.path.relpath(path, old)
        other = os.path.join(new, below)
        if path.endswith("/Proof.antt") or not os.path.exists(other):
            continue
        pairs = [(a, b) for a, b in zip(names(path), names(other)) if a != b]
        if len(names(path)) != len(names(other)):
            print(f"{below}: {len(names(path))} names, and {len(names(other))} now", file=sys.stderr)
        crates.setdefault(below.split("/")[1], []).append((below.split("/", 2)[2], pairs))
    for crate, files in crates.items():
        rows = [(file, pairs) for file, pairs in files if pairs]
        if not rows:
            continue
        print(f"### {crate}\n")
        for file, pairs in rows:
            print(f"- {file}: " + ", ".join(f"`{a}` `{b}`" for a, b in dict.fromkeys(pairs)))
        print()


if __name__ == "__main__":
    main(*sys.argv[1:])
