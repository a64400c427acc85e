#!/usr/bin/env python3
"""Brings the names of this repository's own definitions and lemmas to snake case: `rowCount` and `row-count` become `row_count`, a prime
an apostrophe. Types, modules, facts that begin with a capital, and every name of src/ keep their spelling. A lemma that would fall together
with a definition gets `_lem`. It was run once, over what the toolchain's port.py had made of the landed tree.

Use: respell.py [--dry] FOLDER        the crates of that folder
     respell.py --documents FOLDER TABLE  its documents, by a table of names
     respell.py --table FOLDER        the old and the new names
"""
import collections
import os
import re
import sys

# Names chosen by hand, where the rule gives one that something else has.
CHOSEN = {}
# A name of the repository, in antt's text: no space, bracket, quotation mark or punctuation, and no path's dot.
TOKEN = re.compile(r"[^\s(){}\[\],;.«»\"λ:@`]+")
DECLARED = re.compile(r" *(?:(?:abbrev|unfoldable|opaque|pub|instance) +)*(?:(record|data) +)?([^\s:(){},.=|λ]+)(?: +[^=]*?)? *:(?: |$)")
HEADED = re.compile(r" *(?:pub +)?(?:record|data) +([^\s:(){},.=|λ]+)")


def walk(root, ends, below="crates"):
    for folder, dirs, files in os.walk(os.path.join(root, below)):
        dirs[:] = sorted(d for d in dirs if d not in ("out", "target", ".git"))
        for name in sorted(files):
            if name.endswith(ends):
                yield os.path.join(folder, name)


def read(path):
    with open(path, encoding="utf-8") as file:
        return file.read()


def snake(name):
    name = re.sub(r"(?<=[a-z0-9])(?=[A-Z])", "_", name)
    name = re.sub(r"[A-Z]+", lambda m: m[0].lower(), name)
    return name.replace("-", "_").replace("′", "'")


def wanted(name):
    return not name[:1].isupper() and not name.startswith(("◌", "_", "+")) and re.search(r"[a-z0-9][A-Z]|[^\W\d]-|\d-|-[^\W]|′", name)


def declared(root):
    """Own names: of definitions (specs/) and of lemmas (proofs/, but for what a Proof.antt calls its goals)."""
    of_specs, of_proofs = set(), set()
    for path in walk(root, ".antt"):
        if path.endswith("/Proof.antt"):
            continue
        names = of_specs if "/specs/" in path else of_proofs
        for line in read(path).split("\n"):
            line = re.sub(r"\s*--.*", "", line)
            found = DECLARED.match(line) or HEADED.match(line)
            if found:
                names.add(found[found.lastindex])
    return of_specs, of_proofs


def outside(root):
    """Names that files import from elsewhere, with the files."""
    own = {name for name in os.listdir(os.path.join(root, "crates"))}
    names = collections.defaultdict(set)
    for path in walk(root, (".antt", ".rt")):
        for module, listed in re.findall(r"^ *(?:ghost |pub )*use ([^\s{;]+?)\.?\{([^}]*)\}", read(path), re.M):
            parts = module.split(".")
            if parts[0] == "Rattle" and len(parts) > 1 and parts[1] in own:
                continue
            for name in listed.split(","):
                names[name.split(" as ")[0].strip()].add(path)
    return names


# Where the files that say `row_count` name a lemma so, and a definition comes to that name.
GIVES_WAY = {
    "row_list": ["band_index/proofs/Layouts.antt"],
    "next_down": ["floats/proofs/Nexts.antt", "rows/proofs/Laws.antt"],
    "same_bits": ["operand_equality/proofs/Bits.antt"],
    "same_key": ["painting/proofs/Keys.antt", "painting/proofs/Alike.antt"],
    "row_count": ["schedule_laws/proofs/AllBands.antt", "schedule_laws/proofs/Own.antt"],
    "on_step": ["strip_laws/proofs/Steps.antt"],
}
# A name without a path or a field before it.
ALONE = re.compile(r"(?<![\w.'«_-])(%s)(?![\w'_-])")


def table(root):
    """The new name of each own name that is not in snake case."""
    of_specs, of_proofs = declared(root)
    foreign = outside(root)
    own = of_specs | of_proofs
    new = {name: CHOSEN.get(name) or snake(name) for name in sorted(own) if name in CHOSEN or wanted(name)}
    for name in list(new):
        if name in foreign and name not in of_specs and name not in CHOSEN:
            del new[name]
    # a lemma that falls together with a definition in a file that says both gives way
    for path in walk(root, ".antt"):
        text = re.sub(r"--.*", "", read(path))
        text = re.sub(r"use [^{\n;]*\{", "{", text)
        said = collections.defaultdict(set)
        for found in re.finditer(r"(?<![\w.'«])" + TOKEN.pattern, text):
            said[new.get(found[0], found[0])].add(found[0])
        for other, names in said.items():
            for name in names if len(names) > 1 else ():
                if "-" in name and name in of_proofs:
                    new[name] = snake(name) + "_lem"
    return new, of_specs, of_proofs, foreign


def turn(text, new):
    out, at = [], 0
    for found in TOKEN.finditer(text):
        if found[0] in new:
            out += [text[at : found.start()], new[found[0]]]
            at = found.end()
    return "".join(out) + text[at:]


def main(words):
    if "--documents" in words:
        documents(*words[-2:])
        return
    root = words[-1]
    new, of_specs, of_proofs, foreign = table(root)
    if "--table" in words:
        for name in sorted(new):
            print(name, new[name])
        return
    # what the rule cannot decide
    by_new = collections.defaultdict(list)
    for name, other in new.items():
        by_new[other].append(name)
    for other, names in sorted(by_new.items()):
        if len(names) > 1 or other in (of_specs | of_proofs) - set(new):
            print(f"falls together: {' '.join(names)} as {other}")
    for name in sorted(new):
        if name in foreign:
            print(f"also a name of the library: {name}: {sorted(foreign[name])[:3]}")
    paths = list(walk(root, (".antt", ".rt")))
    if "--dry" in words:
        return
    for path in paths:
        text = read(path)
        turned = text
        for name, files in GIVES_WAY.items():
            if path.endswith(tuple(files)):
                turned = re.sub(ALONE.pattern % name, name + "_lem", turned)
        write(path, text, turn(turned, new))


def documents(root, listed):
    new = dict(line.split(" ", 1) for line in read(listed).splitlines())
    for path in [os.path.join(root, "README.md"), os.path.join(root, "NOTICE"), *walk(root, ".md", "docs")]:
        if not os.path.basename(path).startswith("PORT"):
            write(path, read(path), turn(read(path), new))


def write(path, text, turned):
    if turned != text:
        with open(path, "w", encoding="utf-8") as file:
            file.write(turned)


if __name__ == "__main__":
    main(sys.argv[1:])
