#!/usr/bin/env python3
"""parameters.py [FOLDER]: counts, in the repository at FOLDER, the functions of crates/*/src that have seven parameters or more, and those that take a slice
of numbers with a count beside it (a `usize` named n, k, m, count or rects), or two slices that run in parallel (boxes with below, items with item_boxes)."""
import glob
import re
import sys

COUNTS = {"n", "k", "m", "count", "rects"}
PARALLEL = ({"boxes", "below"}, {"items", "item_boxes"})


def parameters(text, start):
    """The parameters of a function whose list begins at start."""
    depth, parts, part = 0, [], ""
    for ch in text[start:]:
        if ch in "([{<":
            depth += 1
        elif ch in ")]}>":
            if depth == 0:
                break
            depth -= 1
        if ch == "," and depth == 0:
            parts.append(part)
            part = ""
        else:
            part += ch
    return [it.strip() for it in [*parts, part] if it.strip()]


root = sys.argv[1] if len(sys.argv) > 1 else "."
long, beside = [], []
for path in sorted(glob.glob(f"{root}/crates/*/src/*.rt")):
    crate, text = path.split("/")[-3], open(path, encoding="utf-8").read()
    for found in re.finditer(r'^\s*(?:pub )?(?:extern "C" )?fn ([a-z_0-9]+)(?:<[^(]*>)?\(', text, flags=re.M):
        given = parameters(text, found.end())
        types = {it.split(":")[0].replace("mut ", "").strip(): it for it in given}
        slices = {name for name, it in types.items() if re.search(r"&(mut )?\[(f64|u64|u32)\]", it)}
        counted = any(name in COUNTS and "usize" in it for name, it in types.items())
        if len(given) >= 7:
            long.append(f"{crate}::{found[1]}")
        if slices and counted or any(pair <= slices for pair in PARALLEL):
            beside.append(f"{crate}::{found[1]}")
for title, names in (("seven parameters or more", long), ("a count beside a slice, or slices in parallel", beside)):
    print(f"{len(names)} with {title}: {' '.join(names)}")
