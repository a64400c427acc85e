#!/usr/bin/env python3
"""Holds docs/SPECIFICATION.md to the definitions.

What a reader has to believe is what the statements name, and what those definitions name in turn. The statements are the
contracts of the two entries, of `candidates`, of the exported functions and of the calls that the panels make, what is claimed of an
answer in document 01's words, of the panels, of inputs that agree by value and of number 9, and the starred list. This script follows
names from there through the specs files, and looks on the page for every definition that it meets. It stops at the toolchain's own
(`Rattle.std`, `mathlib`).

It goes by definitions, not by files: a file that a plan needs for one definition may import what only inner functions
promise one another (crates/compositor_bands/specs/Bands.antt imports crates/base_rect_words/specs/Words.antt so), and by files the page would
have to list that too. A name that is a variable somewhere counts as a use of the definition of that name, but for the
variables of an equation's left side: more is asked of the page then, never less.

Prints a line for each failure, and as the last line 'N passed, M failed'. `--reached` prints what is met, by file.
"""

import os
import re
import sys

PAGE = "docs/SPECIFICATION.md"
INNER = "## Definitions that only serve inner promises"
# Document 01 is not part of the repository; it stands in the folder `shared` beside it.
DOCUMENT = os.environ.get("DOCUMENT_01", "../shared/01-scope.md")

# Where the statements are: the contracts of all public functions of these files, and the definitions that say it all.
CONTRACTS = [
    "crates/planner/src/lib.rt",
    "crates/compositor_candidates/src/lib.rt",
    "crates/sovdringa/src/lib.rt",
    "crates/panels_calls/src/lib.rt",
]
STATEMENTS = [
    ("crates/panels/specs/Entries.antt", "EntriesAgree"),
    ("crates/panels/specs/Panels.antt", "PanelsAgree"),
    ("crates/panels/specs/Rows.antt", "SameRows"),
    ("crates/plan_agreement/specs/Plans.antt", "SameByValue"),
    ("crates/plan_agreement/specs/Fields.antt", "AgreeInFields"),
    ("crates/strip_laws/specs/Nine.antt", "NoneBefore"),
    ("crates/strip_laws/specs/Nine.antt", "Nine"),
    ("crates/starred/specs/Starred.antt", "Starred"),
]

WORD = re.compile(r"[^\s(){};,]+")
# What a file imports that is neither the toolchain's nor code, and the forms of it that can be followed.
OWN = r"^[ \t]*(?:pub[ \t]+)?(?:ghost[ \t]+)?use[ \t]+(?!Rattle\.std\.|mathlib\.|\w+::).*$"
IMPORT = re.compile(
    r"^\s*(?:ghost\s+)?use\s+Rattle\.(?!std\.)(?P<crate>[a-z0-9_]+)\.specs\.(?P<declared>declared\.)?(?P<module>[A-Za-z0-9_]+)"
    r"(?:\.TheVariants)?(?:\.\{(?P<names>[^}]*)\})?(?:\s+as\s+(?P<alias>\w+))?;?\s*$",
    re.M,
)
# The first line of a definition: a record or a data type, or a signature. A module that is opened for its parameters has no name.
OPENING = re.compile(
    r"^\s*(?:unfoldable\s+)?(?:abbrev\s+)?(?:pub\s+)?(?:(?P<kind>record|data)\s+(?P<type>[^\s{]+)|(?P<module>module)\s+_|(?P<name>[^\s:(){}]+)\s+:(?=\s|$))"
)
CLAUSE = re.compile(r"\b(?:requires|ensures|decreases)(?:\s+\w+)?\s*\{")
DECLARED = r"^[ \t]*(?:pub[ \t]+)?(?:extern[ \t]+\"C\"[ \t]+)?(?:%s)[ \t]+%s\b"


def read(path):
    with open(path, encoding="utf-8") as file:
        return file.read()


def spelled(name):
    """`◌⊕◌` stands between its operands as ⊕."""
    return name.strip("◌") if name.startswith("◌") and name.endswith("◌") else name


def words(text):
    """The names in a text. `.field` is left out, since the record that has it is named too."""
    return [word.rstrip(".") for word in WORD.findall(text) if not word.startswith(".")]


class Imports:
    """What the imported names of a file mean: (file, name), or (None, crate::type) for a struct or an enum of the code."""

    def __init__(self, text):
        self.names, self.modules = {}, {}
        lines = re.findall(OWN, text, re.M)
        self.unread = [line.strip() for line in lines if not IMPORT.match(line) or not re.search(r"\}|\sas\s", line)]
        for found in IMPORT.finditer(text):
            # A module under `declared` is made from the struct or enum of that name in the crate's sources.
            crate, module = found["crate"], found["module"]
            place = (None, f"{crate}::{module}") if found["declared"] else (f"crates/{crate}/specs/{module}.antt", None)
            for entry in filter(None, map(str.strip, (found["names"] or "").split(","))):
                name, _, new = entry.partition(" as ")
                self.names[spelled((new or name).strip())] = place if found["declared"] else (place[0], name.strip())
            if found["alias"]:
                self.modules[found["alias"]] = place

    def find(self, word):
        if word in self.names:
            return self.names[word]
        module, dot, name = word.partition(".")
        if dot and module in self.modules:
            path, declared = self.modules[module]
            return (path, name) if path else (None, declared)
        return None


class Specs:
    """A file of definitions: each with its lines, the fields of records, the constructors of data types."""

    def __init__(self, path):
        text = re.sub(r"(^|\s)--(\s.*)?$", "", read(path), flags=re.M)
        self.path, self.imports = path, Imports(text)
        self.lines, self.fields, self.constructors, self.unread = {}, set(), {}, self.imports.unread
        self.split(text)
        self.here = {spelled(name): name for name in self.lines}

    def split(self, text):
        modules, name, depth, kind = [], None, 0, None
        for line in text.split("\n"):
            if not line.strip() or re.match(r"\s*(use|infix[lr]?|pub mod)\s", line):
                continue
            indent = len(line) - len(line.lstrip())
            modules = [(at, header) for at, header in modules if at < indent]
            opening = OPENING.match(line)
            if kind and indent > depth:
                self.lines[name].append(line)
                if opening and opening["name"]:
                    if kind == "data":
                        self.constructors[opening["name"]] = name
                    else:
                        self.fields.add(opening["name"])
            elif opening and opening["module"]:
                modules.append((indent, line))
                name, kind = None, None
            elif opening:
                name, depth, kind = opening["type"] or opening["name"], indent, opening["kind"]
                self.lines[name] = [header for _, header in modules] + [line]
            elif name:
                self.lines[name].append(line)
            else:
                self.unread.append(line.strip())

    def defines(self, name):
        return name in self.lines or name in self.fields or name in self.constructors

    def clauses(self, name):
        """The signature of a definition, then its equations, each in one text."""
        texts = []
        for line in self.lines[name]:
            if not texts or spelled(name) != name or re.match(r"\s*%s(\s|$)" % re.escape(name), line):
                texts.append(line)
            else:
                texts[-1] += "\n" + line
        return texts

    def uses(self, name):
        """What a definition names."""
        for text in self.clauses(name):
            variables = set()
            sides = re.split(r"\s=\s", text, maxsplit=1)
            if len(sides) == 2 and ":" not in words(sides[0]) and words(text)[0] not in ("pub", "record", "data"):
                variables = {word for word in words(sides[0]) if not self.is_constructor(word)}
            for word in words(text):
                if word not in variables:
                    yield self.find(word)

    def is_constructor(self, word):
        path, name = self.imports.find(word) or (self.path, word)
        # The cases of an enum of the code are constructors.
        return path is None or (os.path.exists(path) and name in specs_at(path).constructors)

    def find(self, word):
        if word in self.constructors or word in self.here:
            return self.path, self.constructors.get(word) or self.here[word]
        found = self.imports.find(word)
        if found and found[0] and os.path.exists(found[0]):
            return found[0], specs_at(found[0]).constructors.get(found[1], found[1])
        return found


files = {}


def specs_at(path):
    if path not in files:
        files[path] = Specs(path)
    return files[path]


def sources(crate):
    for folder, _, names in sorted(os.walk(f"crates/{crate}/src")):
        yield from (os.path.join(folder, name) for name in sorted(names) if name.endswith(".rt"))


def imported_types(text):
    """`use crate::Type;` and `use crate::{Type, Other};` of a source file."""
    for crate, listed in re.findall(r"^\s*(?:pub\s+)?use\s+(\w+)::([^;]*);", text, re.M):
        for name in re.findall(r"\w+", listed):
            yield name, f"{crate}::{name}"


def types_in(path, text):
    """The structs and enums that a part of a source file names."""
    crate, whole = path.split("/")[1], read(path)
    known = dict(imported_types(whole))
    known.update((name, f"{crate}::{name}") for name in re.findall(r"^\s*(?:pub\s+)?(?:struct|enum)\s+(\w+)", whole, re.M))
    for word in re.findall(r"\w+", text):
        if word in known and type_at(known[word]):
            yield known[word]


def type_at(of):
    """Where a struct or an enum is declared, with its text; None where the crate has none of that name."""
    crate, name = of.split("::")
    for path in sources(crate):
        found = re.search(DECLARED % ("struct|enum", re.escape(name)) + r"[^{;]*\{(.*?)^[ \t]*\}", read(path), re.M | re.S)
        if found:
            return path, found.group(1)
    return None


def contract(path, function):
    """A function's text from its name up to its body: the first brace that opens no clause."""
    text = read(path)
    found = re.search(DECLARED % ("fn", re.escape(function)), text, re.M)
    if not found:
        return ""
    start, at = found.start(), found.end()
    while True:
        brace, clause = text.find("{", at), CLAUSE.search(text, at)
        if not clause or brace < clause.end() - 1:
            return text[start:brace]
        at, depth = clause.end(), 1
        while depth and at < len(text):
            depth += {"{": 1, "}": -1}.get(text[at], 0)
            at += 1


class Tally:
    def __init__(self):
        self.passed, self.failures = 0, []

    def need(self, holds, failure):
        """What must hold to go on. It is no test of the page, and counts only where it fails."""
        if not holds and failure not in self.failures:
            self.failures.append(failure)
        return holds

    def check(self, holds, failure):
        self.passed += 1 if holds else 0
        return self.need(holds, failure)


def reach(tally):
    """The definitions, as (file, name), and the types, as crate::type, that the statements meet."""
    waiting = list(STATEMENTS)
    for path in CONTRACTS:
        text = read(path) if os.path.exists(path) else ""
        imports = Imports(text)
        for line in imports.unread:
            tally.need(False, f"{path}: .ci/specification.py cannot follow '{line}'")
        functions = re.findall(r"^[ \t]*pub[ \t]+(?:extern[ \t]+\"C\"[ \t]+)?fn[ \t]+(\w+)", text, re.M)
        tally.need(functions, f"{path} has no public function: correct CONTRACTS in .ci/specification.py")
        for function in functions:
            promised = contract(path, function)
            tally.check(re.search(r"\bensures\b", promised), f"{path}: the public function {function} has no contract")
            waiting += [imports.find(word) for word in words(promised)] + [(None, of) for of in types_in(path, promised)]
    definitions, types = set(), set()
    while waiting:
        path, name = waiting.pop() or (None, None)
        if not name or (path, name) in definitions or (not path and name in types):
            continue
        if path:
            definitions.add((path, name))
            if tally.need(os.path.exists(path) and specs_at(path).defines(name), f"{path} has no definition {name}, which a statement meets"):
                waiting += specs_at(path).uses(name)
                for line in specs_at(path).unread:
                    tally.need(False, f"{path}: .ci/specification.py cannot follow '{line}'")
        else:
            types.add(name)
            if tally.need(type_at(name), f"no source of crate {name.split('::')[0]} declares {name}, which a statement meets"):
                waiting += [(None, of) for of in types_in(*type_at(name))]
    return definitions, types


def rows(text):
    """The rows of the tables of a text, each as its cells."""
    for line in text.split("\n"):
        if line.startswith("|") and not line.startswith("|---"):
            yield line.strip("|").split("|")


def named_in(cell):
    """What a cell names: (file, name) for each name in backticks before a file, (file, None), and (None, name) where none follows."""
    names = []
    for name, path in re.findall(r"`([^`]+)`|(crates/[\w/.-]+\.(?:antt|rt))", cell):
        if name:
            names.append(name)
        else:
            yield path, None
            yield from ((path, one) for one in names)
            names = []
    yield from ((None, one) for one in names)


def defined_in(path, name):
    if path.endswith(".antt"):
        return specs_at(path).defines(name)
    return re.search(DECLARED % ("struct|enum|fn|const", re.escape(name)), read(path), re.M)


def main():
    os.chdir(os.path.join(os.path.dirname(os.path.abspath(__file__)), ".."))
    tally = Tally()
    definitions, types = reach(tally)
    if "--reached" in sys.argv:
        for path in sorted({path for path, _ in definitions}):
            print(path, *sorted(name for at, name in definitions if at == path))
        print(*sorted(types))
        return 0
    page = read(PAGE) if os.path.exists(PAGE) else ""
    tally.check(page.count(INNER + "\n") == 1, f"{PAGE} must have the heading '{INNER}' once")
    above, _, below = page.partition(INNER + "\n")

    # ---- what the page names is there
    for path in sorted(set(re.findall(r"crates/[\w/.-]+\.(?:antt|rt)", page))):
        tally.check(os.path.exists(path), f"{PAGE} names {path}, which is not there")
    named = {pair for cells in rows(above) for pair in named_in(cells[-1])}
    for path, name in sorted(named, key=str):
        if not path:
            tally.check(False, f"{PAGE} has `{name}` in the last column with no file behind it")
        elif name and os.path.exists(path):
            tally.check(defined_in(path, name), f"{PAGE} has `{name}` beside {path}, which does not define it")
    inner = re.findall(r"^- (crates/\S+\.antt): ", below, re.M)
    for crate, function in sorted(set(re.findall(r"`(\w+)::(\w+)`", below))):
        tally.check(any(defined_in(path, function) for path in sources(crate)), f"{PAGE} names {crate}::{function}, which is not there")

    # ---- what it quotes stands in document 01, where that is at hand
    if os.path.exists(DOCUMENT):
        document = " ".join(read(DOCUMENT).split())
        for quoted in sorted({piece for cells in rows(above) for quote in re.findall(r'"([^"]*)"', cells[0]) for piece in re.split(r" ?\.\. ?", quote)}):
            tally.check(quoted.strip("*") in document, f"{PAGE} quotes '{quoted}', which does not stand in document 01")

    # ---- what is met stands above the heading, and only what is not met below it
    for path, name in sorted(definitions):
        tally.check((path, name) in named, f"{PAGE} does not name `{name}` beside {path} above the inner heading, and a statement meets it")
    for of in sorted(types):
        path = (type_at(of) or ("no source",))[0]
        name = of.split("::")[1]
        tally.check((path, name) in named, f"{PAGE} does not name `{name}` beside {path} above the inner heading, and a statement meets it")
    met = {path for path, _ in definitions}
    for path in sorted(set(inner)):
        tally.check(path not in met, f"{PAGE} lists {path} under the inner heading, but the statements meet it: name its definitions above")
        tally.check(inner.count(path) == 1 and (path, None) not in named, f"{PAGE} lists {path} under the inner heading, and there again or above")

    # ---- every file of definitions is on the page; Lib.antt only names the modules
    for crate in sorted(os.listdir("crates")):
        folder = f"crates/{crate}/specs"
        for name in sorted(os.listdir(folder)) if os.path.isdir(folder) else []:
            path = f"{folder}/{name}"
            if name == "Lib.antt":
                tally.check(not specs_at(path).lines, f"{path} has definitions: they belong in a file of their own")
            elif name.endswith(".antt") and path not in met:
                tally.check((path, None) in named or path in inner, f"{PAGE} does not name {path}: list it under the inner heading, for no statement meets it")

    for failure in tally.failures:
        print(f"FAILED: {failure}")
    print(f"{tally.passed} passed, {len(tally.failures)} failed")
    return 1 if tally.failures else 0


sys.exit(main())
