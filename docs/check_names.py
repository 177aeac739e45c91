#!/usr/bin/env python3
"""Tries the names that the documents give against the tree. CONTRIBUTING.md, "How documents name things", has the forms."""

import re
import sys
from functools import cache
from pathlib import Path

TOP = Path(__file__).resolve().parent.parent
LINES = re.findall(r"(?m)^(\w+)[^:\n]*:(.*)$", (TOP / "crates.txt").read_text())
CRATES = {crate: below.split() for crate, below in LINES}

# Patterns: a crate; a file of one; `(crate, file, file; crate)`; a row or an item that begins with crates; `A::b` and `A::{b, c}`; a path.
CRATE = rf"\b(?:{'|'.join(CRATES)})\b"
FILE = r"(?:src|specs|proofs)/[\w/-]+\.(?:rt|antt)"
PLACE = re.compile(rf"\(((?:{CRATE}|{FILE})(?:[,;] (?:{CRATE}|{FILE}))*)\)")
OWN = re.compile(rf"(?:\| |- \*\*)({CRATE}(?:, {CRATE})*)(?: \||\*\*:)")
NAME = re.compile(r"`([\w-]+(?:::(?:\w+|\{[\w, ]+\}))*)`")
PATH = re.compile(r"[\w.-]+(?:/[\w.-]+)+\.(?:rt|antt|md|py|txt)\b|\b(?:docs|bench|examples|crates)/(?!\S*/out/)[\w/-]+")

# What may stand before a name where it is declared.
KEYWORD = r"(?:pub|pub\(crate\)|abbrev|unfoldable|record|data|ghost|fn|struct|enum|trait|const|type|mod|impl(?:<.*?>)?)\s+"


@cache
def code(file):
    """A file without its comments and imports."""
    return re.sub(r"(?m)^\s*(?:--|//|(?:pub |ghost )?use ).*$", "", file.read_text() if file.exists() else "")


def stands(name, file):
    """A file is named so, or has the name behind a keyword, as a variant, as a field or as the head of an equation."""
    bare = rf"^ {{0,2}}{name}(?![\w-])" if file.suffix == ".antt" else rf"^\s*{name}(?=\s*[,:{{=]|$)"
    declared = rf"(?m)^\s*(?:{KEYWORD})+{name}(?![\w-])|{bare}"
    return file.stem == name or file.suffix != ".edit" and re.search(declared, code(file)) is not None


@cache
def files_of(crate):
    folders = [TOP / "crates" / crate / part for part in ("src", "specs", "proofs", "must-fail")]
    return [file for folder in folders for file in folder.rglob("*.*")]


def files_at(place, crate):
    """The files of a place: all of a crate where it names none, and those of `crate` where it names no crate."""
    for group in re.split(rf"[,;] (?={CRATE})", place):
        files = group.split(", ")
        crate = files.pop(0) if files[0] in CRATES else crate
        yield from [TOP / "crates" / crate / file for file in files] or files_of(crate)


def missing(names, files):
    yield from (f"no file {file.relative_to(TOP)}" for file in files if not file.exists())
    for name in re.findall(r"[\w-]+", " ".join(names)):
        if not any(stands(name, file) for file in files):
            yield f"{name} does not stand there"


def faults_of(item, crate):
    """What is wrong in a paragraph, an item of a list or a row, where `crate` was named last before it."""
    past = 0
    for place in PLACE.finditer(item):
        crate = (re.findall(CRATE, item[: place.start()]) or [crate])[-1]
        before = re.split(r"\. |\|", item[past : place.start()])[-1]
        yield from missing(NAME.findall(before), [*files_at(place[1], crate)])
        past = place.end()
    rest = PLACE.sub("", item)
    own = OWN.match(item)
    for crate in re.findall(CRATE, own[1]) if own else []:
        yield from missing(NAME.findall(rest), [file for below in (crate, *CRATES[crate]) for file in files_of(below)])
    roots = (TOP, TOP / "crates", TOP / "examples")
    yield from (f"no file {path}" for path in PATH.findall(rest) if not any((root / path).exists() for root in roots))
    words = re.findall(r"\b[a-z]+_\w+", re.sub(r"`.*?`", "", PATH.sub("", rest)))
    yield from (f"no crate {word}" for word in words if word not in CRATES)


def faults_of_map(name, column):
    """Each crate has one row, none before one that it stands on; the arrows are those of crates.txt."""
    lines = (TOP / name).read_text().splitlines()
    rows = [re.findall(CRATE, line.split("|")[column]) for line in lines if line.startswith("|")]
    order = {crate: n for n, row in enumerate(rows) for crate in row}
    yield from (f"{name}: {crate} has no row, or two" for crate in CRATES if sum(rows, []).count(crate) != 1)
    yield from (f"{name}: {a} comes before {b}" for a in order for b in CRATES[a] if order.get(b, 0) > order[a])
    for line in lines:
        ends = [re.findall(CRATE, end) for end in line.split("──►")]
        arrows = [(a, b) for above, below in zip(ends, ends[1:]) for a in above for b in below]
        yield from (f"{name}: no arrow {a} to {b}" for a, b in arrows if b not in CRATES[a])


faults = [*faults_of_map("docs/ARCHITECTURE.md", 2), *faults_of_map("docs/CRATES.md", 1)]
# All documents but those in crates/. Of drawings and blocks of code only those that are marked as text are read.
for document in (TOP / "README.md", TOP / "CONTRIBUTING.md", *sorted(TOP.glob("[!c]*/*.md"))):
    line, crate, drawing = 1, "", re.compile(r"(?ms)^```(?:text(.*?)|.*?)^```")
    prose = drawing.sub(lambda drawn: drawn[1] or "\n" * drawn[0].count("\n"), document.read_text())
    for item in re.split(r"\n(?=\s*(?:[-#] |[|#\n]|\d+\. ))", prose):
        faults += (f"{document.relative_to(TOP)}:{line}: {fault}" for fault in faults_of(" ".join(item.split()), crate))
        line, crate = line + item.count("\n") + 1, (re.findall(CRATE, item) or [crate])[-1]
print(*faults, f"{len(faults)} names are wrong", sep="\n")
sys.exit(bool(faults))
