#!/usr/bin/env python3
"""Turns the names that the kit's port.py left in camel case (definitions, fields, lemmas, local names of proofs) to snake case.

    python3 tools/respell.py        at the top, once, right after port.py

Each word that begins with a small letter and has a capital further in is turned, wherever it stands in a crate's antt files, sources and
must-fail edits, and in the pages that name it: sideTable is side_table, all-takeAt is all-take_at. Types and modules keep their capitals, and
so does what a source declares, since Rust's functions and fields are in snake case already. It stops where two words would fall together.
"""
import os
import re
import sys

CAMEL = re.compile(r"(?<![\w'])[a-z][a-z0-9]*[A-Z][A-Za-z0-9]*(?![A-Za-z0-9_])")
LIBRARY = {"getD": "get_or"}
PAGES = ["README.md", "docs/CALLS.md", "docs/CONTRACTS.md", "docs/DECISIONS.md", "docs/PERFORMANCE.md", "docs/READING.md",
         "docs/changes/00-house.md", "docs/changes/03-fewer-copies.md", "docs/changes/README.md"]


def snake(word):
    return LIBRARY.get(word) or re.sub(r"(?<!^)[A-Z]", lambda m: "_" + m.group(0).lower(), word)


def files():
    for folder, inner, names in os.walk("crates"):
        inner[:] = sorted(d for d in inner if d not in ("out", "data"))
        for name in sorted(names):
            if name.endswith((".antt", ".rt", ".edit")):
                yield os.path.join(folder, name)


def read(path):
    with open(path, encoding="utf-8") as f:
        return f.read()


def main():
    texts = {p: read(p) for p in files()}
    words = {w for t in texts.values() for w in CAMEL.findall(t)}
    turned = {w: snake(w) for w in words}
    if len(set(turned.values())) < len(turned):
        sys.exit("respell: two words fall together")
    texts.update((p, read(p)) for p in PAGES if os.path.exists(p))
    for path, text in texts.items():
        # A page also cites, in backquotes, words that port.py has turned already
        whole = re.compile(r"`[^`\n]*`") if path in PAGES else re.compile(r".*")
        new = whole.sub(lambda part: CAMEL.sub(lambda m: turned.get(m.group(0)) or snake(m.group(0)), part.group(0)), text)
        if new != text:
            with open(path, "w", encoding="utf-8") as f:
                f.write(new)
    print(f"respell: {len(turned)} words turned")


main()
