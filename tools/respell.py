#!/usr/bin/env python3
"""Brings the names of this repository's own definitions and lemmas to today's spelling, after port.py.

usage: python3 tools/respell.py [ROOT]

Words are in snake case, types and modules in camel case: each word that begins in lower case and has a capital inside, and that a file of
specs/ or proofs/ declares, is turned (`haltOf` to `halt_of`), wherever the antt, the contracts, comments, must-fail edits and pages name it.
Names of src/, strings of .rt files, inputs and outputs stay. A lemma that had the turned name already gets `_lem` (the list LEMMAS, found
by looking for files that used both). A second run changes nothing.
"""

import collections
import glob
import os
import re
import sys

# A word; a hexadecimal number (0xD7FF, #xD7FF) is none.
WORD = re.compile(r"(?<![0-9A-Za-z_#])[A-Za-z_][A-Za-z0-9_']*")
CAMEL = re.compile(r"[a-z_]+[a-z0-9_]*[A-Z]")
# Lemmas, or names that a proof binds, whose name a definition takes in a file that uses both.
LEMMAS = (
    "term_of found_in has_ended place_ok none_below on_chain load_from not_more one_more chain_length first_byte"
    " run_end in_order"
).split()


def snake(word):
    word = re.sub(r"([a-z0-9'])([A-Z])", r"\1_\2", word)
    return re.sub(r"([A-Z]+)([A-Z][a-z])", r"\1_\2", word).lower()


def read(path):
    with open(path, encoding="utf-8") as it:
        return it.read()


def below(root, *patterns):
    return sorted(p for g in patterns for p in glob.glob(os.path.join(root, g), recursive=True) if "/out/" not in p)


def declared(files):
    """The words that some file declares: items, fields, constructors, binders."""
    out = set()
    for f in files:
        t = re.sub(r"--[^\n]*", "", read(f))
        names = []
        for m in re.finditer(r"^\s*(?:abbrev |unfoldable |pub |data |record )*([^\s(){}:.,;]+(?:\s+[^\s(){}:.,;]+)*)\s*:", t, re.M):
            names += m.group(1).split()
        for m in re.findall(r"[({]([^(){}:]+?)\s:", t):
            names += m.split()
        for m in re.findall(r"λ ([^.]+)\.", t):
            names += m.split()
        names += re.findall(r"let ([^\s=:]+)", t)
        names += re.findall(r" as ([A-Za-z]\w*)", t)
        for n in names:
            out.update(WORD.findall(n))
    return out


def turned(text, table, lemmas):
    if lemmas:
        text = re.sub(r"(?<![\w.'·-])(" + "|".join(LEMMAS) + r")(?![\w.'·-])", r"\1_lem", text)
    return WORD.sub(lambda m: table.get(m.group(0), m.group(0)), text)


# Rattle makes a module `specs.contracts` of its own, so a file of that name in specs/ has another.
MOVED = (("crates/store/specs/Contracts.antt", "crates/store/specs/CodeRuns.antt", "Contracts", "CodeRuns"),)


def moved(root):
    for old, new, was, name in MOVED:
        if not os.path.exists(os.path.join(root, old)):
            continue
        os.rename(os.path.join(root, old), os.path.join(root, new))
        crate = old.split("/")[1]
        for f in below(root, "crates/*/specs/**/*.antt", "crates/*/proofs/**/*.antt", "crates/*/src/**/*.rt", "*.md", "docs/*.md"):
            text = read(f)
            new_text = text.replace(f"Rattle.{crate}.specs.{was}", f"Rattle.{crate}.specs.{name}").replace(old, new).replace(f"specs/{was}.antt", f"specs/{name}.antt")
            if f.endswith(f"crates/{crate}/specs/Lib.antt"):
                new_text = re.sub(rf"\bmod {was}$", f"mod {name}", new_text, flags=re.M)
            if new_text != text:
                with open(f, "w", encoding="utf-8") as it:
                    it.write(new_text)


def main(root):
    moved(root)
    antt = below(root, "crates/*/specs/**/*.antt", "crates/*/proofs/**/*.antt")
    words = declared(antt)
    table = {w: snake(w) for w in words if CAMEL.match(w)}
    heirs = collections.defaultdict(list)
    for w, s in table.items():
        heirs[s].append(w)
    for s, ws in sorted(heirs.items()):
        if len(ws) > 1:
            print("fall together:", s, ws)
    changed = 0
    for f in antt + below(root, "crates/*/src/**/*.rt", "crates/*/must-fail/*.edit", "*.md", "docs/*.md", "kit/*.md", "bench/*.md"):
        text = read(f)
        lemmas = bool(table) and f.endswith((".antt", ".edit")) 
        if f.endswith(".rt"):
            parts = re.split(r'("(?:[^"\\\n]|\\.)*")', text)
            new = "".join(p if i % 2 else turned(p, table, False) for i, p in enumerate(parts))
        else:
            new = turned(text, table, lemmas)
        if new != text:
            with open(f, "w", encoding="utf-8") as it:
                it.write(new)
            changed += 1
    print(len(table), "names,", changed, "files")


main(sys.argv[1] if len(sys.argv) > 1 else ".")
