#!/usr/bin/env python3
"""Lets each file take the library's operators from the library.

usage: python3 tools/operators.py [CRATE ..]

A file of specs/ or proofs/ (or a ghost use) that imports an operator, as `◌≡◌`, by way of a module of this repository imports it from
`Rattle.std.specs.Prelude` instead, as `rt ci` wants it. Nothing else changes; a second run changes nothing.
"""

import glob
import os
import re
import sys

KIT = "/opt/rattle/rattle/std/specs/Prelude.antt"


def main(names):
    with open(KIT, encoding="utf-8") as it:
        symbols = {w for w in re.findall(r"[^\s{},]+", re.sub(r"--[^\n]*", "", it.read())) if "◌" in w}
    own = set(os.listdir("crates"))
    changed = 0
    for crate in names or sorted(own):
        files = glob.glob(f"crates/{crate}/specs/**/*.antt", recursive=True) + glob.glob(f"crates/{crate}/proofs/**/*.antt", recursive=True)
        files += glob.glob(f"crates/{crate}/src/**/*.rt", recursive=True)
        for f in files:
            with open(f, encoding="utf-8") as it:
                text = it.read()
            ghost, end = ("ghost ", ";") if f.endswith(".rt") else ("", "")
            item = re.compile(rf"^({ghost}(?:pub )?)use (Rattle\.(\w+)\.[^\s{{]+)\.\{{([^}}]*)\}}{end}\n", re.M)
            taken = []

            def turn(m):
                if m[3] not in own:
                    return m[0]
                words = [w.strip() for w in m[4].split(",") if w.strip()]
                keep = [w for w in words if w not in symbols]
                if len(keep) == len(words):
                    return m[0]
                taken.extend(w for w in words if w in symbols)
                return f"{m[1]}use {m[2]}.{{{', '.join(keep)}}}{end}\n" if keep else ""

            new = item.sub(turn, text)
            if not taken:
                continue
            there = re.search(rf"^{ghost}use Rattle\.std\.specs\.Prelude\.\{{([^}}]*)\}}{end}\n", new, re.M)
            if there:
                words = [w.strip() for w in there[1].split(",") if w.strip()]
                words += [w for w in dict.fromkeys(taken) if w not in words]
                new = new[: there.start()] + f"{ghost}use Rattle.std.specs.Prelude.{{{', '.join(words)}}}{end}\n" + new[there.end() :]
            else:
                at = re.search(rf"^{ghost}use ", new, re.M)
                at = at.start() if at else re.search(rf"^{ghost}use ", text, re.M).start()
                new = new[:at] + f"{ghost}use Rattle.std.specs.Prelude.{{{', '.join(dict.fromkeys(taken))}}}{end}\n" + new[at:]
            with open(f, "w", encoding="utf-8") as it:
                it.write(new)
            changed += 1
    print(changed, "files")


main(sys.argv[1:])
