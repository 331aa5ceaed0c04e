#!/usr/bin/env python3
"""The dialogue of `stdin` as a terminal shows it, between its two marks in the README:

    python3 crates/shell/shown.py README.md            # puts it there
    python3 crates/shell/shown.py --check README.md    # status 1 unless it stands there"""
import os
import re
import sys

sys.path.insert(0, os.path.dirname(os.path.abspath(__file__)))
sys.dont_write_bytecode = True
import reference

BETWEEN = re.compile(r"(?<=<!-- dialogue -->\n).*?(?=<!-- end of the dialogue -->)", re.S)


def main(check, path):
    bay, script = os.fsencode(os.path.join(reference.HERE, "data", "bay.nt")), os.path.join(reference.HERE, "stdin")
    told = reference.programs.run(reference.dialogue, [bay], reference.programs.given(reference.read(script)))
    shown = "\n```\n" + told.text(reference.OUT).decode() + "```\n\n"
    text = open(path).read()
    if check:
        return BETWEEN.findall(text) != [shown]
    open(path, "w").write(BETWEEN.sub(lambda _: shown, text))


if __name__ == "__main__":
    sys.exit(main(sys.argv[1] == "--check", sys.argv[-1]))
