#!/usr/bin/env python3
"""Holds the shell to `reference.py` on random bay files and scripts, or on full tables:

    python3 crates/shell/random_scripts.py target/programs/lemontiller-shell SEED ROUNDS
    python3 crates/shell/random_scripts.py target/programs/lemontiller-shell full

Standard output, standard error and the status are compared. At the first difference the files are kept, their folder is told, and the status
is 1."""
import os
import random
import re
import shutil
import subprocess
import sys
import tempfile

sys.path.insert(0, os.path.dirname(os.path.abspath(__file__)))
sys.dont_write_bytecode = True
import reference
from reference import ERR, OUT, programs

VISITS = 3000
STRING = b"^^<http://www.w3.org/2001/XMLSchema#string>"
IRIS = [b"<r:21>", b"<r:50>", b"<r:87>", b"<b:4>", b"<b:7>", b"<bay:1>"]
PREDICATES = [b"<p:in>", b"<p:trips>", b"<p:of>"]
BLANKS = [b"_:a", b"_:a.b", b"_:1-"]
LITERALS = [b'"A"', b'"A"' + STRING, b'"A"@en-GB', b'"A"^^<t:i>', b'""', b'"a\\"b\\\\"', b'"A' + STRING + b'"', b'"B"' + STRING]
UNKNOWN = [b"<r:9>", b"_:zz", b'"none"@en', b'"none"' + STRING, b"<R:21>"]
COMMANDS = [b"list", b"names", b"assert", b"retract", b"counts", b"totals", b"check", b"reclaim", b"save", b"help", b"quit"]
BYTES = b"<>_:\"?.#@^\\- \t\r\0abn9~\x7f\x80\xff\n"


class TooLong(Exception):
    pass


class Bounded(reference.Tables):
    """Questions of many visits are left out of a script."""

    def answer(self, budget):
        told = super().answer(budget)
        self.visits += told[2]
        if self.visits > VISITS:
            raise TooLong
        return told


# A name of 254 to 257 bytes.
def long_name(r):
    size = r.randrange(254, 258)
    last = r.choice([b">", b" ", b"", b".", b'"', b'"@en', b'"' + STRING, b'"^^<t:i>'])
    first = {b">": b"<", b" ": b"<", b"": b"_:", b".": b"_:"}.get(last, b'"')
    return first + b"x" * (size - len(first) - len(last)) + last


def name(r, pool):
    x = r.random()
    return long_name(r) if x < 0.02 else r.choice(UNKNOWN) if x < 0.06 else r.choice(pool)


# The three names of a statement, seldom of a kind that is not permitted there.
def triple(r):
    any_name = IRIS + PREDICATES + BLANKS + LITERALS
    pools = [IRIS + BLANKS, PREDICATES, any_name] if r.random() < 0.95 else [any_name] * 3
    return [name(r, pool) for pool in pools]


# A statement's line, often one that the store has; seldom with a label and a dot about byte 256.
def statement(r, store=None):
    if store and store.counters[1] and r.random() < 0.6:
        return store.line(r.randrange(store.counters[1]) + 1)
    if r.random() < 0.02:
        return b"<r:21> <p:in> _:" + b"x" * r.randrange(252, 255) + r.choice([b".", b"..", b".b", b". x", b" .", b".#"])
    gaps = [r.choice([b" ", b" ", b" ", b"", b"\t", b"  "]) for _ in range(4)]
    end = r.choice([b".", b".", b".", b".", b". # x", b".\t", b"", b". x", b".."])
    return b"".join(part + white for part, white in zip(triple(r), gaps)) + end


# Beginnings of a line and what may stand after them, right or not.
HALVES = [
    ([b'<r:21> <p:in> "a\\%c' % b for b in b"tuU'x nr\"\\"], [b'"', b'" .', b""]),
    ([b"<r:21> <p:in> " + o for o in (b'"A"@', b'"A"@en-', b'"A"^', b'"A"^^', b'"A"^^<t', b"_:", b"_:a.", b"_", b"<")],
     [b"", b" .", b".", b"..", b"1 .", b"{"]),
    ([b"", b"<r:21> ", b"<r:21> <p:in> ", b"<r:21> <p:in> <b:4> ", b"_:a. "], [b"", b"x", b"#", b".", b'"A"', b"_:a"]),
]


# A statement's line spoiled in one of the ways that a refusal has words for, or nearly so.
def spoiled(r):
    text, at, halves = statement(r), r.randrange(1, 20), r.choice(HALVES)
    byte = bytes([r.choice([r.randrange(32), r.randrange(127, 256), r.randrange(32, 127)])])
    return r.choice([
        programs.MARK[: r.choice([2, 3, 3])] + text, text[:at], text[:at] + byte + text[at:], text[:at] + byte,
        b"<r:21> <p:in> " + long_name(r) + b" .", long_name(r) + b" <p:in> <b:4> .", *[r.choice(halves[0]) + r.choice(halves[1])] * 4])


# Six patterns with 16 or 17 variables, one part unknown: no walk.
def many_variables(r):
    parts = [b"?v%d" % n for n in range(r.choice([16, 17]))]
    parts += [b"<r:9>"] + r.choices(parts, k=17 - len(parts))
    r.shuffle(parts)
    return b" . ".join(b" ".join(parts[n : n + 3]) for n in range(0, 18, 3))


def question(r):
    if r.random() < 0.05:
        return many_variables(r)
    variables = [b"?" + v for v in r.choice([[b"a", b"b"], [b"a", b"b", b"c_1", b"D"], [b"v%d" % n for n in range(1, 19)]])]
    patterns = []
    for _ in range(r.choice([1, 1, 2, 2, 3, 4, 6, 6, 7])):
        patterns.append(b" ".join(r.choice(variables) if r.random() < p else n for n, p in zip(triple(r), (0.7, 0.2, 0.6))))
    return r.choice([b" . "] * 8 + [b" .\t", b". ", b" ", b" ."]).join(patterns) + r.choice([b"", b"", b"", b" .", b" . ", b"."])


# A line filled up to 1,023 to 1,026 bytes.
def long_line(r):
    begun, fill = r.choice([(statement(r) + b" #", b"x"), (b"assert <r:21> <p:in> <b:4> . #", b"x"), (question(r), b" "), (b"#", b"x"),
                            (b"", b"\t"), (b"totals", b" "), (b"names <", b"x"), (b"list ? ? ? .", b" "), (b"zz", b"z")])
    return begun + fill * (r.randrange(1023, 1027) - len(begun))


# One command or question, as it is meant.
def meant(r, store):
    if r.random() < 0.01:
        return r.choice([b"quit", b" quit ", b"quit\t"])
    word = r.choice(COMMANDS[:5] * 4 + COMMANDS[5:] + [b"assert", b"retract"] * 4 + [b"?"] * 12 + [b"#", b""])
    white = r.choice([b" "] * 6 + [b"\t", b"  "])
    if word == b"?":
        return question(r)
    if word in (b"assert", b"retract"):
        return word + white + statement(r, store)
    if word == b"list":
        return word + white + b" ".join(b"?" if r.random() < 0.5 else n for n in triple(r)) + r.choice([b"", b"", b" .", b".", b" . x"])
    if word == b"names":
        n = r.choice(IRIS + PREDICATES + BLANKS + LITERALS + [long_name(r)])
        return word + white + n[: r.choice([0, 1, 2, 3, len(n)])] + r.choice([b"", b"", b" "])
    if word == b"counts":
        return word + white + name(r, IRIS + PREDICATES + BLANKS + LITERALS) + r.choice([b"", b"", b" ", b" ."])
    return word + (b" x" if word == b"quit" else r.choice([b"", b"", b"", b" ", b" x"]))


# A line of a script or file: as meant, or with one byte replaced, put in or taken out.
def line(r, make, *store):
    text = long_line(r) if r.random() < 0.03 else make(r, *store)
    if r.random() < 0.03:
        text = r.choice([b" ", b"\t", b"\r"]) + text
    if text and r.random() < 0.2:
        at, other = r.randrange(len(text)), bytes([r.choice(BYTES)])
        text = text[:at] + r.choice([other, other + text[at : at + 1], b""]) + text[at + 1 :]
    return text + r.choice([b"\n"] * 8 + [b"\r\n", b"\r\r\n"])


# A file, seldom one in which many lines are refused.
def file(r):
    make, most = (spoiled, 70) if r.random() < 0.2 else (lambda r: (spoiled if r.random() < 0.1 else statement)(r), 40)
    text = b"".join(line(r, make) for _ in range(r.randrange(most)))
    return text.removesuffix(b"\n") if r.random() < 0.2 else text


# Files by their names, what is named of them, and a run of the shell that has loaded them. Seldom one is named twice, or not there.
def loaded(r):
    every = r.random() < 0.5
    run = reference.Shell(programs.Told(), every, Bounded())
    files = {b"%d.nt" % n: file(r) for n in range(r.choice([0, 1, 1, 1, 2, 3]))}
    named = list(files)
    named += [r.choice(named)] if named and r.random() < 0.05 else []
    named += [b"none.nt"] if r.random() < 0.05 else []
    r.shuffle(named)
    for name in named:
        run.loading.file(name, *((files[name], None) if name in files else (b"", b"No such file or directory")))
    if every:
        named.insert(r.randrange(len(named) + 1), b"--all")
    return files, named, run


# Files, arguments, a script, and what it comes to.
def random_case(r):
    files, args, run = loaded(r)
    script, commands, open_end = [], r.randrange(5, 60), r.random() < 0.3
    for k in range(commands):
        text = line(r, meant, run.store)
        if open_end and k + 1 == commands:
            text = text.removesuffix(b"\n")
        for piece in re.findall(rb"[^\n]*\n|[^\n]+", text):
            run.store.visits = 0
            try:
                goes_on = run.line(*reference.lines_of(piece))
            except TooLong:
                continue
            script.append(piece)
            if not goes_on:
                return files, args, b"".join(script) + (b"totals\n" if piece.endswith(b"\n") else b""), run.told
    return files, args, b"".join(script), run.told


def nt(*names):
    return b" ".join(names) + b" .\n"


# An IRI, filled up with `x` to a size.
def iri(text, size=0):
    return b"<" + text.encode() + b"x" * max(0, size - len(text) - 2) + b">"


# Each table full, a file too long, the last reclaim.
def full_cases():
    p, q = iri("p:x"), iri("p:", 255)
    grid = b"".join(nt(iri(f"s:{i}"), p, iri(f"o:{j}")) for i in range(128) for j in range(128))
    known, other, names = b"<s:1> <p:x> <o:1> .\n", b"<s:1> <p:x> <s:2> .\n", b"<n:1> <p:x> <n:2> .\n"
    yield "statements", [grid], b"".join([
        b"totals\nassert ", other, b"assert ", names, b"assert ", known, b"totals\nretract ", known, b"assert ", other, b"assert ", known,
        b"retract ", known, b"reclaim\nassert ", names, b"assert ", known, b"totals\n?a <p:x> <o:5> . ?a <p:x> <o:6>\n<s:1> <p:x> ?o\n",
        b"save\ncheck\n"])
    pairs = b"".join(nt(iri(f"s:{i}"), p, iri(f"o:{i}")) for i in range(4095))
    yield "resources", [pairs], b"".join([
        b"totals\nassert ", names, b"totals\nassert <n:1> <p:x> <n:1> .\ntotals\nassert ", names, b"assert <s:1> <p:x> <n:1> .\n",
        b"assert <s:1> <p:x> <n:2> .\nnames <n:\ntotals\n"])
    yield "resources loaded", [pairs, names + nt(b"<s:1>", p, b"<n:1>")], b"totals\nnames <n:\nlist ? ? <n:1>\n"
    many = b"".join(nt(iri(f"n:{i}"), p, b"<s:1>") for i in range(30))
    yield "statements loaded", [grid, known + other + b"<s:1>\n" + many, other], b"totals\nnames <n:\ncheck\n"
    wide = b"".join(nt(iri(f"s:{i}", 255), q, iri(f"o:{i}", 255)) for i in range(1023))
    s, o = iri("s:0", 255), iri("o:1", 255)
    yield "text loaded", [wide, nt(s, q, iri("n:0", 254)) + nt(s, q, b'"A"' + STRING) + nt(iri("n:1", 252), q, o)], b"totals\nnames <n:\n"
    yield "text", [wide], b"".join([
        b"totals\nassert ", nt(iri("n:0", 127), q, iri("n:1", 128)), b"totals\nassert ", nt(s, q, b'"A"' + STRING),
        b"totals\nassert ", nt(s, q, iri("n:2", 252)), b"assert ", nt(s, q, iri("n:2", 251)), b"totals\nassert ",
        nt(s, q, b"<n>"), b"assert ", nt(s, q, o), b"totals\n"])
    lines = [nt(iri(f"s:{i}", 255), q, iri(f"o:{j}", 255)) for i in range(74) for j in range(74)][:5447]
    short = nt(b"<s:0>", b"<p:x>", iri("o:", 114 - 15)), nt(b"<s:0>", b"<p:x>", iri("o:", 115 - 15))
    yield "file", [b"".join(lines) + short[0]], b"save\nretract " + short[0] + b"assert " + short[1] + b"save\ntotals\n"
    yield "reclaims", [nt(b"<a>", b"<b>", b"<c>")], b"retract <a> <b> <c> .\n" + b"reclaim\n" * 65536 + b"totals\n"


# What a script comes to, with every answer on standard output or not.
def full_case(number, files, script):
    every = number % 2 == 1
    run = reference.Shell(programs.Told(), every)
    named = {b"%d.nt" % n: text for n, text in enumerate(files)}
    for name, text in named.items():
        run.loading.file(name, text)
    run.script(script)
    return named, [b"--all"] * every + list(named), script, run.told


# Writes the files of a case into a folder and runs the shell there: what it wrote on each stream, and its status.
def answers(binary, folder, files, args, script):
    for name, data in [*files.items(), (b"stdin", script)]:
        with open(os.path.join(folder, os.fsdecode(name)), "wb") as f:
            f.write(data)
    with open(os.path.join(folder, "stdin"), "rb") as f:
        got = subprocess.run([binary, *args], cwd=folder, stdin=f, capture_output=True, timeout=300)
    return {"stdout": got.stdout, "stderr": got.stderr, "status": b"%d" % got.returncode}


# Whether the shell writes what is expected; otherwise the files are kept.
def same(binary, label, files, args, script, told):
    folder = tempfile.mkdtemp(prefix="shell-")
    expected = {"stdout": told.text(OUT), "stderr": told.text(ERR)}
    expected["status"] = b"%d" % told.status
    got = answers(binary, folder, files, args, script)
    other = [stream for stream in expected if got[stream] != expected[stream]]
    if not other:
        shutil.rmtree(folder)
        return True
    for stream in expected:
        for name, data in ((stream, got[stream]), ("expected-" + stream, expected[stream])):
            with open(os.path.join(folder, name), "wb") as f:
                f.write(data)
    ours, theirs = expected[other[0]].split(b"\n"), got[other[0]].split(b"\n")
    at = next((n for n, (a, b) in enumerate(zip(ours, theirs)) if a != b), min(len(ours), len(theirs)))
    print(f"{label}: {other[0]} differs at line {at + 1}; files in {folder}\narguments {args}")
    print(f"expected {ours[at : at + 3]}\ngot      {theirs[at : at + 3]}")
    return False


def main():
    binary, what = os.path.abspath(sys.argv[1]), sys.argv[2]
    if what == "full":
        all_cases = ((label, *full_case(n, files, script)) for n, (label, files, script) in enumerate(full_cases()))
    else:
        all_cases = ((f"{what}/{n}", *random_case(random.Random(f"{what}/{n}"))) for n in range(int(sys.argv[3])))
    number = 0
    for number, case in enumerate(all_cases, 1):
        if not same(binary, *case):
            sys.exit(1)
    print(f"{number} scripts, the same")


if __name__ == "__main__":
    main()
