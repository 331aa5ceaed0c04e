#!/usr/bin/env python3
"""Holds the file that the program `export` writes to two readers that others wrote, serdi (serd) and rapper (raptor).

    python3 crates/export/roundtrip.py [PROGRAM]    # at the root; Debian packages serdi, raptor2-utils

PROGRAM is target/programs/lemontiller-export, made by `kit/build programs`, or an installed one.

Every positive test of the W3C suite and every sample is exported. Each reader then reads the original and the export: the triples must be
the same but for those of refused lines, which are taken out of the original. rapper 2.0.15 takes the dot that ends a line into a label
before it (`_:anon.`), where the standard has it end the line, and reads nothing of a file that begins with the comment of
`samples/whole-station.nt`: it gets the original with a blank put between, and without lines that are comments. The export must be sorted
and, exported again, the same bytes. No part of the gate; `docs/W3C.md` has what it printed.
"""
import glob
import os
import re
import subprocess
import sys
import tempfile

STRING = "^^<http://www.w3.org/2001/XMLSchema#string>"
LABEL_AND_DOT = re.compile(rb"^([^#\"]*_:[A-Za-z0-9_.-]*)\.(?=[ \t]*(#.*)?\r?$)")
READERS = {
    "serdi": ["serdi", "-q", "-i", "ntriples", "-o", "ntriples"],
    "rapper": ["rapper", "-q", "-i", "ntriples", "-o", "ntriples"],
}


def run(command):
    return subprocess.run(command, capture_output=True)


def triples(reader, path):
    """What a reader makes of a file, as a set of lines. RDF 1.1 takes a string with and without its datatype as one literal."""
    done = run(READERS[reader] + [path])
    if done.returncode:
        sys.exit(f"{reader} {path}: {done.stderr.decode()}")
    return {line.replace(STRING, "") for line in done.stdout.decode().splitlines()}


def export(path):
    """The exported file, and the numbers of the refused lines."""
    done = run([(sys.argv[1:] or ["target/programs/lemontiller-export"])[0], path])
    if b" lines refused\n" in done.stderr or b"no file written" in done.stderr:
        sys.exit(f"{path}: not every refused line is told")
    return done.stdout, [int(n) for n in re.findall(rf"^{re.escape(path)}:(\d+):\d+: ", done.stderr.decode(), re.M)]


def positive():
    """The files of the suite's positive tests."""
    manifest = open("crates/w3c_cases/data/manifest.ttl").read()
    tests = re.findall(r"rdft:TestNTriplesPositiveSyntax\s*;.*?mf:action\s+<([^>]+)>", manifest, re.S)
    return ["crates/w3c_cases/data/" + t for t in tests]


def for_rapper(line):
    """A line of the original as rapper reads it."""
    return b"" if line.startswith(b"#") else LABEL_AND_DOT.sub(rb"\1 .", line)


def hold(path, folder):
    """One file: its exported statements and refused lines. Ends the run where something differs."""
    out, refused = export(path)
    lines = [b"" if n in refused else line for n, line in enumerate(open(path, "rb").read().split(b"\n"), 1)]
    kept, exported = os.path.join(folder, "kept.nt"), os.path.join(folder, "exported.nt")
    with open(exported, "wb") as f:
        f.write(out)
    sorted_lines = out.splitlines(keepends=True)
    if sorted_lines != sorted(set(sorted_lines)) or export(exported) != (out, []):
        sys.exit(f"{path}: not sorted, or not the same again")
    for reader in READERS:
        with open(kept, "wb") as f:
            f.write(b"\n".join(for_rapper(line) if reader == "rapper" else line for line in lines))
        if triples(reader, kept) != triples(reader, exported):
            sys.exit(f"{path}: {reader} reads other triples")
    return len(sorted_lines), len(refused)


def main():
    tests, samples = positive(), sorted(glob.glob("samples/*.nt"))
    with tempfile.TemporaryDirectory() as folder:
        results = {path: hold(path, folder) for path in tests + samples}
    whole = [results[t] for t in tests if not results[t][1]]
    part = [results[t] for t in tests if results[t][1]]
    print(f"W3C, positive: {len(whole)} files whole, {sum(n for n, _ in whole)} statements; "
          f"{len(part)} with refused lines, {sum(n for n, _ in part)} statements, {sum(r for _, r in part)} lines refused")
    for s in samples:
        print(f"{s}: {results[s][0]} statements, {results[s][1]} lines refused")


main()
