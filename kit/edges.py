#!/usr/bin/env python3
"""Holds the installed programs to docs/PROGRAMS.md and docs/SHELL.md at their edges:

    python3 kit/edges.py BINDIR [GROUP…]    # runs BINDIR/lemontiller-load, lemontiller-export and lemontiller-shell
    python3 kit/edges.py --list             # how many command lines each group has

Standard output, standard error and the status of each command line of `kit/edge_cases.py` are compared with what is expected there. A line
is printed for each difference and for what is skipped, at last how many command lines passed and failed; the status is 1 if one failed.
All that is written is below a temporary folder."""
import os
import pty
import random
import re
import resource
import shutil
import signal
import subprocess
import sys
import tempfile

sys.path.insert(0, os.path.dirname(os.path.abspath(__file__)))
sys.dont_write_bytecode = True
from edge_cases import BY_HAND, CLOSED, GONE, GROUPS, REFERENCES, as_nobody, contents, programs, put, random_scripts

SECONDS = 10  # for each command line


# A descriptor for a stream that is elsewhere.
def opened(n, where):
    if isinstance(where, int):
        return where
    if where == GONE:
        gone, end = os.pipe()
        os.close(gone)
        return end
    return os.open(where, os.O_RDONLY if n == 0 else os.O_WRONLY | os.O_CREAT | os.O_TRUNC, 0o644)


# What the child does before the program begins, if anything.
def in_child(case):
    closed = [n for n, where in case.on.items() if where == CLOSED]

    def set_up():
        if case.limit is not None:
            resource.setrlimit(resource.RLIMIT_FSIZE, (case.limit, case.limit))
        for n in closed:
            os.close(n)

    return set_up if closed or case.limit is not None else None


# What a process wrote, and its status; `typed` is what it is given.
def finish(process, typed):
    try:
        out, err = process.communicate(typed, timeout=SECONDS)
        return out or b"", err or b"", process.returncode
    except subprocess.TimeoutExpired:
        os.killpg(process.pid, signal.SIGKILL)
        out, err = process.communicate()
        return out or b"", err or b"", f"none after {SECONDS} seconds"


# Standard output, standard error and status of a case.
def execute(case, bindir):
    argv = ["bash", *case.args] if case.program == "bash" else [os.path.join(bindir, "lemontiller-" + case.program), *case.args]
    if case.terminal:
        return at_terminal(case, argv)
    handles = {n: opened(n, where) for n, where in case.on.items() if where != CLOSED}
    streams = [handles.get(n, subprocess.DEVNULL if n in case.on else subprocess.PIPE) for n in range(3)]
    if case.nobody:
        argv[0] = shutil.copy(argv[0], ".")
    with as_nobody(case.nobody):
        process = subprocess.Popen(argv, stdin=streams[0], stdout=streams[1], stderr=streams[2], env={**os.environ, **case.env},
                                   preexec_fn=in_child(case), restore_signals=not case.ignore, start_new_session=True)
    for handle in handles.values():
        os.close(handle)
    out, err, status = finish(process, None if 0 in case.on else case.stdin)
    kept = case.on.get(1)
    return contents(kept) if isinstance(kept, str) and os.path.isfile(kept) else out, err, status


# The same with a terminal on standard input, where the case's input is typed, and then its end.
def at_terminal(case, argv):
    master, slave = pty.openpty()
    process = subprocess.Popen(argv, stdin=slave, stdout=subprocess.PIPE, stderr=subprocess.PIPE, start_new_session=True)
    os.close(slave)
    os.write(master, case.stdin + b"\x04")
    try:
        return finish(process, None)
    finally:
        os.close(master)


# The part of a text about the first byte in which it differs from another.
def about(text, other):
    if not (isinstance(text, bytes) and isinstance(other, bytes)):
        return repr(text)[:120]
    at = next((n for n, (a, b) in enumerate(zip(text, other)) if a != b), min(len(text), len(other)))
    return f"{len(text)} bytes, at {at}: {text[max(0, at - 30) : at + 60]!r}"


# Runs a case; whether everything is as expected. A line is printed for each difference.
def passes(case, bindir):
    expected, got, same = case.expected(), execute(case, bindir), True
    for stream, ours, theirs in zip(("stdout", "stderr", "status"), expected, got):
        if not (ours.holds(theirs) if hasattr(ours, "holds") else ours == theirs):
            print(f"{case.label()}: {stream}: expected {about(ours, theirs)}, got {about(theirs, ours)}")
            same = False
    return same


# The reasons that were worked out by hand, beside the reference. How many are others.
def check_reasons():
    wrong = 0
    for line, column, words in BY_HAND:
        told = programs.Told()
        programs.Loading(told, programs.Lists(*programs.SMALL)).file(b"f", line)
        if told.text(programs.ERR) != b"f:1:%d: %s\n" % (column, words):
            print(f"reference: {line[:40]!r}: expected {column} {words!r}, got {told.text(programs.ERR)!r}")
            wrong += 1
    return wrong


# The three references beside each other, on random files. How often they do not agree.
def check_references():
    r, wrong = random.Random(2), 0
    for n in range(40):
        name = put("self.nt", random_scripts.file(r))
        runs = [programs.run(program, [name], programs.given(b"save\n" * (what == "shell"))) for what, program in REFERENCES.items()]
        (lines, why, status), (file, lacking, _), (saved, as_why, _) = [(told.text(1), told.text(2), told.status) for told in runs]
        refused = len(re.findall(rb"^\d+ refused 10$", lines, re.M))
        lacks = b"lines missing from the file: %d\n" % refused if refused else b""
        if file != saved or lacking != why + lacks or as_why != lacking or {told.status for told in runs} != {1 if refused else 0}:
            print(f"reference: the programs do not agree on random file {n}")
            wrong += 1
    return wrong


# Runs the cases of the groups named, or of all; how many passed and failed.
def hold(bindir, chosen):
    passed, failed = 0, check_reasons() + check_references()
    for group in GROUPS:
        if not chosen or group.__name__ in chosen:
            for case in group():
                same = passes(case, bindir)
                passed, failed = passed + same, failed + (not same)
    print(f"{passed} passed, {failed} failed")
    return 1 if failed else 0


# How many command lines each group has.
def count():
    for group in GROUPS:
        print(f"{group.__name__} {sum(1 for _ in group())}")
    return 0


def main(bindir, *chosen):
    where = os.path.abspath(bindir)
    if bindir != "--list" and not all(os.path.isfile(os.path.join(where, "lemontiller-" + program)) for program in REFERENCES):
        return f"the programs are not in {where}"
    os.environ["PATH"] = where + os.pathsep + os.environ["PATH"]
    here = os.getcwd()
    with tempfile.TemporaryDirectory(prefix="edges-") as folder:
        os.chdir(os.path.realpath(folder))
        os.chmod(".", 0o755)
        try:
            return count() if bindir == "--list" else hold(where, chosen)
        finally:
            os.chdir(here)


if __name__ == "__main__":
    sys.exit(main(*sys.argv[1:]) if sys.argv[1:] else __doc__)
