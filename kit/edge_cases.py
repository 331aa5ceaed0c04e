"""The command lines that `kit/edges.py` runs, by groups, and what is expected of each.

What the references say (`kit/programs.py`, `crates/shell/reference.py`) is expected where nothing else stands here. Each group is a
function that writes its files into the current folder and gives its cases in turn. Where a write fails the documents do not say how much
was written before: there a beginning of what would have been written is expected (`Cut`)."""
import contextlib
import dataclasses
import itertools
import os
import pty
import random
import re
import shlex
import shutil
import subprocess
import sys
import tty

KIT = os.path.dirname(os.path.abspath(__file__))
ROOT = os.path.dirname(KIT)
sys.path[:0] = [KIT, os.path.join(ROOT, "crates", "shell")]
sys.dont_write_bytecode = True
import programs
import random_scripts
import reference
from programs import ERR, MARK, OUT
from random_scripts import STRING, iri, nt

REFERENCES = {"load": programs.load, "export": programs.export, "shell": reference.shell}
CLOSED, GONE = "closed", "gone"  # a stream that is closed; a pipe that nobody reads
NOBODY = 65534
FAULT = b"Input/output error"
SHOW = b"totals\nsave\n"  # what the shell is asked of its files
RECIPE = re.compile(r"<!-- recipe -->\n\n```bash\n(.*?)```\n\n```\n(.*?)```\n\n<!-- end of the recipe -->", re.S)

# Refused lines, with the column and the reason worked out by hand from the tables of the documents.
BY_HAND = [
    (b'<r:21> <p:trips> "A"', 21, b"expected a dot"),
    (b"x", 1, b"expected a subject"),
    (b'"a" <b> <c> .', 1, b"expected a subject"),
    (b" . ", 2, b"expected a subject"),
    (b"<a>", 4, b"expected a predicate"),
    (b"<a> # c", 5, b"expected a predicate"),
    (b"<a> _:b <c> .", 5, b"expected a predicate"),
    (b"_:a:b <c> <d> .", 4, b"expected a predicate"),
    (b"<a> <b>", 8, b"expected an object"),
    (b"<a> <b> .", 9, b"expected an object"),
    (b"<a> <b> <c>", 12, b"expected a dot"),
    (b"<a> <b> _:c:d .", 12, b"expected a dot"),
    (b'<a> <b> "c" @en .', 13, b"expected a dot"),
    (b'<a> <b> "c"@en1 .', 15, b"expected a dot"),
    (b"<a> <b> _:c.d", 14, b"expected a dot"),
    (b"<a> <b> <c> . <d>", 15, b"expected the line's end"),
    (b"<a> <b> _:c. .", 14, b"expected the line's end"),
    (b"<a> <b> _:c.<", 13, b"expected the line's end"),
    (b"<a", 3, b"the line ends in an IRI"),
    (b"<a> <b> _:c..", 14, b"the line ends in a label"),
    (b"_:a.", 5, b"the line ends in a label"),
    (b"_", 2, b"the line ends in a label"),
    (b'<a> <b> "c', 11, b"the line ends in a literal"),
    (b'<a> <b> "c\\', 12, b"the line ends in a literal"),
    (b'<a> <b> "c"@', 13, b"the line ends in a literal"),
    (b'<a> <b> "c"^^<t', 16, b"the line ends in a literal"),
    (b'<a> <b> "c\\t" .', 12, b"no such escape"),
    (b'<a> <b> "c\\u00e9" .', 12, b"no such escape"),
    (b"<> <b> <c> .", 2, b"byte 62 may not stand in an IRI"),
    (b"<a b> <c> <d> .", 3, b"byte 32 may not stand in an IRI"),
    (b"<a}> <b> <c> .", 3, b"byte 125 may not stand in an IRI"),
    (b"<a\\u00e9> <b> <c> .", 3, b"byte 92 may not stand in an IRI"),
    (b"_a <b> <c> .", 2, b"byte 97 may not stand in a label"),
    (b"_:-a <b> <c> .", 3, b"byte 45 may not stand in a label"),
    (b"_:a. <b> <c> .", 5, b"byte 32 may not stand in a label"),
    (b"<a> <b> _:c.. ", 14, b"byte 32 may not stand in a label"),
    (b'<a> <b> "c"@ .', 13, b"byte 32 may not stand in a literal"),
    (b'<a> <b> "c"@en-.', 16, b"byte 46 may not stand in a literal"),
    (b'<a> <b> "c"^<t> .', 13, b"byte 60 may not stand in a literal"),
    (b'<a> <b> "c"^^_:t .', 14, b"byte 95 may not stand in a literal"),
    (b'<a> <b> "c"^^<t}> .', 16, b"byte 125 may not stand in a literal"),
    (b'<a> <b> "\xc3\xbc" .', 10, b"byte 195 is not ASCII"),
    (b"# \xc3\xbc", 3, b"byte 195 is not ASCII"),
    (b"\xef\xbb", 1, b"byte 239 is not ASCII"),
    (b" \xef\xbb\xbf<a> <b> <c> .", 2, b"byte 239 is not ASCII"),
    (b"\xef\xbb\xbf<a> <b> <c> .", 1, b"a byte order mark"),
    (b'<a> <b> "c\td" .', 11, b"byte 9 may not stand here"),
    (b"<a>\t<b\t> <c> .", 7, b"byte 9 may not stand here"),
    (b"<a>\0<b> <c> .", 4, b"byte 0 may not stand here"),
    (b"<a> <b> <c> .\r", 14, b"byte 13 may not stand here"),
    (b"# \x7f", 3, b"byte 127 may not stand here"),
    (b"<a> <b> <c> . # \x01", 17, b"byte 1 may not stand here"),
    (b"<" + b"a" * 254, 256, b"the line ends in an IRI"),
    (b"<" + b"a" * 255 + b"> <b> <c> .", 256, b"over 255 bytes"),
    (b"<" + b"a" * 254 + b" <b> <c> .", 256, b"over 255 bytes"),
    (b"<" + b"a" * 254 + b"\xff> <b> <c> .", 256, b"byte 255 is not ASCII"),
    (b"_:" + b"a" * 253 + b". <b> <c> .", 256, b"over 255 bytes"),
    (b"<a> <b> _:" + b"a" * 253 + b"b", 264, b"over 255 bytes"),
    (b"<a> <b> _:" + b"a" * 252 + b".b", 264, b"over 255 bytes"),
    (b"<a> <b> _:" + b"a" * 252 + b"..", 264, b"over 255 bytes"),
    (b"<a> <b> _:" + b"a" * 252 + b". b", 265, b"expected the line's end"),
    (b"<a> <b> _:" + b"a" * 253 + b".b", 265, b"expected the line's end"),
    (b"<a> <b> _:" + b"a" * 253 + b"..", 265, b"expected the line's end"),
    (b'<a> <b> "' + b"a" * 253 + b'"@en .', 264, b"over 255 bytes"),
    (b'<a> <b> "' + b"a" * 253 + b'"x', 264, b"expected a dot"),
    (b'<a> <b> "' + b"a" * 254 + b'" .', 264, b"over 255 bytes"),
    (b'<a> <b> "' + b"a" * 253 + b"\\t", 264, b"over 255 bytes"),
    (b'<a> <b> "' + b"a" * 249 + b'"@en1 .', 263, b"expected a dot"),
    (b'<a> <b> "' + b"a" * 250 + b'"@en1 .', 264, b"expected a dot"),
    (b'<a> <b> "' + b"a" * 251 + b'"@en1 .', 264, b"over 255 bytes"),
    (b'<a> <b> "' + b"a" * 251 + b'"@e1 .', 264, b"expected a dot"),
    (b'<a> <b> "' + b"a" * 252 + b'"@e .', 264, b"over 255 bytes"),
    (b'<a> <b> "' + b"a" * 252 + b'"@ .', 264, b"over 255 bytes"),
    (b'<a> <b> "' + b"a" * 248 + b'"@en-1', 264, b"expected a dot"),
    (b'<a> <b> "' + b"a" * 248 + b'"@en-12 .', 264, b"over 255 bytes"),
    (b'<a> <b> "' + b"a" * 249 + b'"@en-1 .', 264, b"over 255 bytes"),
    (b'<a> <b> "' + b"a" * 250 + b'"@en-1 .', 264, b"over 255 bytes"),
    (b'<a> <b> "' + b"a" * 248 + b'"@en- .', 263, b"byte 32 may not stand in a literal"),
    (b'<a> <b> "' + b"a" * 249 + b'"@en- .', 264, b"over 255 bytes"),
    (b'<a> <b> "' + b"a" * 249 + b'"@en-', 264, b"the line ends in a literal"),
    (b'<a> <b> "' + b"a" * 250 + b'"@en- .', 264, b"over 255 bytes"),
    (b"#" + b"x" * 1024, 1025, b"over 1024 bytes"),
    (b" " * 1025, 1025, b"over 1024 bytes"),
    (b"\xef\xbb\xbf" + b"x" * 1022, 1025, b"over 1024 bytes"),
]

# What stands before and after each of the 256 bytes in turn.
PLACES = [
    (b"", b" <b> <c> ."), (b"<", b"a> <b> <c> ."), (b"<a", b"> <b> <c> ."), (b"<a>", b"<b> <c> ."), (b"<a> <b", b"> <c> ."),
    (b"_", b"a <b> <c> ."), (b"_:", b"a <b> <c> ."), (b"_:a", b" <b> <c> ."), (b"_:a.", b" <b> <c> ."), (b"<a> <b> ", b" ."),
    (b"<a> <b> _:c", b"."), (b"<a> <b> _:c.", b""), (b'<a> <b> "c', b'" .'), (b'<a> <b> "c\\', b'" .'), (b'<a> <b> "c"', b" ."),
    (b'<a> <b> "c"@', b" ."), (b'<a> <b> "c"@e', b" ."), (b'<a> <b> "c"@e-', b" ."), (b'<a> <b> "c"^', b"<t> ."),
    (b'<a> <b> "c"^^', b"t> ."), (b'<a> <b> "c"^^<t', b"> ."), (b"<a> <b> <c>", b" ."), (b"<a> <b> <c> .", b""),
    (b"<a> <b> <c> .", b" # x"), (b"# ", b""), (b"<a> <b> <c> . # ", b"x"),
]

# Commands of the shell on the bay file of its dialogue; `^^S` is the string ending.
COMMANDS = [line.replace(b"^^S", STRING) for line in rb"""<r:21> <p:trips> ?b
?c <p:of> ?r . ?r <p:in> ?bay
?b <p:trips> <b:4> . ?b <p:of> ?b
<r:21> <p:trips> <b:4>
<r:50> <p:trips> <b:7>
<r:21> <p:trips> <b:9>
<b:9> <b:9> ?x . ?x ?x <b:10>
?c <p:state> "none"^^S
?a ?b ?c
<r:21> <p:t ?b
?r <p:in>
list <r:21> ? ?
list ? ? ?
list <b:9> ? <b:9>
list <bay:1> <p:trips> ?
list ? ? "none"^^S
list ? ?
names
names <r:
names <x:
counts <r:21>
counts <b:9>
counts "none"^^S
counts
counts <r:21> .
totals
totals .
check
check x
reclaim
reclaim .
save
save file.nt
help
help me
quit
quit .
what
Totals
# comment

assert <b:9> <p:in> <bay:1> .
assert <b:9> <p:on> <bay:9> .
assert <b:9> <p:on> "new" .
assert <b:9> <b:9> <b:9> .
assert <r:21> <p:in> <bay:1> .
assert <r:21> <p:note> "new"^^S .
assert <r:21> <p:in> <bay:2>
assert
assert # x
assert "A" <p:in> <bay:1> .
retract <r:21> <p:in> <bay:1> .
retract <r:21> <p:in> <bay:2> .
retract <b:9> <p:on> <b:9> .
retract <r:21> <p:in> "new"^^S .
retract <r:21> <p:in>""".split(b"\n")] + [
    b" \t", b"\t<r:21>\t<p:in>\tbay:1", b"?r <p:in> \xc3\xbc", b"<r:21> <p:in> \0", b" . ".join([b"?a <p:in> ?b"] * 6),
    b" . ".join([b"?a <p:in> ?b"] * 7), b" . ".join(b"?a%d ?b%d ?c%d" % (n, n, n) for n in range(6)), b"names " + b"x" * 255,
    b"names " + b"x" * 256, b"x" * 1024, b"x" * 1025, b" " * 1025,
    b"retract <r:21> <p:in> <bay:1> .\nassert <r:21> <p:in> <bay:1> .\nretract <r:21> <p:in> <bay:1> .\nreclaim\ntotals",
]

# Scripts whole: how they end, and what is no text.
SCRIPTS = [
    b"totals", b"totals\r", b"totals\r\n", b"totals\r\r\n", b"\n\n", b"quit", b"quit\ntotals\n", b" quit \nwhat\n", b"quit now\ntotals\n",
    b"\0\n", b"totals\0\n", b"\xef\xbb\xbftotals\n", b"totals\n" * 3000, b"#" * 1024 + b"\ntotals", b"#" * 1025 + b"\ntotals",
    b"totals" + b" " * 1018 + b"\r\n", b"totals" + b" " * 1019 + b"\r\n", b"x" * 100000 + b"\ntotals\n", b"assert <a> <b> <c> .\nsave",
]

# Texts of files: endings, marks, bytes beyond ASCII, escapes, what other languages have.
LINE = b"<a> <b> <c> ."
TEXTS = [
    b"", b"\n", b"\n\n", b"\r\n", b"\r", b"\r\r\n", b" ", b"\t\n", LINE, LINE + b"\n", LINE + b"\r\n", LINE + b"\r", LINE + b"\r\r\n",
    LINE + b"\r" + LINE, LINE + b"\n\r", LINE + b"\r" + LINE + b"\n", LINE + b"\n" + LINE, LINE + b"\0\n", b"\0", LINE + b"\n\0\n",
    MARK, MARK + b"\n", MARK + LINE + b"\n", MARK + b"# x\n", b"# x\n" + MARK + LINE, MARK[:2] + LINE, b" " + MARK + LINE,
    b"\xfe\xff<\0a\0>\0",
    b'<a> <b> "\xc3\xbc" .\n# \xc3\xbc\n<\xc3\xbc> <b> <c> .\n_:\xc3\xbc <b> <c> .\n',
    b'<a> <b> "x\ty" .\n<a>\t<b>\t"x"\t.\t#\tx\n',
    b'<a> <b> "\\t" .\n<a> <b> "\\u00e9" .\n<a> <b> "\\U000000e9" .\n<a> <b> "\\n\\r\\"\\\\" .\n',
    b"#", b"#\n" + LINE, b'_:a<b>"c"@en.#x\n', LINE + LINE + b"\n", b"<a> <b> <c> , <d> .\n", b"@prefix a: <b> .\n", b"<a> a <c> .\n",
    b"_:a:b <b> <c> .\n<a> <b> _:a:b .\n", b'<a> <b> "x"' + STRING + b' .\n<a> <b> "x" .\n<a> <b> "x"@en .\n',
]

# What is given beside a file with one statement.
ARGUMENTS = [
    "", "--help", "--version", "bay.nt --help", "none.nt --version", "--help --bogus", "--bogus --help", "--version --bogus",
    "--bogus --version", "--version --help", "--help --version", "-h", "--", "-- --help", "-- -", "-", "- -", "- bay.nt", "bay.nt -",
    "-- bay.nt", "-- -- bay.nt", "--partial bay.nt", "--all bay.nt", "bay.nt --partial", "bay.nt --all", "--al", "---", "--help=1",
    "-x bay.nt", "--HELP", "-- --all --partial", "--partial --all", "--all --partial", "--all -", "- --all", "--partial -",
    "--partial --partial bay.nt", "--all --all bay.nt", "bay.nt", "bay.nt bay.nt", "--all --help", "--partial --version", "-- --version",
]

# How a name begins and ends.
KINDS = [(b"<", b">"), (b"_:", b""), (b"_:", b".y")] + [(b'"', b'"' + last) for last in (b"", b"@en", b"@en-1", b"^^<t>", STRING)]

# Fails reads of one file: BROKEN_FILE, of which BROKEN_KEEP bytes are read first, in pieces of at most BROKEN_STEP bytes; with BROKEN_ONCE
# set, one read fails, and those after it do not.
READ = r"""
#define _GNU_SOURCE
#include <errno.h>
#include <limits.h>
#include <stdio.h>
#include <stdlib.h>
#include <string.h>
#include <sys/syscall.h>
#include <unistd.h>
static long word(const char *name) { const char *text = getenv(name); return text ? atol(text) : LONG_MAX; }
ssize_t read(int fd, void *to, size_t most) {
    static long kept = 0, failed = 0;
    char link[64], path[PATH_MAX];
    const char *file = getenv("BROKEN_FILE");
    snprintf(link, sizeof link, "/proc/self/fd/%d", fd);
    ssize_t size = readlink(link, path, sizeof path - 1);
    if (!file || size < 0 || (path[size] = 0, strcmp(path, file))) return syscall(SYS_read, fd, to, most);
    if (kept == word("BROKEN_KEEP") && !failed) { failed = getenv("BROKEN_ONCE") != NULL; errno = EIO; return -1; }
    if (most > (size_t)word("BROKEN_STEP")) most = word("BROKEN_STEP");
    if (!failed && most > (size_t)(word("BROKEN_KEEP") - kept)) most = word("BROKEN_KEEP") - kept;
    ssize_t got = syscall(SYS_read, fd, to, most);
    if (got > 0) kept += got;
    return got;
}
"""


class Cut:
    """A beginning of what would be written, with at least `least` of it, and then a last line; `proper`: not all of it."""

    def __init__(self, full, last=b"", least=b"", proper=False):
        self.full, self.last, self.least, self.proper = full, last, least, proper

    def holds(self, got):
        begun = got.removesuffix(self.last)
        right = got.endswith(self.last) and self.full.startswith(begun) and begun.startswith(self.least)
        return right and not (self.proper and self.full and begun == self.full)

    def __repr__(self):
        return f"a beginning of {self.full[:40]!r}, then {self.last!r}"


class Anything:
    """Whatever is written."""

    def holds(self, got):
        return True


# Where this is root and `wanted` is true: another user as long as it lasts, for whom a file's mode counts.
@contextlib.contextmanager
def as_nobody(wanted=True):
    other = wanted and os.geteuid() == 0
    if other:
        os.seteuid(NOBODY)
    try:
        yield
    finally:
        if other:
            os.seteuid(0)


@dataclasses.dataclass
class Case:
    """A command line. What is not expected here is what the reference says."""

    program: str
    args: list = dataclasses.field(default_factory=list)
    stdin: bytes = b""
    out: object = None
    err: object = None
    status: int = None
    on: dict = dataclasses.field(default_factory=dict)  # streams that are elsewhere: a path, a descriptor, CLOSED or GONE
    limit: int = None  # on the size of a file that is written
    ignore: bool = False  # the signal of a pipe that nobody reads
    terminal: bool = False  # on standard input
    env: dict = dataclasses.field(default_factory=dict)
    nobody: bool = False  # run without root's right to read everything
    told: object = None  # what the reference says, if it was asked already
    name: str = ""  # of what is no command line of a program, or cannot be told as it is

    # What the reference says where nothing fails.
    def reference(self):
        if self.told is None:
            program = reference.at_terminal if self.terminal else REFERENCES[self.program]
            with as_nobody(self.nobody):
                self.told = programs.run(program, self.args, programs.given(self.stdin))
        return self.told

    # The same case with other expectations or elsewhere.
    def but(self, **how):
        return dataclasses.replace(self, **how)

    # Standard output, standard error, status.
    def expected(self):
        ours = [self.out, self.err, self.status]
        if None not in ours:
            return ours
        told = self.reference()
        theirs = told.text(OUT), told.text(ERR), told.status
        return [b if a is None else a for a, b in zip(ours, theirs)]

    # The case in one line.
    def label(self):
        if self.name:
            return self.name
        words = " ".join(shlex.quote(os.fsdecode(a)) for a in self.args)
        where = "".join(f" {'<' if n == 0 else f'{n}>'}{path}" for n, path in self.on.items())
        how = " limit %s" % self.limit * (self.limit is not None) + " SIGPIPE ignored" * self.ignore + " terminal" * self.terminal
        env = "".join(f" {key[7:].lower()} {value[-20:]}" for key, value in self.env.items() if key.startswith("BROKEN"))
        typed = f" <<< {self.stdin[:40]!r}" if self.stdin and 0 not in self.on else ""
        return f"{self.program} {words[:100]!r}{where}{how}{env}{typed}"


# ---- files


# Writes a file; its name.
def put(name, text):
    with open(name, "wb") as f:
        f.write(text)
    return os.fsencode(name)


# What a file holds.
def contents(name):
    with open(name, "rb") as f:
        return f.read()


# A file of the repository.
def ours(*path):
    return os.fsencode(os.path.join(ROOT, *path))


# Tells what is left out.
def skipped(what, why):
    print(f"skipped: {what}: {why}")


# One case for each program. If no standard input is given, the shell is asked what it has of its files.
def each(*args, stdin=b"", **how):
    for program in REFERENCES:
        yield Case(program, list(args), stdin or (SHOW if program == "shell" else b""), **how)


# Three small files: one without faults, one with a refused line, one without statements.
def three():
    clean, part = b"<a> <b> <c> .\n<a> <b> <d> .\n", b"<a> <b> <c> .\n<a>\n<a> <b> <d> .\n"
    return put("clean.nt", clean), put("part.nt", part), put("empty.nt", b"# x\n")


# ---- answers written out, arguments, files


# Answers worked out by hand.
def written_out():
    bay = ours("samples", "bay.nt")
    five = bay + b":5:21: expected a dot\n"
    yield Case("load", [bay], b"", b"1 new 1\n2 new 2\n4 already 1\n5 refused 10\nresources 4 statements 2\n", five, 1)
    yield Case("export", [bay], b"", b"<r:21> <p:trips> <b:4> .\n<r:21> <p:trips> <b:7> .\n", five + b"lines missing from the file: 1\n", 1)
    none = b"none.nt: No such file or directory\n"
    yield Case("export", [bay, b"none.nt"], b"", b"", five + none + b"no file written, not everything could be read\n", 2)
    question = b"<r:21> <p:trips> ?b\n"
    yield Case("shell", [bay], question, b"<b:7>\n<b:4>\n", five + b"?b\nsolutions 2 visits 2\n", 1)
    yield Case("shell", [bay, b"--all"], question, b"?b\n<b:7>\n<b:4>\nsolutions 2 visits 2\n", five, 1)
    good = put("good.nt", b"<a> <b> <c> .\n")
    yield Case("load", [good], b"", b"1 new 1\nresources 3 statements 1\n", b"", 0)
    yield Case("load", [good, good], b"", b"1 new 1\n2 already 1\nresources 3 statements 1\n", b"", 0)
    yield Case("load", [], b"<a> <b> <c>", b"1 refused 10\nresources 0 statements 0\n", b"standard input:1:12: expected a dot\n", 1)
    yield Case("load", [], b"", b"resources 0 statements 0\n", b"", 0)
    yield Case("export", [good], b"", b"<a> <b> <c> .\n", b"", 0)
    yield Case("export", [], b"", b"", b"", 0)
    yield Case("shell", [], b"", b"", b"", 0)
    yield Case("shell", [good], b"assert <a> <b> <d> .\nsave\n", b"<a> <b> <c> .\n<a> <b> <d> .\n", b"entered <d>\nnew 2\n", 0)
    yield Case("shell", [good], b"retract <a> <b> <d> .\n", b"", b"unknown <d>\nabsent\n", 1)
    totals = b"resources 3 room 8189\nstatements 1 room 16383\nlive 1\nbytes 12 room 524276\nreclaims 0 room 65535\n"
    yield Case("shell", [good], b"totals\n", totals + b"missing 0\nunread 0\n", b"", 0)
    yield from lacking_by_hand(bay, good, totals, five, none)
    yield Case("shell", [good], b"<a> x\n", b"", b"refused 10 at column 5: cannot be read\n<a> x\n    ^\n", 1)
    yield from each(b"--version", out=b"lemontiller 0.2.0\n", err=b"", status=0)
    yield from each(b"--al", out=b"", err=b"unknown option --al\n--help tells what there is\n", status=2)


# What is told of a file that lacks something: of the bay's, whose fifth line is refused, and of one without faults.
def lacking_by_hand(bay, good, totals, five, none):
    file, one = b"<r:21> <p:trips> <b:4> .\n<r:21> <p:trips> <b:7> .\n", b"<a> <b> <c> .\n"
    lines, unread = b"lines missing from the file: 1\n", b"not everything could be read"
    for option in [], [b"--all"]:
        yield Case("shell", [*option, bay], b"save\n", file, five + lines, 1)
        yield Case("shell", [*option, bay, b"none.nt"], b"save\n", file, five + none + unread + b", " + lines, 2)
        both = one + totals + b"missing 0\nunread 1\n"
        yield Case("shell", [*option, b"none.nt", good], b"save\ntotals\n", both, none + unread + b"\n", 2)
        yield Case("shell", [*option, good], b"save\n", one, b"", 0)
    greeting = b"resources 4 statements 2\nmissing 1\nunread 2\nhelp lists the commands\n> "
    yield Case("shell", [bay, b"none.nt", b"none.nt"], b"", greeting + b"\n", five + none + none, 2, terminal=True)
    told = five + none + none + unread + b", " + lines
    yield Case("shell", [bay, b"none.nt", b"none.nt"], b"save\n", greeting + file + b"> \n", told, 2, terminal=True)
    yield Case("export", [b"--partial", good, b"none.nt"], b"", one, none + unread + b"\n", 2)
    yield Case("export", [b"--partial", b"none.nt"], b"", b"", none + unread + b"\n", 2)
    yield Case("export", [b"--partial", bay, b"none.nt"], b"", file, five + none + unread + b", " + lines, 2)


# Options, dashes, standard input.
def arguments():
    put("bay.nt", b"<r:21> <p:trips> <b:4> .\n")
    text = b"<r:21> <p:trips> <b:7> .\n<r:21>\n"
    for words in ARGUMENTS:
        yield from each(*[w.encode() for w in words.split()], stdin=text)
    for size in 4095, 4096, 4097, 5000:
        yield from each(b"--" + b"x" * (size - 2), stdin=text)
        yield from each(b"--" + b"x" * (size - 2), b"--help", stdin=text)
    yield from each(b"--\xfc\n", stdin=text)


# Names of files, and files that cannot be read, alone and between others.
def files():
    good, other = put("good.nt", b"<a> <b> <c> .\n"), put("other.nt", b"<a> <b> <d> .\n<a>\n")
    os.makedirs("folder", exist_ok=True)
    for name in "bay1.nt", "bay12.nt":
        put(name, b"<a> <b> <e> .\n<e>\n")
    for name in (b"", b"none.nt", b"folder", b"folder/", b"good.nt/x", b"none/x.nt", b"/proc/self/mem", b"/dev/null", b"x" * 255,
                 b"x" * 256, b"y" * 4095, b"z" * 4096, b"z" * 4097, b"w" * 5000, b"./" * 2044 + b"bay1.nt", b"./" * 2044 + b"bay12.nt"):
        yield from each(name)
        yield from each(good, name, other)
        yield Case("export", [b"--partial", good, name, other])
    for name in (b"a b.nt", b"a\nb.nt", b"-dash.nt", b"--help", b"-", b"--", b"\xfc.nt", b"a:b.nt", b"%d%s.nt", b" "):
        put(os.fsdecode(name), b"<a> <b> <c> .\n<a> <b> <c>\n")
        yield from each(b"--", name)
    yield from each(b"./-dash.nt")
    yield from each(good, other, good, other)
    yield from names_no_text(good, other)
    yield from mode_without_reading(good)


# Files whose names are not UTF-8, there or not: they are not opened, but as standard input they can be read. Two that are, for comparison.
def names_no_text(good, other):
    for name in b"\xfc.nt", b"a\xc3", b"\xc0\xaf.nt", b"\xed\xa0\x80.nt", b"\xf4\x90\x80\x80.nt", b"\xc3\xbc.nt", b"\xf0\x9f\x8d\x8b.nt":
        put(os.fsdecode(name), b"<a> <b> <c> .\n<a> <b> <c>\n")
        yield from each(good, name, other)
        yield Case("export", [b"--partial", good, name, other])
    for name in b"none\xfc.nt", b"x" * 300 + b"\xff", b"\xfc" * 4096, b"good.nt/\xfc":
        yield from each(good, name, other)
    words = b"\xfc.nt: Invalid or incomplete multibyte or wide character\n"
    yield Case("load", [b"\xfc.nt"], b"", b"resources 0 statements 0\n", words, 2)
    yield Case("export", [b"\xfc.nt", good], b"", b"", words + b"no file written, not everything could be read\n", 2)
    told, on = programs.run(programs.load, [b"-"], programs.given(contents(os.fsdecode(b"\xfc.nt")))), {0: os.fsdecode(b"\xfc.nt")}
    for args in [], [b"-"]:
        yield Case("load", args, told=told, on=on, name="load: a standard input whose name is not UTF-8")


# A file that may not be read.
def mode_without_reading(good):
    os.chmod(put("closed.nt", b"<a> <b> <c> .\n"), 0)
    yield from each(good, b"closed.nt", nobody=True)
    yield Case("export", [b"--partial", good, b"closed.nt"], nobody=True)


# ---- lines


# All 256 bytes at each place of a line, sixteen lines a file.
def every_byte():
    for n, (before, after) in enumerate(PLACES):
        named = []
        for first in range(0, 256, 16):
            lines = [before + bytes([b]) + after + b"\n" for b in range(first, first + 16)]
            named.append(put(f"byte{n}-{first}.nt", b"".join(lines)))
        yield from each(*named)


# Lines that are refused for each reason, with both endings, and short texts.
def lines():
    broken = [line for line, _, _ in BY_HAND]
    for ending in b"\n", b"\r\n":
        parts = [broken[n : n + 20] for n in range(0, len(broken), 20)]
        yield from each(*[put(f"hand{n}.nt", b"".join(line + ending for line in part)) for n, part in enumerate(parts)])
    for n, text in enumerate(TEXTS):
        yield from each(put(f"text{n}.nt", text))


# Lines about 1,024 bytes with every ending, some that are much longer, and lines across the blocks that are read.
def lengths():
    begun = [(LINE + b" #", b"x"), (LINE, b" "), (b"#", b"x"), (b"", b" "), (b"", b"\t"), (b"x", b"x"), (b"<a> <b> <c>", b" ")]
    for e, ending in enumerate((b"\n", b"\r\n", b"", b"\r", b"\r\r\n")):
        named = []
        for (n, (first, fill)), size in itertools.product(enumerate(begun), range(1022, 1028)):
            named.append(put(f"size{e}-{n}-{size}.nt", first + fill * (size - len(first)) + ending))
        yield from each(*named)
    for size in 4096, 65536, 65537, 200000:
        yield from each(put(f"long{size}.nt", LINE + b"\n#" + b"x" * size + b"\n<a> <b> <d> .\n" + b"x" * size))
    yield from each(put("deep.nt", b"# x\n" * 70000 + LINE + b"\nx\n"))
    for shift in range(0, 1030, 103):
        lines = [b"<a> <b> <%s%d> .\r\n" % (b"x" * 230, n) for n in range(60)]
        yield from each(put(f"blocks{shift}.nt", b"#" * shift + b"\n" + b"".join(lines) + b"x\r\n"))


# Names about 255 bytes of each kind, and dots about byte 255 of an object's label.
def names():
    for first, last in KINDS:
        sized = [first + b"x" * (size - len(first) - len(last)) + last for size in range(253, 259)]
        forms = [b"%s <b> <c> .\n", b"<a> %s <c> .\n", b"<a> <b> %s .\n", b"<a> <b> %s.\n", b"<a> <b> %s\n"]
        yield from each(*[put(f"name{n}.nt", b"".join(form % name for name in sized)) for n, form in enumerate(forms)])
    tails = [b".", b"..", b". ", b".b", b" .", b"...", b". #", b".#", b".<", b". .", b". b", b"", b".b.", b".-", b"-."]
    for size in range(251, 259):
        yield from each(put(f"dots{size}.nt", b"".join(b"<a> <b> _:" + b"x" * (size - 2) + tail + b"\n" for tail in tails)))


# Tags about byte 255 of a literal: complete or not, and what stands after them.
def tags():
    tails = [b" .", b".", b"", b"1 .", b"-1 .", b"- .", b"x .", b"@e .", b'" .', b"\t.", b"\xff .", b"\x01", b" x", b"^^<t> .", b"\\"]
    for tag in (b"@en1", b"@en-1", b"@en-", b"@e", b"@en", b"@", b"@e1", b"@en-1-", b"@en--", b"@en-12", b"@1", b"^", b"^^", b"^^<",
                b"^^<t"):
        named, asked = [], []
        for size in range(251, 260):
            literal = b'"' + b"a" * (size - len(tag) - 2) + b'"' + tag
            name = f"tag-{re.sub(b'[^0-9a-z-]', b'x', tag).decode()}-{size}.nt"
            named.append(put(name, b"".join(b"<a> <b> " + literal + tail + b"\n" for tail in tails)))
            asked += [b"counts " + literal + b"\n", b"?a <b> " + literal + b" .\n", b"assert <a> <b> " + literal + b" .\n"]
        yield from each(*named)
        yield Case("shell", [b"--all", named[0]], b"".join(asked))


# Files with so many refused lines, each after a good one.
def refused_lines():
    named = []
    for number in (0, 1, 19, 20, 21, 2500):
        text = b"".join(b"<a> <b> <c%d> .\n<a> <b> <c%d>\n" % (n % 40, n) for n in range(number))
        named.append(put(f"refused{number}.nt", text))
        yield from each(named[-1])
    yield from each(*named)
    yield from each(*reversed(named))
    yield from each(named[4], named[4])
    yield from each(b"-", named[4], stdin=contents(named[4]))
    yield Case("export", [b"--partial", *named])
    yield Case("export", [b"--partial", named[5], b"none.nt"])
    yield Case("shell", [b"--all", *named], SHOW)


# Random bytes, as files and as commands; random lines, right and wrong.
def garbage():
    r = random.Random(1)
    for n in range(8):
        alphabet = [bytes(range(256)), bytes(range(32, 127)) + b"\n\r\t", b"<>_:\"@^\\.# \n\tab1-"][n % 3]
        text = bytes(r.choices(alphabet, k=r.choice([100, 3000, 20000])))
        yield from each(put(f"garbage{n}.nt", text))
        yield Case("shell", [b"--all"] * (n % 2) + [b"garbage0.nt"], text)
    for n in range(8):
        yield from each(*[put(f"random{n}-{k}.nt", random_scripts.file(r)) for k in range(3)])


# The suite of the W3C.
def w3c():
    folder = os.path.join(ROOT, "crates", "w3c_cases", "data")
    tests = [ours(folder, name) for name in sorted(os.listdir(folder)) if name.endswith(".nt")]
    for test in tests:
        yield Case("load", [test])
        yield Case("export", [test])
    yield from each(*tests)


# The samples, a label in two files, the scripts of the shell.
def samples():
    yield from each(put("label1.nt", b"_:ct <p:in> <bay:1> .\n"), put("label2.nt", b"_:ct <p:feeds> <r:21> .\n_:ct <p:in> <bay:1>.\n"))
    named = [ours("samples", name) for name in ("bay.nt", "substation.nt", "station.nt", "whole-station.nt")]
    for name in named:
        yield from each(name)
    yield from each(*named)
    for option in [], [b"--all"]:
        for script in "edges.txt", "stdin":
            yield Case("shell", [*option, ours("crates", "shell", "data", "bay.nt")], contents(ours("crates", "shell", script)))
        yield Case("shell", [*option, named[3]], contents(ours("samples", "questions.txt")))


# ---- full tables


# Texts that fill a table with so many rows of statements, pairs of names and pairs of long names: exactly, but for the last two.
def fillings(rows, pairs, wide):
    p, q = iri("p:x"), iri("p:", 255)
    couples = [nt(iri(f"s:{i}"), p, iri(f"o:{i}")) for i in range(pairs)]
    long_ones = b"".join(nt(iri(f"s:{i}", 255), q, iri(f"o:{i}", 255)) for i in range(wide))
    return {
        "statements": b"".join(nt(iri(f"s:{i}"), p, iri(f"o:{j}")) for i in range(rows) for j in range(rows)),
        "resources": b"".join(couples) + nt(iri("x"), p, iri("x")),
        "text": long_ones + nt(iri("s:0", 255), q, iri("z:", 255)),
        "one-name-left": b"".join(couples),
        "256-bytes-left": long_ones,
    }


# Lines that come after: in the store or not, with names that are new, three times as many as are told, refused for another reason.
TAILS = {
    "none": b"", "known": b"<s:1> <p:x> <o:1> .\n", "other": b"<s:1> <p:x> <s:2> .\n", "new": b"<n:1> <p:x> <n:2> .\n", "broken": b"<a>\n",
    "three": b"<n:1> <n:2> <n:3> .\n<n:2> <n:1> <n:1> .\n", "word": b'<s:1> <p:x> "A"' + STRING + b" .\n",
    "wide": nt(iri("n:1", 127), iri("n:2", 127), iri("n:3", 127)) + nt(iri("n:2", 127), iri("n:1", 127), iri("n:1", 127)),
    "many": b"".join(b"<n:%d> <p:x> <m:%d> .\n" % (n, n) for n in range(60)) + b"<s:1> <p:x> <o:1> .\n<s:1>\n",
}


# The tables of `lemontiller-load`, then those of the others.
def full():
    for (what, text), (tail, more) in itertools.product(fillings(32, 255, 31).items(), TAILS.items()):
        yield Case("load", [put(f"small-{what}.nt", text), put(f"tail-{tail}.nt", more)])
    for what, text in fillings(128, 4095, 1023).items():
        name = put(f"large-{what}.nt", text)
        for tail in (b"none", b"new", b"wide", b"many", b"broken"):
            yield Case("export", [name, b"tail-%s.nt" % tail])
            yield Case("export", [name, b"tail-%s.nt" % tail, b"--partial"])
        yield Case("export", [name, b"tail-many.nt", b"none.nt"])
        yield Case("export", [name, b"tail-many.nt", b"none.nt", b"--partial"])
        script = b"totals\nassert <n:1> <p:x> <n:99> .\nassert <s:1> <p:x> <o:1> .\nretract <s:1> <p:x> <o:1> .\ncheck\ntotals\n"
        yield Case("shell", [name, b"tail-many.nt"], script)
    yield from long_files()


# Files of 4,194,303 bytes to 4,194,305.
def long_files():
    lines = [nt(iri(f"s:{i}", 255), iri("p:", 255), iri(f"o:{j}", 255)) for i in range(74) for j in range(74)][:5447]
    for size in 113, 114, 115:
        name = put(f"file{size}.nt", b"".join(lines) + nt(b"<s:0>", b"<p:x>", iri("o:", size - 15)))
        yield Case("export", [name])
        yield Case("export", [b"--partial", name])
        yield Case("shell", [name], b"save\ntotals\n")
        for others in [b"tail-broken.nt"], [b"none.nt"], [b"tail-broken.nt", b"none.nt"]:
            yield Case("export", [name, *others])
            yield Case("export", [b"--partial", name, *others])
        yield Case("shell", [b"--all", name, b"tail-broken.nt"], b"save\ntotals\n")
    for others in [b"none.nt"], [b"none.nt", b"tail-broken.nt"]:
        yield Case("shell", [*others, name], b"save\ntotals\nretract <s:0> <p:x> " + iri("o:", 100) + b" .\nsave\n")


# ---- the shell


# Each command, what it tells and with which status: rows apart from the rest, and together.
def commands():
    bay, (clean, part, _) = ours("crates", "shell", "data", "bay.nt"), three()
    for line, option in itertools.product(COMMANDS, ([], [b"--all"])):
        yield Case("shell", [*option, bay], line + b"\n")
    scripts = b"", b"totals\n", b"<a> <b> ?c\n", b"<a> <z> ?c\n"
    for args, script in itertools.product(([part], [b"none.nt"], [part, b"none.nt"], [b"none.nt", part, clean]), scripts):
        yield Case("shell", args, script)
        yield Case("shell", [*args, b"--all"], script)
    for script in SCRIPTS:
        yield Case("shell", [], script)
        yield Case("shell", [b"--all", bay], script)


# What `totals`, `save` and the greeting tell of refused lines and files that could not be read.
def lacking():
    clean, part, empty = three()
    os.makedirs("folder", exist_ok=True)
    many = put("many.nt", b"<a> <b> <c> .\n" + b"<a>\n" * 25)
    scripts = (SHOW, b"save\nsave\n", b"retract <a> <b> <c> .\nsave\nreclaim\ntotals\nsave\n",
               b"what\nsave\nassert <a> <b> <e> .\nsave\nquit\n")
    for args in ([clean], [empty], [part], [many], [b"none.nt"], [b"folder"], [b"/proc/self/mem"], [part, part], [part, b"none.nt"],
                 [b"none.nt", part, b"none.nt", many], [clean, b"z" * 4097], [b"z" * 4097, part, b"z" * 4097], [empty, b"none.nt"]):
        for script in scripts:
            yield Case("shell", args, script)
            yield Case("shell", [b"--all", *args], script)
            yield Case("shell", args, script, terminal=True)
        yield Case("shell", args, terminal=True)
        yield Case("export", [b"--partial", *args])
        yield Case("export", args)
    yield Case("shell", [b"-", part], b"<a> <b> <c> .\n<a>\n")


# With a terminal on standard input.
def terminal():
    part = three()[1]
    scripts = b"", b"totals\n", b"<a> <b> ?c\n", b"<a> <z> ?c\nquit\n", b"what\n\n# x\nquit\n", b"retract <a> <b> <c> .\ncheck\nsave\n"
    for typed, args in itertools.product(scripts, ([], [part], [b"--all", part], [b"none.nt"])):
        yield Case("shell", args, typed, terminal=True)
    yield Case("shell", [b"--help"], terminal=True)


# ---- what the system does


# Command lines that write to standard output.
def writers():
    clean, part, _ = three()
    yield from each(b"--help")
    yield from each(b"--version")
    for name in clean, part:
        yield from each(name)
        yield Case("export", [b"--partial", name, b"none.nt"])
    for option in [], [b"--all"]:
        yield Case("shell", [*option, part, b"none.nt"], b"save\n")
    for line in (b"<a> <b> ?c", b"<a> <b> <c>", b"list ? ? ?", b"names", b"counts <a>", b"totals", b"check", b"save", b"help"):
        yield Case("shell", [clean], line + b"\n")
        yield Case("shell", [b"--all", clean], line + b"\n")
    for line in (b"<z> <b> ?c", b"list <z> ? ?", b"names <z", b"counts <z>", b"assert <a> <b> <e> .", b"retract <a> <b> <c> .",
                 b"retract <a> <b> <z> .", b"reclaim", b"what", b"names " + b"x" * 256):
        yield Case("shell", [b"--all", clean], line + b"\n")


# Command lines that write nothing there.
def silent():
    _, part, empty = three()
    yield Case("export", [empty])
    yield Case("export", [part, b"none.nt"])
    yield from each(b"--bogus")
    for line in (b"", b"quit", b"# x", b"<z> <b> ?c", b"list <z> ? ?", b"names <z", b"counts <z>", b"assert <a> <b> <e> .",
                 b"retract <a> <b> <c> .", b"reclaim", b"what"):
        yield Case("shell", [part], line + b"\n")
    yield Case("shell", [b"--all", part], b"# x\nquit\n")


# Command lines that tell something on standard error, and afterwards write to standard output.
def tellers():
    clean, part, _ = three()
    yield from each(part)
    yield from each(b"none.nt", part)
    yield from each(b"--", b"z" * 4097, part)
    yield Case("export", [b"--partial", b"none.nt", part])
    for script in (b"<a> <b> ?c\ntotals\n", b"what\ntotals\n", b"assert <a> <b> <e> .\nsave\n", b"names\ntotals\n", b"reclaim\ncheck\n"):
        yield Case("shell", [clean], script)
    yield Case("shell", [b"--all", part], b"totals\n")


# What was told on standard error before anything was written to standard output.
def told_first(told):
    return b"".join(data for _, data in itertools.takewhile(lambda one: one[0] == ERR, told.written))


# With standard output elsewhere: each writer fails with the system's words, the others do not.
def failed_output(where, words, **how):
    line = b"standard output: " + words + b"\n"
    for case in writers():
        told = case.reference()
        yield case.but(out=b"", err=Cut(told.text(ERR), line, told_first(told)), status=2, on={1: where}, **how)
    for case in silent():
        yield case.but(on={1: where}, **how)


# With standard error elsewhere: what is told there fails and ends the program; where nothing is told, nothing fails.
def failed_error(where, **how):
    on = {2: where}
    for case in tellers():
        written = case.reference().text(OUT)
        out = b"" if case.program == "export" else Cut(written, proper=True)
        yield case.but(out=out, err=b"", status=2, on=on, **how)
    yield from each(b"--bogus", out=b"", err=b"", status=2, on=on, **how)
    yield from each(b"--version", on=on, **how)
    yield from each(b"clean.nt", on=on, **how)
    yield Case("shell", [b"--all", b"clean.nt"], b"<z> <b> ?c\nwhat\n", on=on, **how)


# With both elsewhere.
def failed_both(where):
    for case in itertools.chain(writers(), tellers()):
        yield case.but(out=b"", err=b"", status=2, on={1: where, 2: where})


# A device without room.
def full_device():
    yield from failed_output("/dev/full", b"No space left on device")
    yield from failed_error("/dev/full")
    yield from failed_both("/dev/full")


# Streams that are closed, and standard inputs that cannot be read.
def closed():
    yield from failed_output(CLOSED, b"Bad file descriptor")
    yield from failed_error(CLOSED)
    yield from failed_both(CLOSED)
    os.makedirs("folder", exist_ok=True)
    for where, words in (CLOSED, b"Bad file descriptor"), ("folder", b"Is a directory"), ("/proc/self/mem", FAULT):
        yield from no_input({0: where}, b"standard input: " + words + b"\n")


# With a standard input that cannot be read.
def no_input(on, words):
    one = put("one.nt", LINE + b"\n")
    nothing, lacks = b"no file written, not everything could be read\n", b"not everything could be read\n"
    yield Case("load", [], out=b"resources 0 statements 0\n", err=words, status=2, on=on)
    for args in [one, b"-"], [b"-", one]:
        yield Case("load", args, out=b"1 new 1\nresources 3 statements 1\n", err=words, status=2, on=on)
        yield Case("export", args, out=b"", err=words + nothing, status=2, on=on)
        yield Case("export", [*args, b"--partial"], out=LINE + b"\n", err=words + lacks, status=2, on=on)
    yield Case("export", [], out=b"", err=words + nothing, status=2, on=on)
    yield Case("export", [b"--partial"], out=b"", err=words + lacks, status=2, on=on)
    for args in [], [one], [b"--all", one]:
        yield Case("shell", args, out=b"", err=words, status=2, on=on)
    yield Case("shell", [b"-", one], out=b"", err=words + words, status=2, on=on)
    yield Case("load", [one], on=on)
    yield Case("export", [one], on=on)
    yield from each(b"--version", on=on)


# Pipes that nobody reads: a write that failed, where the signal is ignored; otherwise the signal ends the program.
def pipes():
    yield from failed_output(GONE, b"Broken pipe", ignore=True)
    yield from failed_error(GONE, ignore=True)
    for case in writers():
        told = case.reference()
        yield case.but(out=b"", err=Cut(told.text(ERR), least=told_first(told)), status=-13, on={1: GONE})
    for case in tellers():
        yield case.but(out=Cut(case.reference().text(OUT), proper=True), err=b"", status=-13, on={2: GONE})


# A limit on a file's size: what fits is written.
def limits():
    station, substation = ours("samples", "whole-station.nt"), ours("samples", "substation.nt")
    for case in (Case("load", [substation]), Case("export", [station]), Case("load", [b"--help"]),
                 Case("shell", [substation], b"save\ntotals\n"), Case("shell", [b"--all", substation], b"list ? ? ?\nsave\n")):
        written = case.reference().text(OUT)
        for limit in sorted({0, 1, 100, 1000, 4095, 4096, 5000, 65537, len(written) - 1, len(written), len(written) + 1}):
            cut = {"err": b"standard output: File too large\n", "status": 2} if limit < len(written) else {}
            yield case.but(out=written[:limit], on={1: "out.txt"}, limit=limit, **cut)
    for case in each(put("first.nt", b"<a>\n<a> <b> <c> .\n")):
        yield case.but(out=Cut(case.reference().text(OUT), proper=True), err=b"", status=2, on={2: "err.txt"}, limit=0)
    refused, lacks = b"first.nt:1:4: expected a predicate\n", b"lines missing from the file: 1\n"
    for case in Case("export", [b"first.nt"]), Case("shell", [b"first.nt"], b"save\n"), Case("shell", [b"--all", b"first.nt"], b"save\n"):
        for limit in len(refused), len(refused) + 5, len(refused + lacks) - 1:
            yield case.but(out=b"", err=b"", status=2, on={2: "err.txt"}, limit=limit)
        yield case.but(out=LINE + b"\n", err=b"", status=1, on={2: "err.txt"}, limit=len(refused + lacks))


# ---- reads that fail


# Reads that fail after some bytes, and reads of few bytes at a time.
def failed_reads():
    library, text = reading_library(), b"<a> <b> <c> .\n<a> <b> _:b.4 .\r\n<d>\n<a> <b> <e> .\n<a> <b> <f> ."
    script = b"totals\nassert <a> <b> _:b.4 .\nwhat\nsave\nassert <a> <b> <c> .\nsave\nquit\ntotals\n"
    three()
    if library:
        yield from broken_off(library, text, script)
        yield from after_refused(library)
        yield from numbered(library)
        yield from small_reads(library, text, script)
    yield from hung_up(text)
    yield from hung_up(text + b"\n" + b"<a>\n" * 21 + b"<a> <b>")


# A read that fails after `_:b.` of `_:b.4`, others about the ends of lines.
def broken_off(library, text, script):
    for kept in (0, 1, 13, 14, 26, 27, 29, 30, 31, 33, 34, 35, 48, 49, 61, 62):
        for program, options in ("load", []), ("export", []), ("export", [b"--partial"]):
            yield broken_file(program, options, library, text, kept)
            yield broken_input(program, options, library, text, kept)
        yield broken_file("shell", [], library, text, kept)
        yield broken_file("shell", [b"--all"], library, text, kept)
    for kept in (0, 3, 6, 7, 22, 26, 27, 29, 30, 34, 35, 39, 40, 61, 65, 66, 68, 70, 71):
        yield broken_input("shell", [], library, script, kept)
        yield broken_input("shell", [b"--all", b"clean.nt"], library, script, kept)


# A read that fails after twenty refused lines and about as many, of a file and of standard input; one more after it does not.
def after_refused(library):
    text = LINE + b"\n" + b"<a>\n" * 30 + b"<a> <b> <d> .\n"
    for kept in (14, 14 + 4 * 19 + 3, 14 + 4 * 20, 14 + 4 * 20 + 3, 14 + 4 * 21, 14 + 4 * 21 + 2, 14 + 4 * 30, len(text) - 1, len(text)):
        for program, options in ("load", []), ("export", []), ("export", [b"--partial"]), ("shell", []), ("shell", [b"--all"]):
            for names in ([b"broken.nt"], [b"clean.nt", b"broken.nt"], [b"broken.nt", b"part.nt"], [b"broken.nt", b"none.nt"]):
                yield broken_file(program, options, library, text, kept, names)
            yield broken_input(program, [*options, b"-"], library, text, kept)
            yield broken_input(program, [*options, b"part.nt", b"-", b"part.nt"], library, text, kept)
        for option in [], [b"--all"]:
            yield broken_once([*option, b"-"], library, text[:kept], SHOW)
            yield broken_once([*option, b"part.nt", b"-", b"none.nt"], library, text[:kept], SHOW)
    told = b"".join(b"broken.nt:%d:4: expected a predicate\n" % n for n in range(2, 22))
    told += b"broken.nt: Input/output error\nbroken.nt: 21 lines refused\n"
    case = broken_file("export", [b"--partial"], library, text, 14 + 4 * 21 + 2, [b"broken.nt"])
    yield case.but(out=LINE + b"\n", err=told + b"not everything could be read, lines missing from the file: 21\n", status=2)
    case = broken_file("export", [], library, text, 14 + 4 * 21, [b"broken.nt"])
    yield case.but(out=b"", err=told + b"no file written, not everything could be read\n", status=2)


# A line that was broken off has no number, also where it is over 1,024 bytes: the next file's first line has it.
def numbered(library):
    text = LINE + b"\n# x\n<a>\n" + b"<a> <b> <d> . #" + b"x" * 6000 + b"\n" + LINE
    for kept in (0, 5, 14, 15, 18, 19, 21, 22, 23, 24, 35, 36, 1046, 1047, 1048, 1049, 4095, 4096, 4097, 5000, 6037, 6038, 6040, len(text)):
        for names in [b"broken.nt", b"clean.nt"], [b"part.nt", b"broken.nt", b"part.nt"]:
            yield broken_file("load", [], library, text, kept, names)
        yield broken_input("load", [b"-", b"clean.nt"], library, text, kept)
        yield broken_file("export", [b"--partial"], library, text, kept, [b"broken.nt", b"clean.nt"])
        yield broken_file("shell", [], library, text, kept, [b"broken.nt", b"part.nt"])
    case = broken_file("load", [], library, LINE + b"\n<a>", 17, [b"broken.nt", b"clean.nt"])
    lines = b"1 new 1\n2 already 1\n3 new 2\nresources 4 statements 2\n"
    yield case.but(out=lines, err=b"broken.nt: Input/output error\n", status=2)


# The object of `READ`, built; nothing, and a word why, if it cannot be.
def reading_library():
    compiler = shutil.which("cc") or shutil.which("gcc") or shutil.which("clang")
    if not compiler:
        return skipped("reads that fail", "there is no C compiler")
    program = contents(shutil.which("lemontiller-load") or sys.executable)[:4096]
    if program[:4] == b"\x7fELF" and b"/ld" not in program:
        return skipped("reads that fail", "the programs are linked statically")
    put("read.c", READ.encode())
    built = subprocess.run([compiler, "-shared", "-fPIC", "-O1", "-o", "read.so", "read.c"], capture_output=True)
    if built.returncode:
        return skipped("reads that fail", built.stderr.decode(errors="replace")[:200])
    return os.path.abspath("read.so")


# The variables that it goes by.
def hooked(library, path, kept, step=4096):
    return {"LD_PRELOAD": library, "BROKEN_FILE": os.path.abspath(path), "BROKEN_KEEP": str(kept), "BROKEN_STEP": str(step)}


# A file of which so many bytes can be read, among others.
def broken_file(program, options, library, text, kept, names=(b"clean.nt", b"broken.nt")):
    put("broken.nt", text)
    case = Case(program, [*options, *names], SHOW if program == "shell" else b"", env=hooked(library, "broken.nt", kept))
    whole, programs.contents = programs.contents, lambda name: (text[:kept], FAULT) if name == b"broken.nt" else whole(name)
    try:
        case.reference()
    finally:
        programs.contents = whole
    return case


# Standard input of which so many bytes can be read; what reads it again gets nothing more of it.
def broken_input(program, args, library, text, kept):
    put("stdin.txt", text)
    left = [text[:kept]]
    told = programs.run(REFERENCES[program], args, lambda: (left.pop() if left else b"", FAULT))
    return Case(program, args, told=told, on={0: "stdin.txt"}, env=hooked(library, "stdin.txt", kept))


# The shell with a standard input of which one read fails, as it is loaded as a file: what comes after that is the script.
def broken_once(args, library, text, script):
    put("once.txt", text + script)
    left = [(script, None), (text, FAULT)]
    told = programs.run(reference.shell, args, left.pop)
    return Case("shell", args, told=told, on={0: "once.txt"}, env={**hooked(library, "once.txt", len(text)), "BROKEN_ONCE": "1"})


# Files and standard input in small pieces give what they give at once.
def small_reads(library, text, script):
    put("pieces.nt", text * 40)
    for step in (1, 7, 1000):
        for case in each(b"pieces.nt"):
            yield case.but(env=hooked(library, "pieces.nt", -1, step))
        for program, given in ("load", text), ("export", text), ("shell", script):
            put("stdin.txt", given)
            told = Case(program, [], given).reference()
            yield Case(program, [], told=told, on={0: "stdin.txt"}, env=hooked(library, "stdin.txt", -1, step))


# The other end of a terminal as standard input, which cannot be read any more once the terminal is gone.
def hung_up(text):
    for program, options in ("load", []), ("export", []), ("export", [b"--partial"]):
        told = programs.run(REFERENCES[program], options, lambda: (text, FAULT))
        master, slave = pty.openpty()
        tty.setraw(slave)
        os.write(slave, text)
        os.close(slave)
        yield Case(program, options, told=told, on={0: master})


# ---- the README


# Its recipes as they stand, and with each of their names, or the file, misspelt.
def recipes():
    if not os.path.exists("samples"):
        os.symlink(os.path.join(ROOT, "samples"), "samples")
    shown = RECIPE.findall(contents(ours("README.md")).decode())
    assert len(shown) == 2
    for n, (script, written) in enumerate(shown, 1):
        yield recipe(f"recipe {n} of the README", script, written, 0)
        for name in sorted(set(re.findall(r"<[a-z]+:[^>]*>", script))):
            yield recipe(f"recipe {n} of the README with {name} misspelt", script.replace(name, name[:-1] + "x>"), "", 1)
        yield recipe(f"recipe {n} of the README with samples/ misspelt", script.replace("samples/", "sample/"), "", 2)


# A script, what it writes to standard output, and its status.
def recipe(name, script, written, status):
    return Case("bash", [b"-c", script.encode()], out=written.encode(), err=Anything(), status=status, name=name)


GROUPS = [written_out, arguments, files, every_byte, lines, lengths, names, tags, refused_lines, garbage, w3c, samples, full, commands,
          lacking, terminal, full_device, closed, pipes, limits, failed_reads, recipes]
