#!/usr/bin/env python3
"""What `lemontiller-load` and `lemontiller-export` write, and with which status they end:

    python3 kit/programs.py load [FILE…] < input
    python3 kit/programs.py export [--partial] [FILE…] < input

It follows docs/PROGRAMS.md with plain lists. What the three programs share stands here too: arguments, files and their lines, why a line is
refused, what is told of that. `crates/shell/reference.py` is the third of them, `kit/edges.py` holds the programs to all."""
import errno
import itertools
import os
import re
import runpy
import sys

LINE, NAME, ARGUMENT, TELL, FILE = 1024, 255, 4096, 20, 4194304
SMALL, LARGE = (512, 1024, 16384), (8192, 16384, 524288)  # resources, statements, bytes of text
OUT, ERR = 1, 2
VERSION = b"lemontiller 0.2.0"
OPTIONS = {"load": None, "export": b"--partial", "shell": b"--all"}
ROOT = os.path.join(os.path.dirname(os.path.abspath(__file__)), "..")
cases = runpy.run_path(os.path.join(ROOT, "crates", "cases", "reference.py"))
WELL_FORMED, shortened, Refused = cases["NAME"], cases["shortened"], cases["Refused"]

# What begins a name and could go on to be one; the first byte says whether it is an IRI, a label or a literal.
IRI = rb"<(?:[!#-;=?-\[\]_a-z~]+>?)?"
LABEL = rb"_(?::(?:[A-Za-z0-9_][A-Za-z0-9_.-]*)?)?"
TAG = rb"@(?:[A-Za-z]+(?:-[A-Za-z0-9]+)*-?)?"
LITERAL = rb"\"(?:[ !#-\[\]-~]|\\[\"\\nr])*(?:\\|\"(?:%s|\^(?:\^(?:%s)?)?)?)?" % (TAG, IRI)
BEGUN = re.compile(rb"%s|%s|%s" % (IRI, LABEL, LITERAL))
GAP, COMMENT = re.compile(rb"[ \t]*"), re.compile(rb"(?:#[\t -~]*)?")
MARK = b"\xef\xbb\xbf"

# What a line has in turn, and which bytes its names begin with.
SUBJECT, PREDICATE, OBJECT, DOT, END = range(5)
DUE = (b"a subject", b"a predicate", b"an object", b"a dot", b"the line's end")
FIRST = (b"<", b"_"), (b"<",), (b"<", b"_", b'"')
KIND = {b"<": b"an IRI", b"_": b"a label", b'"': b"a literal"}


class Broken(Refused):
    """A line that goes no further at a byte. `due` is what would come next. `start` is where the name begins that the byte stands in, if
    that name is not complete or the byte would go on in it."""

    def __init__(self, at, due, start=None):
        super().__init__(10, at)
        self.due, self.start = due, start


class Ended(Exception):
    """The program ends before anything is read."""


# The lines of a text. A CR is dropped before LF only. A last line that has no LF counts if the text is whole.
def lines_of(text, whole=True):
    *ended, last = text.split(b"\n")
    return [line.removesuffix(b"\r") for line in ended] + ([last] if last and whole else [])


# The byte at `at`; none at the line's end.
def byte(line, at):
    return line[at : at + 1]


# The first byte from `at` on that is not white.
def gap(line, at):
    return GAP.match(line, at).end()


# The name at `at`, where it ends. What is due says which bytes it may begin with.
def term(line, at, due=OBJECT):
    if byte(line, at) not in FIRST[due]:
        raise Broken(at, due)
    end = BEGUN.match(line, at).end()
    if end - at > NAME or not WELL_FORMED.fullmatch(line, at, end):
        raise Broken(min(end, at + NAME), due, at)
    return line[at:end], end


# An object, where it ends. A dot at the end of a label is the line's, if the label is one without it.
def object_term(line, at):
    if byte(line, at) == b"_":
        end = min(BEGUN.match(line, at).end() - 1, at + NAME)
        if byte(line, end) == b"." and WELL_FORMED.fullmatch(line, at, end):
            return line[at:end], end
    return term(line, at)


# The three names of a statement's line (paper 01, "Read a line"), from `at` on.
def statement(line, at):
    comment = COMMENT.match(line, gap(line, at)).end()
    if gap(line, at) < comment < len(line):
        raise Broken(comment, END)
    s, at = term(line, gap(line, at), SUBJECT)
    p, at = term(line, gap(line, at), PREDICATE)
    o, at = object_term(line, gap(line, at))
    at = gap(line, at)
    if byte(line, at) != b".":
        raise Broken(at, DOT)
    at = COMMENT.match(line, gap(line, at + 1)).end()
    if at < len(line):
        raise Broken(at, END)
    return s, p, o


# The column of a refused line, and the first reason of the table that holds there.
def reason(line, refusal):
    if refusal.args[0] == 3:
        return 1, b"no room for one more"
    if len(line) > LINE:
        return LINE + 1, b"over %d bytes" % LINE
    at = refusal.args[1]
    return at + 1, mark_or_byte(line, at) or in_name(line, at, refusal.start) or b"expected " + DUE[refusal.due]


# The reasons that hold wherever the byte stands.
def mark_or_byte(line, at):
    if at == 0 and line.startswith(MARK):
        return b"a byte order mark"
    if at < len(line) and line[at] >= 128:
        return b"byte %d is not ASCII" % line[at]
    if at < len(line) and (line[at] < 32 or line[at] == 127):
        return b"byte %d may not stand here" % line[at]


# The reasons of a byte in a name that begins at `start`.
def in_name(line, at, start):
    if start is None:
        return None
    kind = KIND[byte(line, start)]
    if at == len(line):
        return b"the line ends in " + kind
    if at - start == NAME:
        return b"over %d bytes" % NAME
    if kind == b"a literal" and line[at - 1 : at] == b"\\":
        return b"no such escape"
    return b"byte %d may not stand in %s" % (line[at], kind)


class Lists:
    """Names and statements, numbered from 1 as they come; a dictionary stands for each of the two lists."""

    def __init__(self, resources, statements, text):
        self.room, self.names, self.statements, self.bytes = (resources, statements, text), {}, {}, 0

    # The number of a name, which is entered if it is new.
    def enter(self, spelled):
        name = shortened(spelled)
        if name not in self.names:
            if len(self.names) == self.room[0] or self.bytes + len(name) + 1 > self.room[2]:
                raise Refused(3)
            self.names[name] = len(self.names) + 1
            self.bytes += len(name) + 1
        return self.names[name]

    # What became of a statement, and its number.
    def do_assert(self, *triple):
        if triple in self.statements:
            return "already", self.statements[triple]
        if len(self.statements) == self.room[1]:
            raise Refused(3)
        self.statements[triple] = len(self.statements) + 1
        return "new", len(self.statements)

    # The statements in canonical form, lines in rising byte order.
    def file(self):
        spelled = list(self.names)
        return b"".join(sorted(b"%s %s %s .\n" % tuple(spelled[y - 1] for y in triple) for triple in self.statements))


class Told:
    """What a program wrote, in turn and by stream, and its status so far."""

    def __init__(self):
        self.written, self.status = [], 0

    def write(self, stream, *lines):
        self.written += [(stream, line + b"\n") for line in lines]

    def at_least(self, status):
        self.status = max(self.status, status)

    def text(self, stream):
        return b"".join(data for where, data in self.written if where == stream)


# What became of a line: a word and a number, or nothing if it is blank or a comment.
def load_line(store, line):
    if len(line) > LINE:
        raise Refused(10)
    if COMMENT.fullmatch(line, gap(line, 0)):
        return None
    return store.do_assert(*[store.enter(n) for n in statement(line, 0)])[:2]


class Loading:
    """Files loaded into a store in turn, and what is told of them; with `each`, what became of each line is told too."""

    def __init__(self, told, store, each=False):
        self.told, self.store, self.each = told, store, each
        self.lines, self.refused, self.full, self.unread = 0, 0, False, 0

    # A file by its name and text; `fault` is why no more of it could be read.
    def file(self, name, text, fault=None):
        refused = 0
        for number, line in enumerate(lines_of(text, fault is None), 1):
            self.lines += 1
            try:
                became = load_line(self.store, line)
            except Refused as e:
                became = "refused", e.args[0]
                refused += 1
                self.full = self.full or e.args[0] == 3
                if refused <= TELL:
                    self.told.write(ERR, b"%s:%d:%d: %s" % (name, number, *reason(line, e)))
            if became and self.each:
                self.told.write(OUT, b"%d %s %d" % (self.lines, became[0].encode(), became[1]))
        self.end(name, refused, fault)

    # At the end of a file: what failed, and how many lines were refused, if not all were told.
    def end(self, name, refused, fault):
        self.refused += refused
        self.told.at_least(1 if refused else 0)
        if fault is not None:
            self.unread += 1
            self.told.write(ERR, b"%s: %s" % (name, fault))
            self.told.at_least(2)
        if refused > TELL:
            self.told.write(ERR, b"%s: %d lines refused" % (name, refused))

    # The files named; None is standard input.
    def files(self, names, standard_input):
        for name in names:
            if name is None:
                self.file(b"standard input", *standard_input())
            elif len(name) > ARGUMENT:
                self.file(b"argument", b"", os.strerror(errno.ENAMETOOLONG).encode())
            else:
                self.file(name, *contents(name))


# What can be read, and why no more of it, or None at the end.
def drained(descriptor):
    pieces = []
    try:
        while piece := os.read(descriptor, 65536):
            pieces.append(piece)
    except OSError as e:
        return b"".join(pieces), os.strerror(e.errno).encode()
    return b"".join(pieces), None


# The same of a file. A file whose name is not UTF-8 is not opened.
def contents(name):
    try:
        name.decode()
        descriptor = os.open(name, os.O_RDONLY)
    except UnicodeDecodeError:
        return b"", os.strerror(errno.EILSEQ).encode()
    except OSError as e:
        return b"", os.strerror(e.errno).encode()
    try:
        return drained(descriptor)
    finally:
        os.close(descriptor)


# A standard input with these bytes: what is read of it at first, and then.
def given(text):
    left = [text]
    return lambda: (left.pop() if left else b"", None)


# What --help writes, as the document has it.
def usage(program):
    with open(os.path.join(ROOT, "docs", "PROGRAMS.md"), "rb") as f:
        return re.search(rb"```\n(usage: lemontiller-%s .*?)\n```" % program.encode(), f.read(), re.S)[1]


# The files, None for standard input, and whether the program's own option is given.
def arguments(told, program, args):
    files, option, only_files = [], False, False
    for a in args:
        if only_files or len(a) > ARGUMENT or not a.startswith(b"-"):
            files.append(a)
        elif a == b"-":
            files.append(None)
        elif a == b"--":
            only_files = True
        elif a == OPTIONS[program]:
            option = True
        elif a in (b"--help", b"--version"):
            told.write(OUT, VERSION if a == b"--version" else usage(program))
            raise Ended
        else:
            told.write(ERR, b"unknown option " + a, b"--help tells what there is")
            told.at_least(2)
            raise Ended
    return files, option


def load(told, args, standard_input):
    files, _ = arguments(told, "load", args)
    store = Lists(*SMALL)
    Loading(told, store, True).files(files or [None], standard_input)
    told.write(OUT, b"resources %d statements %d" % (len(store.names), len(store.statements)))


def export(told, args, standard_input):
    files, partial = arguments(told, "export", args)
    store = Lists(*LARGE)
    loading = Loading(told, store)
    loading.files(files or [None], standard_input)
    file = store.file()
    told.write(ERR, *missing(loading, partial, len(file)))
    if partial or not (loading.unread or loading.full):
        if len(file) > FILE:
            told.at_least(1)
        else:
            told.written.append((OUT, file))


# The line that tells what the file lacks, or why none is written, if there is one.
def missing(loading, partial, size):
    if loading.unread and not partial:
        return [b"no file written, not everything could be read"]
    if loading.full and not partial:
        return [b"no file written, lines missing: %d" % loading.refused]
    if size > FILE:
        return [b"no file written, over %d bytes" % FILE]
    return lacks(loading.refused, loading.unread)


# The line that tells what a file lacks after so many refused lines and files that could not be read, if it lacks anything.
def lacks(refused, unread):
    words = [b"not everything could be read"] * (unread > 0) + [b"lines missing from the file: %d" % refused] * (refused > 0)
    return [b", ".join(words)] if words else []


# What a program writes with these arguments, and its status. `standard_input` gives what can be read of it, and why no more.
def run(program, args, standard_input):
    told = Told()
    try:
        program(told, args, standard_input)
    except Ended:
        pass
    return told


# Writes what a program told, stream by stream as it came; the status, 2 at the first write that fails.
def deliver(told):
    for stream, written in itertools.groupby(told.written, lambda one: one[0]):
        data = b"".join(piece for _, piece in written)
        try:
            while data:
                data = data[os.write(stream, data) :]
        except OSError as e:
            if stream == OUT:
                deliver_fault(e)
            return 2
    return told.status


# Tells that standard output could not be written.
def deliver_fault(e):
    try:
        os.write(ERR, b"standard output: %s\n" % os.strerror(e.errno).encode())
    except OSError:
        pass


if __name__ == "__main__":
    sys.exit(deliver(run({"load": load, "export": export}[sys.argv[1]], [os.fsencode(a) for a in sys.argv[2:]], lambda: drained(0))))
