#!/usr/bin/env python3
"""What the technician's shell writes: `python3 reference.py [--dialogue] [--all] [FILE…] < script`.

It follows docs/SHELL.md; arguments, files and their lines are those of `kit/programs.py`. The store is the one of
`crates/cases/reference.py`, plain lists from the papers; commands are read here. Standard output, standard error and the status are the
program's. `--dialogue`, with `--all` in it, writes each line of the script after the prompt, then its answer, as a terminal shows them."""
import bisect
import os
import re
import sys

HERE = os.path.dirname(os.path.abspath(__file__))
sys.path.insert(0, os.path.join(HERE, "..", "..", "kit"))
sys.dont_write_bytecode = True
import programs
from programs import ERR, FILE, LINE, NAME, OUT, Refused, byte, cases, gap, lines_of, shortened, statement, term

RESOURCES, STATEMENTS, TEXT = programs.LARGE
PATTERNS, VARIABLES, RECLAIMS, BUDGET = 6, 16, 65535, 4096
WORDS = {2: b"no name", 3: b"no room for one more", 8: b"no question", 10: b"cannot be read", 11: b"no room for the file",
         14: b"no more reclaims"}
HELP = os.path.join(HERE, "help.txt")
WORD, VARIABLE = re.compile(rb"[^ \t]*"), re.compile(rb"\?[A-Za-z0-9_]*")
PART = (b"<", b"_", b'"', b"?")
APART = 3  # of a line that goes to standard error always


# A refusal at the byte that `at` bytes stand before.
def unreadable(at, number=10):
    raise Refused(number, at)


# White or the line's end is at `at`.
def apart(line, at):
    if byte(line, at) not in (b"", b" ", b"\t"):
        unreadable(at)


# Only white is left.
def nothing_more(line, at):
    if gap(line, at) < len(line):
        unreadable(gap(line, at))


# The name at `at`, where the white after it begins.
def name(line, at):
    found, end = term(line, at)
    apart(line, end)
    return found, end


# The name or variable at `at`, where the white after it ends. In a list `?` stands alone.
def part(line, at, listing=False):
    if byte(line, at) != b"?":
        found, end = name(line, at)
        return found, gap(line, end)
    end = at + 1 if listing else VARIABLE.match(line, at).end()
    apart(line, end)
    if end == at + 1 and not listing:
        unreadable(end)
    return line[at:end], gap(line, end)


# Where the line goes on after a lone dot, if one is at `at`, and white.
def dot(line, at):
    if byte(line, at) != b".":
        return at
    apart(line, at + 1)
    return gap(line, at + 1)


# The parts of a question, and its variables in the order of their numbers.
def question(line):
    parts, variables, at = [], [], gap(line, 0)
    while True:
        if len(parts) == 3 * PATTERNS and byte(line, at) != b".":
            unreadable(at, 8)
        for _ in range(3):
            found, after = part(line, at)
            if found[:1] == b"?" and found not in variables:
                if len(variables) == VARIABLES:
                    unreadable(at, 8)
                variables.append(found)
            parts.append(found)
            at = after
        after = dot(line, at)
        if after == len(line):
            return parts, variables
        if after == at:
            unreadable(at)
        at = after


class Tables(cases["Store"]):
    """The store of this program. For speed dictionaries stand beside names and statements, a table has only the records in use, and a
    reclaim asserts the live statements again."""

    def __init__(self):
        super().__init__()
        self.whole, self.words, self.bytes = {"resource": RESOURCES, "statement": STATEMENTS}, RESOURCES, TEXT
        self.numbers, self.triples, self.missing, self.unread = {}, {}, 0, 0

    def search(self, spelled):
        return self.numbers.get(shortened(spelled), 0)

    # The record with a triple, and its flag.
    def locate(self, triple):
        n = self.triples.get(triple, 0)
        return n, self.statement(n)["flag"][0] if n else 0

    # Refusal 3, unless there is room for these names and their bytes.
    def test_room(self, names):
        if self.counters[0] + len(names) > RESOURCES or self.counters[2] + sum(len(n) + 1 for n in names) > TEXT:
            raise Refused(3)

    def enter(self, spelled):
        R, T, B, N = self.counters
        new = shortened(spelled)
        if new in self.numbers:
            return self.numbers[new]
        self.test_room([new])
        self.table["resource"].append(None)
        self.change("resource", R + 1, ["offset", str(B), "kind", str(cases["KINDS"][new[:1]])], True)
        self.text[B : B + len(new) + 1] = new + b"\0"
        self.counters = (R + 1, T, B + len(new) + 1, N)
        self.numbers[new] = R + 1
        bisect.insort(self.index, R + 1, key=self.spelling)
        return R + 1

    def do_assert(self, *triple):
        if len(self.table["statement"]) == self.counters[1]:
            self.table["statement"].append(None)
        told = super().do_assert(*triple)
        self.triples.setdefault(triple, told[1])
        return told

    # The live statements in their order, numbered from 1, in chains made anew; how many there were and are.
    def reclaim(self):
        R, T, B, N = self.counters
        if N == RECLAIMS:
            raise Refused(14)
        live = [r["triple"] for r in self.table["statement"][:T] if r["flag"] == [0]]
        self.table["statement"], self.triples = [], {}
        for y in range(1, R + 1):
            self.resource(y).update(first=[0] * 3, count=[0] * 3, live=[0] * 3)
        self.counters = (R, 0, B, N + 1)
        for triple in live:
            self.do_assert(*triple)
        return T, len(live)

    # The numbers of the live statements.
    def live(self):
        return [n for n in range(1, self.counters[1] + 1) if self.statement(n)["flag"] == [0]]

    # A statement as its line.
    def line(self, n):
        return b" ".join(self.spelling(y) for y in self.statement(n)["triple"]) + b" ."


# Lines of an answer, each with the stream that it goes to in a pipe, or in any case.
def rows(*lines):
    return [(OUT, line) for line in lines]


def notices(*lines):
    return [(ERR, line) for line in lines]


def always(*lines):
    return [(APART, line) for line in lines]


# The parts that are names that the store does not have.
def absent(store, parts):
    return [w for w in parts if w[:1] != b"?" and not store.search(w)]


# A line for each of them.
def unknown(store, parts):
    return notices(*[b"unknown " + w for w in absent(store, parts)])


# The commands: each gives the lines of its answer.
def ask(store, line):
    parts, variables = question(line)
    out, solutions, visits = notices(b"\t".join(variables)), 0, 0
    if absent(store, parts):
        return out + unknown(store, parts) + notices(b"solutions 0 visits 0")
    store.question = [cases["VARIABLE"] + variables.index(w) if w in variables else store.search(w) for w in parts]
    store.ask()
    while True:
        status, _, made, _, *solution = store.answer(BUDGET)[: 4 + VARIABLES]
        visits += made
        if status == "found":
            solutions += 1
            out += rows(b"\t".join(store.spelling(y) for y in solution[: len(variables)]))
        elif status == "ended":
            return out + notices(b"solutions %d visits %d" % (solutions, visits))


def list_statements(store, line, at):
    parts, out = [], []
    for _ in range(3):
        found, at = part(line, at, True)
        parts.append(found)
    nothing_more(line, dot(line, at))
    if absent(store, parts):
        return unknown(store, parts) + notices(b"statements 0")
    store.open(*[store.search(w) for w in parts])
    while True:
        status, n, *_ = store.next(BUDGET)
        if status == "found":
            out += rows(store.line(n))
        elif status == "ended":
            return out + notices(b"statements %d" % len(out))


def names(store, line, at):
    if len(line) - at > NAME:
        raise Refused(2)
    listed = sorted(n for n in store.numbers if n.startswith(line[at:]))
    return rows(*listed) + notices(b"names %d" % len(listed))


# Nothing is entered unless there is room for all of it. A statement with a name that the store does not have is not in the store.
def do_assert(store, line, at):
    parts = statement(line, at)
    new = list(dict.fromkeys(shortened(w) for w in absent(store, parts)))
    store.test_room(new)
    if new and store.counters[1] == STATEMENTS:
        raise Refused(3)
    told, n, *_ = store.do_assert(*[store.enter(w) for w in parts])
    return notices(*[b"entered " + w for w in new], b"%s %d" % (told.encode(), n))


def retract(store, line, at):
    parts = [shortened(w) for w in statement(line, at)]
    n = 0 if absent(store, parts) else store.retract(*[store.search(w) for w in parts])
    return notices(b"retracted %d" % n) if n else unknown(store, parts) + notices(b"absent")


def counts(store, line, at):
    found, end = name(line, at)
    nothing_more(line, end)
    if absent(store, [found]):
        return unknown(store, [found])
    record = store.resource(store.search(found))
    how = (b"live", record["live"]), (b"chain", record["count"])
    return rows(*[b"%s subject %d predicate %d object %d" % (word, *numbers) for word, numbers in how])


def totals(store):
    used = zip((b"resources", b"statements", b"bytes", b"reclaims"), store.counters, (RESOURCES, STATEMENTS, TEXT, RECLAIMS))
    resources, statements, *others = [b"%s %d room %d" % (what, n, most - n) for what, n, most in used]
    lacking = b"missing %d" % store.missing, b"unread %d" % store.unread
    return rows(resources, statements, b"live %d" % len(store.live()), *others, *lacking)


def save(store):
    lines = sorted(store.line(n) + b"\n" for n in store.live())
    if sum(len(line) for line in lines) > FILE:
        raise Refused(11)
    return always(*programs.lacks(store.missing, store.unread)) + rows(*[line[:-1] for line in lines])


WITH_REST = {b"list": list_statements, b"names": names, b"assert": do_assert, b"retract": retract, b"counts": counts}
ALONE = {b"totals": totals, b"save": save, b"help": lambda store: rows(*lines_of(read(HELP))), b"quit": lambda store: None,
         b"check": lambda store: rows(store.check().encode()),
         b"reclaim": lambda store: notices(b"statements before %d after %d" % store.reclaim())}


# What a file holds.
def read(path):
    with open(path, "rb") as f:
        return f.read()


# The lines of the answer to a line; None ends the shell.
def command(store, line):
    at = gap(line, 0)
    if byte(line, at) in (b"", b"#"):
        return []
    if byte(line, at) in PART:
        return ask(store, line)
    word = WORD.match(line, at)
    rest = gap(line, word.end())
    if word[0] in WITH_REST:
        return WITH_REST[word[0]](store, line, rest)
    if word[0] not in ALONE:
        unreadable(at)
    nothing_more(line, rest)
    return ALONE[word[0]](store)


# A refusal: with a column, the line and a caret under it follow.
def refused(line, number, at=None):
    if at is None:
        return notices(b"refused %d: %s" % (number, WORDS[number]))
    shown = bytes(b if b == 9 or 32 <= b <= 126 else ord("?") for b in line)
    under = bytes(9 if b == 9 else 32 for b in line[:at])
    return notices(b"refused %d at column %d: %s" % (number, at + 1, WORDS[number]), shown, under + b"^")


def answer(store, line):
    try:
        return command(store, line) if len(line) <= LINE else notices(b"refused 10: over %d bytes" % LINE)
    except Refused as e:
        return refused(line, *e.args)


# Whether an answer is a refusal, or says that something is not known, not there or not sound.
def bad(told):
    return any(line in (b"absent", b"unsound") or stream == ERR and line.startswith((b"unknown ", b"refused ")) for stream, line in told)


class Shell:
    """A run of the shell: its store, the files loaded, and what it told. `every` is --all, or a terminal on standard input."""

    def __init__(self, told, every=False, store=None):
        self.told, self.every, self.store = told, every, store or Tables()
        self.loading = programs.Loading(told, self.store)

    # What is told on a stream in a pipe, or on standard error always.
    def write(self, stream, *lines):
        self.told.write(ERR if stream == APART else OUT if self.every else stream, *lines)

    # Tells the answer to a line; whether the shell goes on.
    def line(self, line):
        self.store.missing, self.store.unread = self.loading.refused, self.loading.unread
        told = answer(self.store, line)
        for stream, text in told or []:
            self.write(stream, text)
        self.told.at_least(1 if bad(told or []) else 0)
        return told is not None

    # The lines of a script, each written after the prompt in a dialogue. `fault` is why no more of it could be read.
    def script(self, text, fault=None, dialogue=False):
        for line in lines_of(text, fault is None):
            self.write(OUT, *([b"> " + line] if dialogue else []))
            if not self.line(line):
                return
        if fault is not None:
            self.told.write(ERR, b"standard input: " + fault)
            self.told.at_least(2)

    # What a terminal is told at first, and the answers after its prompts.
    def terminal(self, text):
        R, T, *_ = self.store.counters
        lacking = (b"missing", self.loading.refused), (b"unread", self.loading.unread)
        greeting = [b"%s %d" % (what, n) for what, n in lacking if n > 0]
        self.write(OUT, b"resources %d statements %d" % (R, T), *greeting, b"help lists the commands")
        for line in lines_of(text):
            self.told.written.append((OUT, b"> "))
            if not self.line(line):
                return
        self.write(OUT, b"> ")


# The program; `how` says whether it is a dialogue.
def shell(told, args, standard_input, **how):
    files, every = programs.arguments(told, "shell", args)
    run = Shell(told, every)
    run.loading.files(files, standard_input)
    run.script(*standard_input(), **how)


# The program with a terminal on standard input, where these lines are typed.
def at_terminal(told, args, standard_input):
    files, _ = programs.arguments(told, "shell", args)
    run = Shell(told, True)
    run.loading.files(files, standard_input)
    run.terminal(standard_input()[0])


# The dialogue of a script, each line after the prompt.
def dialogue(told, args, standard_input):
    shell(told, [b"--all", *args], standard_input, dialogue=True)


if __name__ == "__main__":
    given = [os.fsencode(a) for a in sys.argv[1:]]
    program, given = (dialogue, given[1:]) if given[:1] == [b"--dialogue"] else (shell, given)
    sys.exit(programs.deliver(programs.run(program, given, lambda: programs.drained(0))))
