#!/usr/bin/env python3
"""What the script comes to: `python3 reference.py < stdin > stdout`.

It reads the script of `stdin` and follows the papers with plain Python lists: records are lists of fields, names are byte strings, the
index is a list of numbers. It knows nothing of the library and shares nothing with it. The table of verbs stands at the top of
`src/main.rt`; a word that is not in it stops the script, and so does a set-up past what is lent."""
import re
import sys

LIMIT, TEXT_LIMIT, NAME_LIMIT, RECLAIMS = 65535, 1048576, 255, 65535
PATTERNS, VARIABLES, VARIABLE = 6, 16, 2**31
PLACES = ["subject", "predicate", "object"]

# The fields of a record, in order, and how many words each has.
FIELDS = {
    "resource": {"first": 3, "count": 3, "offset": 1, "kind": 1, "live": 3},
    "statement": {"triple": 3, "next": 3, "flag": 1},
}

IRI = rb"<[!#-;=?-\[\]_a-z~]+>"
QUOTED = rb"\"(?:[ !#-\[\]-~]|\\[\"\\nr])*\""
NAME = re.compile(
    rb"(?:%s|_:[A-Za-z0-9_](?:[A-Za-z0-9_.-]*[A-Za-z0-9_-])?"
    rb"|%s(?:@[A-Za-z]+(?:-[A-Za-z0-9]+)*|\^\^%s)?)" % (IRI, QUOTED, IRI)
)
# A literal with the string ending.
TYPED_STRING = re.compile(rb"(%s)\^\^<http://www\.w3\.org/2001/XMLSchema#string>" % QUOTED)
KINDS = {b"<": 1, b"_": 2, b'"': 3}


class Refused(Exception):
    pass


def refuse(number):
    raise Refused(number)


# By the name as spelled: a string ending counts among the 255 bytes.
def well_formed(name):
    return len(name) <= NAME_LIMIT and NAME.fullmatch(name) is not None


# What a well-formed name is compared and stored as: without the string ending.
def shortened(name):
    typed = TYPED_STRING.fullmatch(name)
    return typed[1] if typed else name


def number(word):
    return VARIABLE + int(word[1:]) if word[0] == "?" else int(word)


def new_record(table, value):
    return {field: [value] * width for field, width in FIELDS[table].items()}


# Bytes as the script has them: a bar for each zero byte.
def to_bytes(word):
    return word.replace("|", "\0").encode("latin-1")


def from_bytes(data):
    return bytes(data).decode("latin-1").replace("\0", "|")


class Store:
    def __init__(self):
        self.table = {"resource": [], "statement": []}
        self.index, self.text = [], bytearray()
        self.lend(0, 0, 0, 0)
        # R, T, B, the number of reclaims. A place carries that number too: the listing's last, the question's third.
        self.counters = (0, 0, 0, 0)
        self.listing = ((0, 0, 0), 0, 0, 0)
        self.question, self.place = [], ("start", 0, 0, [])

    # ---- the lent tables

    # Tables hold zeros at first, and what is not lent keeps its values. A table that is some words short has one whole record less.
    def lend(self, resources, statements, index, text, short=(0, 0)):
        for name, size in (("resource", resources), ("statement", statements)):
            self.table[name] += [new_record(name, 0) for _ in range(size - len(self.table[name]))]
        self.index += [0] * (index - len(self.index))
        self.text += bytearray(max(text - len(self.text), 0))
        self.short = any(short)
        self.whole = {"resource": resources - (short[0] > 0), "statement": statements - (short[1] > 0)}
        self.words, self.bytes = index, text

    def fill(self, value):
        assert not self.short
        for name, size in self.whole.items():
            self.table[name][:size] = [new_record(name, value) for _ in range(size)]
        self.index[: self.words] = [value] * self.words
        self.text[: self.bytes] = bytes([value] * self.bytes)

    # GROUP [PLACE] numbers: they go to the group's words from the place on.
    def change(self, table, n, words, fresh):
        assert 1 <= n <= self.whole[table]
        record = new_record(table, 0) if fresh else self.table[table][n - 1]
        group, at = None, 0
        for word in words:
            if word in FIELDS[table]:
                group, at = record[word], 0
            elif word in PLACES:
                at = PLACES.index(word)
            else:
                assert at < len(group)
                group[at] = number(word)
                at += 1
        self.table[table][n - 1] = record

    def resource(self, y):
        assert 1 <= y <= self.whole["resource"]
        return self.table["resource"][y - 1]

    def statement(self, n):
        assert 1 <= n <= self.whole["statement"]
        return self.table["statement"][n - 1]

    def capacities(self):
        return min(self.whole["resource"], self.words, LIMIT), min(self.whole["statement"], LIMIT), min(self.bytes, TEXT_LIMIT), RECLAIMS

    def within_capacity(self):
        return all(c <= k for c, k in zip(self.counters, self.capacities()))

    def test_counters(self):
        if not self.within_capacity():
            refuse(1)

    # A place from before a reclaim, or with any other number.
    def test_reclaims(self, reclaims):
        if reclaims != self.counters[3]:
            refuse(13)

    def test_numbers(self, triple):
        if any(y == 0 or y > self.counters[0] for y in triple):
            refuse(4)

    # ---- names

    # Where a name stands: 9 if the offset is at or past B, or no zero byte follows within 256 bytes and before B.
    def span(self, y):
        offset, used = self.resource(y)["offset"][0], self.counters[2]
        if offset >= used:
            refuse(9)
        window = bytes(self.text[offset : min(offset + NAME_LIMIT + 1, used)])
        if 0 not in window:
            refuse(9)
        return offset, window.index(0)

    def spelling(self, y):
        offset, size = self.span(y)
        return bytes(self.text[offset : offset + size])

    # 1, 2, 9, then the number or 0. Which entries a search reads on an unsound store is left to the program: it reads all here, and scripts
    # damage only stores of one name. So is the answer where a stored name has the string ending: a script that asks for it is stopped.
    def search(self, name):
        self.test_counters()
        if not well_formed(name):
            refuse(2)
        R = self.counters[0]
        entries = self.index[:R]
        if any(y < 1 or y > R for y in entries):
            refuse(9)
        names = [self.spelling(y) for y in entries]
        assert not any(TYPED_STRING.fullmatch(n) for n in names)
        return entries[names.index(shortened(name))] if shortened(name) in names else 0

    # The position is the number of names below it. On an unsound store it is left to the program: scripts ask only where 9 is certain.
    def find(self, name):
        n = self.search(name)
        names = [self.spelling(y) for y in self.index[: self.counters[0]]]
        return n or "absent", sum(other < shortened(name) for other in names)

    # 1, 2 over 255 bytes, 9; then how many names begin so, their numbers in byte order in the words lent, as many as fit, the others kept.
    def prefix(self, lent, beginning):
        words = [77] * lent
        try:
            self.test_counters()
            if len(beginning) > 255:
                refuse(2)
            R = self.counters[0]
            if any(y < 1 or y > R for y in self.index[:R]):
                refuse(9)
            listed = sorted((self.spelling(y), y) for y in range(1, R + 1) if self.spelling(y).startswith(beginning))
        except Refused as e:
            return "refused", e.args[0], *words
        words[: len(listed)] = [y for _, y in listed][:lent]
        return len(listed), *words

    # 1; 9 if reading a statement or naming one of its resources gives 9; 11; then the live statements' lines, sorted as bytes.
    def export(self, room, lent):
        out, work = [77] * room, [77] * lent
        try:
            self.test_counters()
            T, lines = self.counters[1], []
            for n in range(1, T + 1):
                *triple, flag = self.read(n)
                line = b"".join(self.spelling(y) + b" " for y in triple) + b".\n"
                if flag == 0:
                    lines.append(line)
            file = b"".join(sorted(lines))
            if len(file) > room or T > lent:
                refuse(11)
        except Refused as e:
            return "refused", e.args[0], *out, *work
        out[: len(file)], work[:T] = file, [0] * T
        return len(file), *out, *work

    # Room and the stored bytes go by the shortened name.
    def enter(self, spelled):
        n, name = self.search(spelled), shortened(spelled)
        R, T, B, N = self.counters
        if n == 0:
            if R >= self.capacities()[0] or B + len(name) + 1 > self.capacities()[2]:
                refuse(3)
            n = R + 1
            self.change("resource", n, ["offset", str(B), "kind", str(KINDS[name[:1]])], True)
            self.text[B : B + len(name) + 1] = name + b"\0"
            self.counters = (n, T, B + len(name) + 1, N)
            self.index[:n] = sorted(self.index[:R] + [n], key=self.spelling)
        return n, *self.counters

    # The span, the part's length, and the part if it is short. A refusal comes with an empty part.
    def name(self, y):
        try:
            self.test_counters()
            self.test_numbers((y,))
            offset, size = self.span(y)
        except Refused as e:
            return "part", 0, "refused", e.args[0]
        part = from_bytes(self.text[offset : offset + size])
        return (offset, size, "part", size) + ((part,) if 0 < size < 10 else ())

    # ---- statements

    def read(self, n):
        self.test_counters()
        if n == 0 or n > self.counters[1]:
            refuse(4)
        triple, flag = self.statement(n)["triple"], self.statement(n)["flag"][0]
        if any(y == 0 or y > self.counters[0] for y in triple) or flag > 1:
            refuse(9)
        return *triple, flag

    # The bound place with least count, ties to subject, then predicate, then object; 9 if a count or a first of a bound place is above T.
    # Chain 0 has all records, chains 1 to 3 go by subject, predicate, object.
    def pick(self, pattern):
        T = self.counters[1]
        bound = [(self.resource(y)["count"][p], p) for p, y in enumerate(pattern) if y]
        if any(count > T or self.resource(pattern[p])["first"][p] > T for count, p in bound):
            refuse(9)
        if not bound:
            return 0, T
        p = min(bound)[1]
        return p + 1, self.resource(pattern[p])["first"][p]

    def after(self, chain, n):
        return self.statement(n)["next"][chain - 1] if chain else n - 1

    # One visit: the triple, the flag, the record after it; 9 if a word is out of range.
    def visit(self, pattern, chain, n):
        triple, flag = tuple(self.statement(n)["triple"]), self.statement(n)["flag"][0]
        if any(y < 1 or y > self.counters[0] for y in triple) or flag > 1 or self.after(chain, n) >= n:
            refuse(9)
        if chain and triple[chain - 1] != pattern[chain - 1]:
            refuse(9)
        return triple, flag, self.after(chain, n)

    # The words of the three resources at their places in the triple, by field.
    def named(self, triple, field):
        return [self.resource(y)[field][p] for p, y in enumerate(triple)]

    # 9 also if a live count of the three resources is above its count.
    def locate(self, triple):
        chain, n = self.pick(triple)
        if any(live > count for live, count in zip(self.named(triple, "live"), self.named(triple, "count"))):
            refuse(9)
        while n:
            found, flag, after = self.visit(triple, chain, n)
            if found == triple:
                return n, flag
            n = after
        return 0, 0

    # The record with the triple is retracted (1) or made live (0), which the three live counts follow.
    def mark(self, n, triple, flag):
        self.statement(n)["flag"] = [flag]
        for p, y in enumerate(triple):
            self.resource(y)["live"][p] += -1 if flag else 1

    def do_assert(self, *triple):
        self.test_counters()
        self.test_numbers(triple)
        kinds = [self.resource(y)["kind"][0] for y in triple]
        if any(k < 1 or k > 3 for k in kinds):
            refuse(9)
        if kinds[0] == 3 or kinds[1] != 1:
            refuse(5)
        n, flag = self.locate(triple)
        R, T, B, N = self.counters
        if n and flag == 0:
            return "already", n, *self.counters
        if n:
            self.mark(n, triple, 0)
            return "revived", n, *self.counters
        if T >= self.capacities()[1]:
            refuse(3)
        self.table["statement"][T] = {"triple": list(triple), "next": self.named(triple, "first"), "flag": [0]}
        for p, y in enumerate(triple):
            self.resource(y)["first"][p] = T + 1
            self.resource(y)["count"][p] += 1
            self.resource(y)["live"][p] += 1
        self.counters = (R, T + 1, B, N)
        return "new", T + 1, *self.counters

    def retract(self, *triple):
        self.test_counters()
        self.test_numbers(triple)
        n, flag = self.locate(triple)
        if n == 0 or flag == 1:
            return 0
        if 0 in self.named(triple, "live"):
            refuse(9)
        self.mark(n, triple, 1)
        return n

    # 1, 14, 9. The live statements keep their order and are numbered from 1. Each record's nexts are the highest ones below it that hold its
    # resource in the place, each first is the highest of all, each count how many there are, and all of them are live. What was in use beyond
    # them is 0; offsets, kinds, index and text stay.
    def reclaim(self):
        self.test_counters()
        R, T, B, N = self.counters
        if N == RECLAIMS:
            refuse(14)
        if not self.sound():
            refuse(9)
        live = [r["triple"] for r in self.table["statement"][:T] if r["flag"] == [0]]

        def holding(p, y, below):
            return [n for n in range(1, below) if live[n - 1][p] == y]

        records = [{"triple": x, "next": [max(holding(p, x[p], n), default=0) for p in range(3)], "flag": [0]} for n, x in enumerate(live, 1)]
        self.table["statement"][:T] = records + [new_record("statement", 0) for _ in range(T - len(live))]
        for y in range(1, R + 1):
            chains = [holding(p, y, len(live) + 1) for p in range(3)]
            self.resource(y)["first"] = [max(chain, default=0) for chain in chains]
            self.resource(y)["count"] = [len(chain) for chain in chains]
            self.resource(y)["live"] = [len(chain) for chain in chains]
        self.counters = (R, len(live), B, N + 1)
        return self.counters

    # ---- listings

    def listed(self):
        pattern, chain, n, reclaims = self.listing
        return "place", *pattern, ["none", "s", "p", "o"][chain], n, reclaims

    def open(self, *pattern):
        self.test_counters()
        if any(y > self.counters[0] for y in pattern):
            refuse(4)
        self.listing = (pattern, *self.pick(pattern), self.counters[3])
        return self.listed()

    def next(self, budget):
        self.test_counters()
        R, T, B, N = self.counters
        pattern, chain, n, reclaims = self.listing
        self.test_reclaims(reclaims)
        if any(y > R for y in pattern):
            refuse(6)
        if (pattern[chain - 1] == 0 if chain else any(pattern)) or n > T:
            refuse(6)
        if n and chain and self.statement(n)["triple"][chain - 1] != pattern[chain - 1]:
            refuse(6)
        if budget == 0:
            refuse(7)
        visits = 0
        while n and visits < budget:
            visits += 1
            triple, flag, after = self.visit(pattern, chain, n)
            here, n = n, after
            if flag == 0 and all(w in (0, y) for w, y in zip(pattern, triple)):
                self.listing = (pattern, chain, n, N)
                return "found", here, "visits", visits, *self.listed()
        self.listing = (pattern, chain, n, N)
        return "spent" if n else "ended", 0, "visits", visits, *self.listed()

    # ---- questions

    # 1, then 8.
    def test_question(self):
        self.test_counters()
        w, R = self.question, self.counters[0]
        if len(w) % 3 or len(w) > 3 * PATTERNS or any(not (1 <= x <= R or VARIABLE <= x < VARIABLE + VARIABLES) for x in w):
            refuse(8)

    def pattern(self, k):
        return self.question[3 * k : 3 * k + 3]

    # What pattern k asks for under what is bound, 0 for an open variable.
    def asked(self, k, bound):
        return [bound.get(w, 0) if w >= VARIABLE else w for w in self.pattern(k)]

    # What is bound once a triple meets pattern k, or None.
    def meets(self, k, triple, bound):
        bound = dict(bound)
        for w, y in zip(self.pattern(k), triple):
            if (bound.setdefault(w, y) if w >= VARIABLE else w) != y:
                return None
        return bound

    # What a list of entered records binds.
    def bound_by(self, levels):
        bound = {}
        for k, (_, n) in enumerate(levels):
            bound = self.meets(k, self.statement(n)["triple"], bound)
        return bound

    # 6: each entered record before the deepest is there and matches its pattern under the earlier ones; chains and the deepest next are ones
    # that a listing would take.
    def test_place(self):
        R, T, B, N = self.counters
        how, depth, reclaims, levels = self.place
        if how != "within" or depth == 0:
            return
        if depth > len(self.question) // 3:
            refuse(6)
        bound = {}
        for k, (chain, n) in enumerate(levels[:depth]):
            x = self.asked(k, bound)
            if n > T or (x[chain - 1] == 0 if chain else any(x)):
                refuse(6)
            if k + 1 == depth:
                if n and chain and self.statement(n)["triple"][chain - 1] != x[chain - 1]:
                    refuse(6)
                return
            if n == 0 or any(y < 1 or y > R for y in self.statement(n)["triple"]):
                refuse(6)
            bound = self.meets(k, self.statement(n)["triple"], bound)
            if bound is None:
                refuse(6)

    # The levels that a walk starts from; 9 if a word of an entered record is out of range. Below a record retracted since, levels are left.
    def entered(self):
        how, depth, reclaims, levels = self.place
        if how == "start" or depth == 0:
            return [self.pick(self.asked(0, {}))]
        levels = levels[:depth]
        for chain, n in levels[:-1]:
            if self.statement(n)["flag"][0] > 1 or self.after(chain, n) >= n:
                refuse(9)
        for k, (chain, n) in enumerate(levels[:-1]):
            if self.statement(n)["flag"][0] == 1:
                return levels[:k] + [(chain, self.after(chain, n))]
        return levels

    # Status, visits, what is bound, the place from now on.
    def walk(self, budget):
        self.test_question()
        self.test_reclaims(self.place[2])
        self.test_place()
        if budget == 0:
            refuse(7)
        patterns = len(self.question) // 3
        if self.place[0] == "end":
            return "ended", 0, {}, ("end", [])
        if patterns == 0:
            return "found", 0, {}, ("end", [])
        levels, visits = self.entered(), 0
        while visits < budget:
            # A further visit is sought: chains that have run out are left.
            while levels[-1][1] == 0:
                levels.pop()
                if not levels:
                    return "ended", visits, {}, ("end", [])
                chain, n = levels[-1]
                levels[-1] = (chain, self.after(chain, n))
            k, bound, (chain, n) = len(levels) - 1, self.bound_by(levels[:-1]), levels[-1]
            triple, flag, after = self.visit(self.asked(k, bound), chain, n)
            visits += 1
            got = None if flag else self.meets(k, triple, bound)
            if got is None:
                levels[-1] = (chain, after)
            elif k + 1 == patterns:
                levels[-1] = (chain, after)
                return "found", visits, got, ("within", levels)
            else:
                levels.append(self.pick(self.asked(k + 1, got)))
        if levels[-1][1] or any(self.after(chain, n) for chain, n in levels[:-1]):
            return "spent", visits, {}, ("within", levels)
        return "ended", visits, {}, ("end", [])

    # A reply has the place from now on, or the start and zeros beside a refusal, which leaves the place as it was.
    def replied(self, status, place):
        how, levels = place
        slots, reclaims = levels + [(0, 0)] * (PATTERNS - len(levels)), 0
        if status[0] != "refused":
            reclaims = self.counters[3]
            self.place = (how, len(levels), reclaims, slots)
        return "place", how, len(levels), reclaims, *["-spo"[chain] + str(n) for chain, n in slots]

    def ask(self):
        status = ("opened",)
        try:
            self.test_question()
        except Refused as e:
            status = ("refused", e.args[0])
        return *status, *self.replied(status, ("start", []))

    def answer(self, budget):
        try:
            status, visits, bound, place = self.walk(budget)
            status = (status,)
        except Refused as e:
            status, visits, bound, place = ("refused", e.args[0]), 0, {}, ("start", [])
        solution = [bound.get(VARIABLE + v, 0) for v in range(VARIABLES)]
        return *status, "visits", visits, "solution", *solution, *self.replied(status, place)

    # ---- the check

    def sound(self):
        if not self.within_capacity():
            return False
        R, T, B, N = self.counters
        # The text is exactly R names, each closed by a zero byte.
        names = bytes(self.text[:B]).split(b"\0")
        if names.pop() != b"" or len(names) != R:
            return False
        if not all(well_formed(n) and shortened(n) == n for n in names) or len(set(names)) != R:
            return False
        offset = 0
        for y, n in enumerate(names, 1):
            if self.resource(y)["offset"][0] != offset or self.resource(y)["kind"][0] != KINDS[n[:1]]:
                return False
            offset += len(n) + 1
        # The index is complete and rising.
        if self.index[:R] != sorted(range(1, R + 1), key=lambda y: names[y - 1]):
            return False
        # Statement resources, permitted kinds, flags; no triple twice.
        triples = [tuple(self.statement(n)["triple"]) for n in range(1, T + 1)]
        for n, triple in enumerate(triples, 1):
            if any(y < 1 or y > R for y in triple) or self.statement(n)["flag"][0] > 1:
                return False
            if KINDS[names[triple[0] - 1][:1]] == 3 or KINDS[names[triple[1] - 1][:1]] != 1:
                return False
        if len(set(triples)) != T:
            return False
        # Each chain falls through the records that hold the resource in that place; the count is their number, the live count that of the
        # live ones.
        chains = {}
        for n in range(T, 0, -1):
            for p, y in enumerate(triples[n - 1]):
                chains.setdefault((p, y), []).append(n)
        for y in range(1, R + 1):
            for p in range(3):
                chain = chains.get((p, y), [])
                if self.resource(y)["count"][p] != len(chain):
                    return False
                if self.resource(y)["live"][p] != sum(self.statement(n)["flag"][0] == 0 for n in chain):
                    return False
                if [self.resource(y)["first"][p]] + [self.statement(n)["next"][p] for n in chain] != chain + [0]:
                    return False
        return True

    def check(self):
        return "sound" if self.sound() else "unsound"

    # ---- shows

    def record(self, table, n):
        record = (self.resource if table == "resource" else self.statement)(n)
        return [w for field, values in record.items() for w in [field] + values]

    def show(self, what, n=0):
        if what in FIELDS:
            return self.record(what, n)
        if what == "resources":
            return [w for y in range(1, self.whole["resource"] + 1) for w in self.record("resource", y)]
        if what == "index":
            return self.index[: self.words]
        assert what == "text"
        return from_bytes(self.text[: self.bytes])


# A line that sets something up.
def set_up(store, verb, words, line):
    if verb == "lend":
        assert words[4:5] in ([], ["short"])
        v = [int(w) for w in words[:4] + words[5:]]
        store.lend(*v[:4], tuple(v[4:]) or (0, 0))
    elif verb == "fill":
        store.fill(int(words[0]))
    elif verb == "counters":
        store.counters = tuple(int(w) for w in words) + (0,) * (4 - len(words))
    elif verb in FIELDS:
        store.change(verb, int(words[0]), words[1:], True)
    elif verb == "change":
        store.change(words[0], int(words[1]), words[2:], False)
    elif verb == "index":
        v = [int(w) for w in words]
        assert v[0] + len(v) - 1 <= store.words
        store.index[v[0] : v[0] + len(v) - 1] = v[1:]
    elif verb == "text":
        at, data = int(words[0]), to_bytes(line.split(" ", 2)[2])
        assert at + len(data) <= store.bytes
        store.text[at : at + len(data)] = data
    elif verb == "listing":
        store.listing = (tuple(int(w) for w in words[:3]), ["none", "s", "p", "o"].index(words[3]), int(words[4]), int((words + ["0"])[5]))
    elif verb == "question":
        store.question = [number(w) for w in words]
    elif verb == "place":
        assert words[0] in ("start", "within", "end")
        depth, reclaims = [int(w) for w in (words[1:3] + ["0", "0"])[:2]]
        levels = [("-spo".index(chain), int(n)) for chain, n in zip(words[3::2], words[4::2])]
        store.place = (words[0], depth, reclaims, levels + [(0, 0)] * (PATTERNS - len(levels)))
    else:
        raise SyntaxError(line)


# What a case answers.
def call(store, verb, words, rest):
    if verb in ("enter", "find"):
        return getattr(store, verb)(rest.encode("latin-1"))
    if verb == "prefix":
        return store.prefix(int(words[0]), to_bytes(rest.partition(" ")[2]))
    if verb == "show":
        return store.show(words[0], *[int(w) for w in words[1:]])
    operations = {
        "name": store.name,
        "read": store.read,
        "export": store.export,
        "assert": store.do_assert,
        "retract": store.retract,
        "reclaim": store.reclaim,
        "open": store.open,
        "next": store.next,
        "ask": store.ask,
        "answer": store.answer,
        "check": store.check,
    }
    return operations[verb](*[int(w) for w in words])


def main():
    store, case, labels = Store(), 0, set()
    for line in sys.stdin.read().splitlines():
        if line == "" or line.startswith("# "):
            continue
        verb, *words = line.split(" ")
        if not verb.endswith(":"):
            set_up(store, verb, words, line)
            continue
        assert verb not in labels, verb
        labels.add(verb)
        case += 1
        try:
            out = call(store, words[0], words[1:], " ".join(words[1:]))
        except Refused as e:
            out = ("refused", e.args[0])
        print(case, verb[:-1], *(out if isinstance(out, (tuple, list)) else (out,)))


if __name__ == "__main__":
    main()
