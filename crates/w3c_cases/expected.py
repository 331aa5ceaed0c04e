#!/usr/bin/env python3
"""The expected output of `w3c_cases`, from the papers alone (paper 01, "Names" and "Read a line").

    expected.py            what the program is to print (stored in `stdout`)
    expected.py --table    the rows of the table in docs/W3C.md

The grammar of a line is written as regular expressions, and a line is read by following every derivation at once: after
each byte are kept the ways to go on to a whole line, with no term over 255 bytes so far. The first byte that leaves none
continues no line.
"""
import os
import re
import sys

HERE = os.path.dirname(os.path.abspath(__file__))
DATA = os.path.join(HERE, 'data')
LIMIT = 255
# The string ending: an object is answered without it. Offsets and the 255 bytes go by the line as spelled.
STRING = b'^^<http://www.w3.org/2001/XMLSchema#string>'

# Regular expressions over bytes. NONE has no word, EMPTY the empty word; a frozenset is one byte of it.
NONE, EMPTY = ('none',), ('empty',)


def seq(*parts):
    r = EMPTY
    for p in reversed(parts):
        if NONE in (p, r):
            r = NONE
        elif p == EMPTY:
            pass
        elif r == EMPTY:
            r = p
        else:
            r = ('seq', p, r)
    return r


def either(*cases):
    r = NONE
    for c in reversed(cases):
        r = c if r == NONE or r == c else r if c == NONE else ('either', c, r)
    return r


def any_of(r):
    return ('any', r)


def some_of(r):
    return seq(r, any_of(r))


def bytes_in(spec):
    """The bytes that a character class, as of the module re, has."""
    return frozenset(b for b in range(256) if re.fullmatch(spec.encode(), bytes([b]), re.DOTALL))


def word(text):
    return seq(*[frozenset([b]) for b in text.encode()])


def has_empty(r):
    if isinstance(r, frozenset):
        return False
    if r[0] == 'seq':
        return has_empty(r[1]) and has_empty(r[2])
    if r[0] == 'either':
        return has_empty(r[1]) or has_empty(r[2])
    return r[0] in ('empty', 'any')


def after(r, b):
    """What may follow the byte b in a word of r."""
    if isinstance(r, frozenset):
        return EMPTY if b in r else NONE
    if r[0] == 'seq':
        first = seq(after(r[1], b), r[2])
        return either(first, after(r[2], b)) if has_empty(r[1]) else first
    if r[0] == 'either':
        return either(after(r[1], b), after(r[2], b))
    if r[0] == 'any':
        return seq(after(r[1], b), r)
    return NONE


# "Names"
LETTER, ALNUM, LABEL = bytes_in('[A-Za-z]'), bytes_in('[A-Za-z0-9]'), bytes_in('[A-Za-z0-9_-]')
IRI_BYTE = frozenset(range(33, 127)) - frozenset(b'<>"{}|^\\`')
TEXT_BYTE = frozenset(range(32, 127)) - frozenset(b'"\\')

IRI = seq(word('<'), some_of(IRI_BYTE), word('>'))
BLANK = seq(word('_:'), bytes_in('[A-Za-z0-9_]'), either(EMPTY, seq(any_of(LABEL | frozenset(b'.')), LABEL)))
TAG = seq(word('@'), some_of(LETTER), any_of(seq(word('-'), some_of(ALNUM))))
LITERAL = seq(word('"'), any_of(either(TEXT_BYTE, seq(word('\\'), bytes_in(r'["\\nr]')))), word('"'),
              either(EMPTY, TAG, seq(word('^^'), IRI)))
GAP = any_of(frozenset(b' \t'))
COMMENT = seq(word('#'), any_of(frozenset(range(32, 127)) | frozenset(b'\t')))

# "A line is ...": the pieces in order; those that are terms give the parts.
TRIPLE = [(False, GAP), (True, either(IRI, BLANK)), (False, GAP), (True, IRI), (False, GAP),
          (True, either(IRI, BLANK, LITERAL)), (False, GAP), (False, word('.')), (False, GAP),
          (False, either(EMPTY, COMMENT))]
NOTHING = [(False, GAP), (False, either(EMPTY, COMMENT))]


class Derivation:
    """A way to read the bytes so far: the piece it is in, what may follow there, where the piece began, the parts before."""

    def __init__(self, line, piece, rest, start, parts):
        self.line, self.piece, self.rest, self.start, self.parts = line, piece, rest, start, parts

    def onward(self, at):
        """This derivation, and those that close its piece at the position and enter the next."""
        yield self
        if has_empty(self.rest) and self.piece + 1 < len(self.line):
            parts = self.parts + [(self.start, at)] if self.line[self.piece][0] else self.parts
            yield from Derivation(self.line, self.piece + 1, self.line[self.piece + 1][1], at, parts).onward(at)

    def take(self, b, at):
        rest = after(self.rest, b)
        if rest == NONE or (self.line[self.piece][0] and at + 1 - self.start > LIMIT):
            return []
        return [Derivation(self.line, self.piece, rest, self.start, self.parts)]

    def closed(self):
        return self.piece + 1 == len(self.line) and has_empty(self.rest)


def read_line(line):
    """The answer for a line, its ending apart: 'nothing', the three parts, or the offset of refusal 10."""
    alive = [Derivation(kind, 0, kind[0][1], 0, []) for kind in (NOTHING, TRIPLE)]
    for at, b in enumerate(line):
        alive = [e for d in alive for o in d.onward(at) for e in o.take(b, at)]
        if not alive:
            return at
    answers = [o.parts for d in alive for o in d.onward(len(line)) if o.closed()]
    if not answers:
        return len(line)
    assert all(a == answers[0] for a in answers), line
    if not answers[0]:
        return 'nothing'
    subject, predicate, object_ = [line[a:b] for a, b in answers[0]]
    return [subject, predicate, shortened(object_)]


def shortened(name):
    """A literal without the string ending. No other name ends so: neither an IRI nor a label has a `^`."""
    return name.removesuffix(STRING) if name.startswith(b'"') else name


def lines_of(text):
    """The lines of a text: each ends at LF, with one CR before it dropped, or at the end of the text."""
    *ended, last = text.split(b'\n')
    return [l[:-1] if l.endswith(b'\r') else l for l in ended] + ([last] if last else [])


# Edges, each with the answer worked out by hand from the papers: CR, the dot after a blank node, kinds by position, 255 bytes,
# comments, the string ending, bytes that are no spaces. A number is the offset of refusal 10.
X, Y = '_:' + 'a' * 253, '_:' + 'a' * 252
S, T = STRING.decode(), '^^<http://www.w3.org/2001/XMLSchema#String>'
BY_HAND = [
    ('#a\r', 2), ('#a\r\n', 'nothing'), ('#a\r\r\n', 2), ('\r', 0), ('\n', 'nothing'), ('\r\n', 'nothing'),
    ('_:a<b>"c"@en.#x', ['_:a', '<b>', '"c"@en']), ('<a> # c', 4), ('<a><b>"c" @en', 10),
    ('<a><b>_:c.', ['<a>', '<b>', '_:c']), ('<a><b>_:c.d.', ['<a>', '<b>', '_:c.d']), ('<a><b>_:c. .', 11),
    ('<a><b>_:c..', 11), ('<a><b>_:c.. ', 11), ('<a><b>_:c.d', 11), ('_:a. <b>', 4),
    ('"a" <b> <c> .', 0), ('<a> _:b <c> .', 4), ('<a> "b" <c> .', 4),
    ('<' + 'a' * 254, 255), ('<' + 'a' * 254 + '>', 255), ('<' + 'a' * 100 + ' ' + 'a' * 300, 101),
    ('<a><b>"' + 'a' * 253 + '"@en.', 261), ('<a><b>"' + 'a' * 253 + '" .', ['<a>', '<b>', '"' + 'a' * 253 + '"']),
    ('<a><b>' + X + '.', ['<a>', '<b>', X]), ('<a><b>' + X + '.b', 262), ('<a><b>' + X + '..', 262),
    ('<a><b>' + X + '. y', 263), ('<a><b>' + X + 'a', 261), (X + '.b', 255),
    ('<a><b>' + Y + '.', ['<a>', '<b>', Y]), ('<a><b>' + Y + '..', 261), ('<a><b>' + Y + '.b', 261),
    ('<a><b><c>.#\t~', ['<a>', '<b>', '<c>']), ('<a><b><c>.#\x7f', 11), ('<a><b><c>.#\xe9', 11),
    ('<a><b>"c"' + S + '.', ['<a>', '<b>', '"c"']), ('<a><b>""' + S + ' .', ['<a>', '<b>', '""']), ('<a><b>"c"' + S, 52),
    ('<a><b>"' + 'a' * 210 + '"' + S + '.', ['<a>', '<b>', '"' + 'a' * 210 + '"']), ('<a><b>"' + 'a' * 211 + '"' + S + '.', 261),
    ('<a><b>"c"' + T + '.', ['<a>', '<b>', '"c"' + T]), ('<a><b>"c' + S + '".', ['<a>', '<b>', '"c' + S + '"']),
    ('<a><b>"c' + S + '"' + S + '.', ['<a>', '<b>', '"c' + S + '"']), (S[2:] * 3 + '.', [S[2:], S[2:], S[2:]]),
    ('<a><b>"c' + S[:-1] + '".', ['<a>', '<b>', '"c' + S[:-1] + '"']),
    ('<a><b>"c"' + S * 2 + '.', 52), ('<a><b>"c"' + S + '@en.', 52), ('<a><b>"c"@en' + S + '.', 12), ('<a><b>"c"' + S[:-1] + ' .', 51),
    ('"c"' + S + '<b><c>.', 0), ('<a>"c"' + S + '<c>.', 3), ('<a><b><c>' + S + '.', 9), ('<a><b>_:c' + S + '.', 9), ('<a><b>' + S + '.', 6),
    ('\x00', 0), ('\x0b<a><b><c>.', 0), ('<a>\x0c<b><c>.', 3), ('\xef\xbb\xbf<a><b><c>.', 0),
]


def check_by_hand():
    for text, answer in BY_HAND:
        line, = lines_of(text.encode('latin-1'))
        want = [p.encode() for p in answer] if isinstance(answer, list) else answer
        assert read_line(line) == want, (text, answer, read_line(line))
    assert lines_of(b'') == [] and lines_of(b'a\nb') == [b'a', b'b']


def read_file(name):
    with open(os.path.join(DATA, name), 'rb') as f:
        return [(line, read_line(line)) for line in lines_of(f.read())]


def names():
    with open(os.path.join(HERE, 'args')) as f:
        return f.read().split()


def told(answer):
    if isinstance(answer, int):
        return b'refused 10 %d' % answer
    return b'nothing' if answer == 'nothing' else b' '.join(answer)


def write_expected(out):
    for name in names():
        answers = read_file(name)
        if not answers:
            out.write(name.encode() + b' 1 end\n')
        for n, (_, got) in enumerate(answers, 1):
            out.write(b'%s %d %s\n' % (name.encode(), n, told(got)))


def verdicts():
    """The manifest's verdict for each file that it names."""
    with open(os.path.join(DATA, 'manifest.ttl')) as f:
        found = re.findall(r'rdft:TestNTriples(Positive|Negative)Syntax.*?mf:action\s*<([^>]*)>', f.read(), re.DOTALL)
    return {name: verdict.lower() for verdict, name in found}


def class_of(verdict, refused):
    if verdict is None:
        return 'no test'
    if (verdict == 'negative') == bool(refused):
        return 'fits'
    return 'outside' if refused else 'relative'


def shown(line, at):
    """The byte a line is refused at, with the backslash before it."""
    if at == len(line):
        return 'the end'
    b = line[at]
    mark = '\\' if line[at - 1:at] == b'\\' else ''
    return f'`{mark}{chr(b)}`' if 33 <= b < 127 else 'a space' if b == 32 else f'byte {b}'


def write_table(out):
    counts, judged = {}, verdicts()
    for name in names():
        refused = [(n, got, line) for n, (line, got) in enumerate(read_file(name), 1) if isinstance(got, int)]
        verdict = judged.get(name)
        kind = class_of(verdict, refused)
        counts[verdict, kind] = counts.get((verdict, kind), 0) + 1
        at = '; '.join(f'line {n}, offset {k}: {shown(line, k)}' for n, k, line in refused)
        ours = 'refused' if refused else 'read'
        out.write(f"| `{name[:-3]}` | {verdict or '–'} | {ours} | {kind} | {at} |\n".encode())
    for (verdict, kind), n in counts.items():
        sys.stderr.write(f'{verdict} {kind}: {n}\n')


check_by_hand()
(write_table if sys.argv[1:] == ['--table'] else write_expected)(sys.stdout.buffer)
