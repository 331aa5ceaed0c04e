#!/usr/bin/env python3
"""Writes the files of the loading program's edges (data/, args) and what the paper says of each (stdout).

Every line is given with what it holds, so nothing here parses: a list of names for a statement, None for a blank or comment line, 'bad' for
a line that is no line. A name that a line holds is without the string ending, however the line spells it. What the store answers is counted
with two plain lists. Run in this folder: python3 cases.py
"""
import os

STATEMENTS, RESOURCES, TEXT, LIMIT = 1024, 512, 16384, 1024
os.makedirs('data', exist_ok=True)
args, out = [], []


def case(name, lines, missing=False):
    """lines: (bytes without the ending, ending, what it holds)."""
    args.append(name)
    out.append('== ' + name)
    if not missing:
        with open('data/' + name, 'wb') as f:
            for body, ending, holds in lines:
                f.write(body + ending)
    names, used, triples = [], 0, []
    for number, (body, ending, holds) in enumerate(lines, 1):
        if len(body) > LIMIT or holds == 'bad':
            out.append(f'{number} refused 10')
            continue
        if holds is None:
            continue
        full = False
        for n in holds:
            if n not in names:
                if len(names) == RESOURCES or used + len(n) + 1 > TEXT:
                    full = True
                    break
                names.append(n)
                used += len(n) + 1
        if full:
            out.append(f'{number} refused 3')
            continue
        t = tuple(names.index(n) for n in holds)
        if t in triples:
            out.append(f'{number} already {triples.index(t) + 1}')
        elif len(triples) == STATEMENTS:
            out.append(f'{number} refused 3')
        else:
            triples.append(t)
            out.append(f'{number} new {len(triples)}')
    out.append(f'resources {len(names)} statements {len(triples)}')


def line(s, p, o, ending=b'\n'):
    return (b' '.join([s, p, o]) + b' .', ending, [s, p, o])


STRING = b'^^<http://www.w3.org/2001/XMLSchema#string>'


def typed(s, p, o, after=b' .'):
    """A statement whose object is spelled with the string ending."""
    return (b' '.join([s, p, o]) + STRING + after, b'\n', [s, p, o])


def iri(text, size=0):
    """An IRI, filled up with `x` to a size in bytes if one is given."""
    body = text.encode()
    return b'<' + body + b'x' * max(0, size - len(body) - 2) + b'>'


R21, TRIPS, B4, B7 = b'<r:21>', b'<p:trips>', b'<b:4>', b'<b:7>'


def sample(ending):
    return [line(R21, TRIPS, B4, ending), line(R21, TRIPS, B7, ending), (b'# bay 2', ending, None), line(R21, TRIPS, B4, ending),
            (b'<r:21> <p:trips> "A"', ending, 'bad')]


case('sample.nt', sample(b'\n'))
case('crlf.nt', sample(b'\r\n'))
case('no-final-lf.nt', [line(R21, TRIPS, B4), line(R21, TRIPS, B7, b'')])
case('comment-no-final-lf.nt', [line(R21, TRIPS, B4), (b'# end', b'', None)])
case('lone-cr.nt', [line(R21, TRIPS, B4), (b'#a\r', b'', 'bad')])
case('two-cr.nt', [(b'#a\r', b'\r\n', 'bad'), line(R21, TRIPS, B4)])
case('empty.nt', [])
case('blank-lines.nt', [(b'', b'\n', None), (b' \t', b'\r\n', None), line(R21, TRIPS, B4), (b'', b'\n', None)])
case('missing.nt', [], missing=True)


def padded(size, ending):
    body = b' '.join([R21, TRIPS, B4]) + b' . #'
    return (body + b'x' * (size - len(body)), ending, [R21, TRIPS, B4])


case('line-of-1024.nt', [padded(1024, b'\n'), padded(1024, b'\r\n'), padded(1025, b'\n'), padded(1025, b'\r\n'), line(R21, TRIPS, B7),
                         (b'#' + b'x' * 1024, b'\n', None), (b' ' * 1025, b'\n', None), (b'#' + b'x' * 5000, b'\n', None), line(R21, TRIPS, B4),
                         padded(1024, b'')])
case('last-line-of-1025.nt', [line(R21, TRIPS, B4), padded(1025, b'')])
case('last-line-of-1024-and-cr.nt', [(padded(1024, b'')[0] + b'\r', b'', 'bad')])

# 1,024 statements and more, over 65 names
case('statements-full.nt', [line(iri(f's:{i}'), TRIPS, iri(f'o:{j}')) for i in range(33) for j in range(32)][:1030] + [line(iri('s:0'), TRIPS, iri('o:0'))])
# 511 names, then a line of three new ones: one is entered
case('resources-full.nt', [line(iri(f's:{i}'), TRIPS, iri(f'o:{i}')) for i in range(255)] + [line(iri('x:1'), iri('x:2'), iri('x:3')),
     line(iri('x:1'), TRIPS, iri('o:1')), line(iri('x:1'), TRIPS, iri('x:4'))])
# 64 names of 255 bytes are all of the text
case('text-full.nt', [line(iri(f's:{i}', 255), iri('p:', 255), iri(f'o:{i}', 255)) for i in range(31)]
     + [line(iri('s:31', 255), iri('p:', 255), iri('o:0', 255)), line(iri('s:0', 255), iri('p:', 255), iri('a')), line(iri('s:0', 255), iri('p:', 255), iri('o:0', 255))])

# The string ending: both spellings are one statement, whichever comes first
A, B, C = b'"A"', b'"B"', b'"C"'
XSD_STRING = STRING[2:]


def bad(*pieces):
    return (b''.join(pieces), b'\n', 'bad')


def quoted(size):
    return b'"' + b'x' * (size - 2) + b'"'


def filled(size):
    """A line of a size in bytes, with the string ending and a comment."""
    body, ending, holds = typed(R21, TRIPS, C, b'.#')
    return (body + b'x' * (size - len(body)), ending, holds)


case('string-ending.nt', [
    line(R21, TRIPS, A), typed(R21, TRIPS, A), typed(R21, TRIPS, A, b'.'),
    line(R21, TRIPS, b'"A"^^<http://www.w3.org/2001/XMLSchema#String>'), line(R21, TRIPS, b'"A"@en'),
    typed(R21, TRIPS, B, b'\t. # "A"'), line(R21, TRIPS, B),
    typed(R21, TRIPS, b'""'), line(R21, TRIPS, b'""'),
    line(R21, TRIPS, b'"A' + STRING + b'"'), line(R21, TRIPS, b'"A' + STRING[:-1] + b'"'),
    line(R21, TRIPS, XSD_STRING), line(XSD_STRING, TRIPS, A),
    bad(A, STRING, b' <p:trips> <b:4> .'), bad(b'<r:21> ', A, STRING, b' <b:4> .'),
    bad(b'<r:21> <p:trips> "A"', STRING), bad(b'<r:21> <p:trips> "A"', STRING, b'@en .'),
    bad(b'<r:21> <p:trips> "A"', STRING, STRING, b' .')])
# An object of 255 bytes as spelled, then of 256; a line of 1,024 bytes as spelled, then of 1,025
case('string-ending-255.nt', [
    typed(R21, TRIPS, quoted(212)), line(R21, TRIPS, quoted(212)), bad(b'<r:21> <p:trips> ', quoted(213), STRING, b' .'),
    line(R21, TRIPS, quoted(213)), filled(1024), filled(1025), line(R21, TRIPS, C)])
# All of the text but 4 bytes: `"A"` fits in them though its spelling does not, and nothing after it
S0, P = iri('s:0', 255), iri('p:', 255)
case('string-ending-full.nt', [line(iri(f's:{i}', 255), P, iri(f'o:{i}', 255)) for i in range(31)]
     + [line(iri('s:31', 251), P, iri('o:0', 255)), typed(S0, P, A), line(S0, P, A), typed(S0, P, A), typed(S0, P, B)])

# Lines that do not end in the loader's buffer: the first fills it, with its LF in the next block and a CR where a line of 1,024 bytes would have one
BUFFER = 8192
case('over-buffer.nt', [
    (padded(1024, b'')[0] + b'\r' + b'x' * (BUFFER - 1025), b'\n', 'bad'), line(R21, TRIPS, B7), (b'#' + b'x' * 3 * BUFFER, b'\n', None),
    padded(1024, b'\r\n'), (b'#' + b'x' * (BUFFER - 100), b'\r\n', None), padded(1024, b'\n'), padded(1025, b'\n'), line(R21, TRIPS, B4),
    (b'#' + b'x' * BUFFER, b'', None)])

with open('args', 'w') as f:
    f.write('\n'.join(args) + '\n')
with open('stdout', 'w') as f:
    f.write('\n'.join(out) + '\n')
