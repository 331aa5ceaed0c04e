#!/usr/bin/python3
"""Write RESULTS.md and growth.svg from what bench/run measured.

    report.py ROUNDS.csv COUNTS.csv FOLDER

ROUNDS.csv   round,peer,workload,metric,value           nanoseconds for each unit; bytes; sums
COUNTS.csv   workload,instructions,peer,metric,number   and workload,units,peer,metric,number
             workload,endings,,metric,number             literals with the string ending; the last workload is the first one so written
             the walk's workload has no endings
"""
import collections
import csv
import os
import re
import statistics
import subprocess
import sys
import time

import growth

PEERS = ['library', 'reference', 'serd+sord', 'sqlite', 'lmdb']
TITLES = {'library': 'library', 'reference': 'C reference', 'serd+sord': 'serd+sord', 'sqlite': 'SQLite', 'lmdb': 'LMDB'}
COUNTED = ['library', 'reference', 'refusing']
COUNTS_HEAD = ['', 'library', 'C reference', 'ratio', 'with refusals', 'ratio']
OPERATIONS = [
    ('parse', 'parse', 'a line'),
    ('load', 'load', 'a statement'),
    ('find', 'find a name', 'a name'),
    ('names', 'names by a beginning', 'a listing'),
    ('names-all', 'all names in byte order', 'a name'),
    ('lookup', 'bound lookup', 'a lookup'),
    ('list-s', 'list, subject bound', 'a record'),
    ('list-p', 'list, predicate bound', 'a record'),
    ('list-o', 'list, object bound', 'a record'),
    ('list-sp', 'list, subject and predicate', 'a record'),
    ('list-po', 'list, predicate and object', 'a record'),
    ('list-so', 'list, subject and object', 'a record'),
    ('join', 'three-pattern join', 'a join'),
    ('retract', 'retract', 'a statement'),
    ('export', 'the file, lines sorted', 'a statement'),
    ('write', 'the lines, unsorted', 'a statement'),
    ('sort', '`sort` of these lines', 'a statement'),
    ('check', 'soundness check', 'a statement'),
    ('reclaim-none', 'reclaim, none retracted', 'a statement'),
    ('reclaim-half', 'reclaim, half retracted', 'a statement'),
    ('reclaim-all', 'reclaim, all retracted', 'a statement'),
    ('sweep-none', 'reclaim without the check, none retracted', 'a statement'),
    ('sweep-half', 'reclaim without the check, half retracted', 'a statement'),
    ('sweep-all', 'reclaim without the check, all retracted', 'a statement'),
]
# The one operation of a workload of its own, which stands in no table of the others.
WALK = 'walk'
# A time that is the difference of two is told where it is at least this part of the greater.
TOLD = 0.05


def read_rounds(path):
    """{(peer, workload, metric): [values]}, workloads in the order measured, number of rounds."""
    values, workloads, rounds = collections.defaultdict(list), [], set()
    for round_, peer, workload, metric, value in csv.reader(open(path)):
        values[peer, workload, metric].append(float(value))
        rounds.add(round_)
        if workload not in workloads:
            workloads.append(workload)
    return values, workloads, len(rounds)


def disagreements(values):
    """Operations that did not count the same for every peer in every round."""
    sums = collections.defaultdict(set)
    for (peer, workload, metric), seen in values.items():
        if metric.startswith('sum-'):
            sums[workload, metric].update(seen)
    return ['%s %s: %s' % (w, m, sorted(s)) for (w, m), s in sums.items() if len(s) > 1]


def less_checks(figures, part):
    """Adds the library's reclaim without its check: less the check of the same store, where that is at least this part of the whole."""
    for key in [k for k in figures if k[-1].startswith('reclaim-')]:
        share = key[-1].removeprefix('reclaim')
        rest = figures[key] - figures[key[:-1] + ('check' + share,)]
        if rest >= part * figures[key]:
            figures[key[:-1] + ('sweep' + share,)] = rest


def span(ns):
    for limit, unit, by in ((1e3, 'ns', 1), (1e6, 'µs', 1e3), (1e9, 'ms', 1e6)):
        if ns < limit:
            return '%.3g %s' % (ns / by, unit)
    return '%.3g s' % (ns / 1e9)


def ratio(x):
    return '%.2f' % x if x < 9.95 else '%.0f' % x


def table(head, rows):
    lines = ['| ' + ' | '.join(head) + ' |', '|---' * len(head) + '|']
    return lines + ['| ' + ' | '.join(r) + ' |' for r in rows] + ['']


def first_line(*command):
    try:
        return subprocess.run(command, capture_output=True, text=True).stdout.splitlines()[0]
    except (OSError, IndexError):
        return 'unknown'


def machine():
    cpu = re.search(r'model name\s*: (.*)', open('/proc/cpuinfo').read())
    here = os.path.dirname(os.path.abspath(__file__))
    commit = first_line('git', '-C', here, 'rev-parse', '--short', 'HEAD')
    return '%s, %d cores, Linux %s; %s; commit %s, %s' % (
        cpu.group(1) if cpu else 'unknown processor', os.cpu_count(), os.uname().release, first_line('gcc', '--version'), commit,
        time.strftime('%Y-%m-%d', time.gmtime()))


def main():
    values, workloads, rounds = read_rounds(sys.argv[1])
    counts = list(csv.reader(open(sys.argv[2])))
    folder = sys.argv[3]
    wrong = disagreements(values)
    if wrong:
        sys.exit('bench: the peers disagree\n' + '\n'.join(wrong))
    least = {k: min(v) for k, v in values.items()}
    less_checks(least, TOLD)
    timed = [(p, w, m) for (p, w, m) in values if m in {o[0] for o in OPERATIONS} | {WALK}]
    walked = next(w for w in workloads if ('library', w, WALK) in values)
    workloads = [w for w in workloads if w != walked]

    spread = sorted(statistics.median(values[k]) / least[k] for k in timed)
    twice = sorted(least['again', w, m] / least['reference', w, m] for (p, w, m) in timed if p == 'again')
    out = ['# Results', '', 'Written by `bench/run`; README.md beside this file says what is measured.', '', 'Machine: %s.' % machine(), '']
    out += ['Every figure is the least of %d rounds; a round measures every peer once on every workload, on the chain of retracted records the library and the reference alone. All peers gave the same counts of statements, names, '
            'matches, solutions and visits, and the same file once it was sorted (sord not on typed workloads, where it keeps the string ending).' % rounds, '']
    out += ['**Noise.** A figure\'s median round was %.2f times its least in the middle, %.2f times for the worst twentieth. The same reference program '
            'measured a second time in every round: its least was %.2f to %.2f times the first one\'s, %.2f in the middle. A ratio as near to 1 as that says nothing.'
            % (statistics.median(spread), spread[int(0.95 * len(spread))], twice[0], twice[-1], statistics.median(twice)), '']

    out += ['## The library against the C reference', '', 'Ratio of times. The reference has no soundness check, and makes none when it reclaims. The library\'s time for a reclaim '
            'without the check is that of the reclaim less that of the check: where it is less than a twentieth of the whole, none is told.', '']
    rows = []
    for metric, title, unit in OPERATIONS:
        if ('reference', workloads[0], metric) not in least:
            continue
        cells = [ratio(least['library', w, metric] / least['reference', w, metric]) if ('library', w, metric) in least else '' for w in workloads]
        own = [least['again', w, metric] / least['reference', w, metric] for w in workloads]
        rows.append([title] + cells + ['%.2f to %.2f' % (min(own), max(own))])
    rows.append(['bytes a statement'] + [ratio(least['library', w, 'bytes'] / least['reference', w, 'bytes']) for w in workloads] + [''])
    out += table([''] + workloads + ['reference against itself'], rows)

    if counts:
        out += instructions([c for c in counts if c[0] != walked])
    out += chain(walked, {p: least[p, walked, WALK] for p in ('library', 'reference', 'again')}, [c for c in counts if c[0] == walked])

    for w in workloads:
        out += ['## %s' % w, '', 'Time, and in parentheses the ratio to the C reference.', '']
        rows = []
        for metric, title, unit in OPERATIONS:
            base = least.get(('reference', w, metric))
            row = ['%s, %s' % (title, unit)]
            for p in PEERS:
                v = least.get((p, w, metric))
                row.append('' if v is None else span(v) if base is None or p == 'reference' else '%s (%s)' % (span(v), ratio(v / base)))
            rows.append(row)
        base = least['reference', w, 'bytes']
        rows.append(['bytes a statement'] + ['%.0f' % least[p, w, 'bytes'] + ('' if p == 'reference' else ' (%s)' % ratio(least[p, w, 'bytes'] / base)) for p in PEERS])
        out += table([''] + [TITLES[p] for p in PEERS], rows)

    with open(os.path.join(folder, 'RESULTS.md'), 'w') as f:
        f.write('\n'.join(out).rstrip() + '\n')
    with open(os.path.join(folder, 'growth.svg'), 'w') as f:
        f.write(growth.picture(least, [w for w in workloads if w.startswith('relay-')], PEERS, TITLES))


def by_kind(counts):
    """What COUNTS.csv has of instructions, units and endings, each {(workload, peer, metric): number}."""
    kept = {'instructions': {}, 'units': {}, 'endings': {}}
    for workload, what, peer, metric, value in counts:
        kept[what][workload, peer, metric] = float(value)
    return kept.values()


def against(each):
    """Cells for a figure of the library, and of the two references with the ratio to each."""
    cells = ['%.0f' % each['library']]
    for p in COUNTED[1:]:
        cells += ['%.0f' % each[p], ratio(each['library'] / each[p])] if p in each else ['', '']
    return cells


def instructions(counts):
    """The tables of instruction counts: each operation on the first workload, and what the string ending costs on the last."""
    number, units, endings = by_kind(counts)
    plain, typed = counts[0][0], counts[-1][0]

    out = ['## Instructions, %s' % plain, '',
           'Counted by callgrind: no other work on the machine changes them. "With refusals" is the reference compiled with the tests of refusals 1, 6, 7, 9 and 13 and '
           'with classes of bytes by ranges in place of a table, as the library has them. A reclaim\'s 9, the soundness check, is the library\'s alone.', '']
    by_unit = {k: number[k] / units[k] for k in number if k in units}
    less_checks(by_unit, 0)
    rows = []
    for metric, title, unit in OPERATIONS:
        each = {p: by_unit[plain, p, metric] for p in COUNTED if (plain, p, metric) in by_unit}
        if 'library' not in each:
            continue
        rows.append(['%s, %s' % (title, unit)] + against(each))
    out += table(COUNTS_HEAD, rows)

    lines, names = endings[typed, '', 'parse'], endings[typed, '', 'find']
    out += ['## Instructions, the string ending', '',
            'What a literal with the string ending takes beyond the same one without it: %s less %s, divided by the %.0f lines and the %.0f names found that have it.'
            % (typed, plain, lines, names), '']
    rows = []
    for metric, title, _ in OPERATIONS[:3]:
        each = {p: (number[typed, p, metric] - number[plain, p, metric]) / endings[typed, '', metric] for p in COUNTED}
        rows.append(['%s, a literal' % title] + against(each))
    return out + table(COUNTS_HEAD, rows)


def chain(workload, ns, counts):
    """The walk along one chain of retracted records: its times, and its instructions where they were counted."""
    out = ['## A chain of retracted records', '',
           '%s with every statement retracted: a listing with the predicate bound is opened, and one next call walks the whole chain and ends. For each record visited.'
           % workload, '']
    out += table(['', 'library', 'C reference', 'ratio', 'reference against itself'],
                 [['time', span(ns['library']), span(ns['reference']), ratio(ns['library'] / ns['reference']), '%.2f' % (ns['again'] / ns['reference'])]])
    if counts:
        number, units, _ = by_kind(counts)
        out += table(COUNTS_HEAD, [['instructions'] + against({p: number[workload, p, WALK] / units[workload, p, WALK] for p in COUNTED})])
    return out


main()
