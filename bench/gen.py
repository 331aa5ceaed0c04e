#!/usr/bin/python3
"""Write workloads and the questions asked of them, the same at every run.

    gen.py FOLDER WORKLOAD...      WORKLOAD: relay-T, typed-T, wide-T, cross-T or bay-T

  FOLDER/WORKLOAD.nt   exactly T distinct statements, in the order a site would load them
  FOLDER/WORKLOAD.q    questions, a line each, its fields separated by tabs:

    JOIN p1 p2 p3 into    the join's shape: (?x p1 K) (?x p2 ?y), and (?y p3 ?z), or (?z p3 ?y) where into is 1
    J k                   one join with K = k
    L s p o hit           all bound; hit is 1 if the statement is there (an absent one is made of names that are)
    S s, P p, O o         one bound
    SP s p, PO p o, SO s o   two bound
    B beginning n         the names that begin so, n of them
    W p                   every statement retracted, all of them on the chain of p: one walk along it, and no other question

Every workload stays within the limits of the store: 65,535 resources and statements, 1,048,576 bytes of text.
"""
import bisect
import random
import sys

SEED = 20090926
MAX_RESOURCES, MAX_TEXT, MAX_NAME = 65535, 1048576, 255
INT = '^^<http://www.w3.org/2001/XMLSchema#integer>'
STRING = '^^<http://www.w3.org/2001/XMLSchema#string>'
SCREENFUL = 25


def relay(T, rng):
    """Protection relays, bays, breakers, contacts, settings sheets, trip times."""
    seen, out = set(), []

    def add(s, p, o):
        t = (s, p, o)
        if t not in seen and len(out) < T:
            seen.add(t)
            out.append(t)

    n_times = max(200, T // 12)
    pool = ['"%d"%s' % (rng.randrange(8000, 95000), INT) for _ in range(n_times)]
    kinds = ['distance', 'differential', 'overcurrent', 'earth fault', 'breaker failure', 'busbar']
    bay = relay_no = breaker = contact = sheet = event = 0
    while len(out) < T:
        bay += 1
        y = '<y:%d>' % bay
        add(y, '<p:type>', '<t:Bay>')
        add(y, '<p:label>', '"Bay %d"@en' % bay)
        breakers = []
        for _ in range(rng.randint(2, 4)):
            breaker += 1
            b = '<b:%d>' % breaker
            breakers.append(b)
            add(b, '<p:type>', '<t:Breaker>')
            add(b, '<p:inBay>', y)
            add(b, '<p:label>', '"CB %d"' % breaker)
        for _ in range(rng.randint(4, 8)):
            relay_no += 1
            r = '<r:%d>' % relay_no
            add(r, '<p:type>', '<t:Relay>')
            add(r, '<p:inBay>', y)
            add(r, '<p:label>', '"R%d %s"' % (relay_no, rng.choice(kinds)))
            for b in rng.sample(breakers, rng.randint(1, len(breakers))):
                add(r, '<p:trips>', b)
            if relay_no > 3 and rng.random() < 0.2:
                add(r, '<p:trips>', '<b:%d>' % rng.randint(1, breaker))
            last = None
            for _ in range(rng.randint(1, 3)):
                sheet += 1
                s = '<s:%d>' % sheet
                add(r, '<p:hasSheet>', s)
                add(s, '<p:pickup>', '"%d"%s' % (rng.randrange(10, 400) * 5, INT))
                add(s, '<p:delay>', rng.choice(pool))
                if last:
                    add(s, '<p:supersedes>', last)
                last = s
            for _ in range(rng.randint(2, 6)):
                contact += 1
                c = '<c:%d>' % contact
                add(c, '<p:of>', r)
                add(c, '<p:time>', rng.choice(pool))
                if rng.random() < 0.5:
                    add(c, '<p:time>', rng.choice(pool))
                if rng.random() < 0.15:
                    event += 1
                    e = '_:e%d' % event
                    add(e, '<p:at>', c)
                    add(e, '<p:note>', '"tested \\"%s\\" by crew %d"' % (rng.choice(kinds), rng.randint(1, 9)))
    return out, ('<p:inBay>', '<p:trips>', '<p:label>', 0), ['<y:%d>' % (i + 1) for i in range(bay)]


def typed(T, rng):
    """The statements of relay, every literal that has neither tag nor datatype written with the string ending."""
    out, join, ks = relay(T, rng)
    return [(s, p, o + STRING if o.endswith('"') else o) for s, p, o in out], join, ks


def wide(T, rng):
    """Nearly as many resources as statements, entered in random byte order: the name index at its dearest."""
    n = (T - 1) // 2
    ids = rng.sample(range(16 ** 6), 2 * n)
    subj = ['<w:%06x>' % i for i in ids[:n]]
    obj = ['"%06x"' % i for i in ids[n:]]
    out, seen = [], set()
    for i in range(n):
        for o in (obj[i], obj[(i * 7 + 1) % n]):
            t = (subj[i], '<p:p>', o)
            if t not in seen and len(out) < T:
                seen.add(t)
                out.append(t)
    while len(out) < T:
        t = (rng.choice(subj), '<p:p>', rng.choice(obj))
        if t not in seen:
            seen.add(t)
            out.append(t)
    return out, ('<p:p>', '<p:p>', '<p:p>', 1), obj


def cross(T, rng):
    """Nearly a cross product of 42 x 40 x 40: document 000's worst case, chains of about n^(2/3)."""
    every = [('<s:%d>' % a, '<p:%d>' % b, '<o:%d>' % c) for a in range(42) for b in range(40) for c in range(40)]
    rng.shuffle(every)
    return every[:T], ('<p:0>', '<p:1>', '<p:2>', 1), ['<o:%d>' % c for c in range(5)]


def bay(T, rng):
    """One predicate between 256 relays and 256 breakers of a busy bay: every statement is on its chain. No join is asked."""
    return [('<r:%d>' % (i // 256 + 1), '<p:trips>', '<b:%d>' % (i % 256 + 1)) for i in range(T)], None, None


def queries(triples, join, ks, rng):
    if join is None:
        return ['W\t%s' % triples[0][1]]
    q = ['JOIN\t%s\t%s\t%s\t%d' % join]
    subj = sorted({t[0] for t in triples})
    pred = sorted({t[1] for t in triples})
    obj = sorted({t[2] for t in triples})
    have = set(triples)
    objects = set(obj)
    ks = [k for k in ks if k in objects]
    for k in rng.choices(ks, k=min(200, 4 * len(ks))) if len(ks) > 5 else ks:
        q.append('J\t%s' % k)
    for _ in range(2500):
        q.append('L\t%s\t%s\t%s\t1' % rng.choice(triples))
        while True:
            a, b = rng.choice(triples), rng.choice(triples)
            t = (a[0], rng.choice(pred), b[2])
            if t not in have:
                break
        q.append('L\t%s\t%s\t%s\t0' % t)
    for _ in range(1500):
        q.append('S\t%s' % rng.choice(subj))
    for p in pred:
        q.append('P\t%s' % p)
    for _ in range(1500):
        q.append('O\t%s' % rng.choice(obj))
    for _ in range(1500):
        t = rng.choice(triples)
        q.append('SP\t%s\t%s' % (t[0], t[1]))
        t = rng.choice(triples)
        q.append('PO\t%s\t%s' % (t[1], t[2]))
        t = rng.choice(triples)
        q.append('SO\t%s\t%s' % (t[0], t[2]))
    names = sorted({x.removesuffix(STRING) for t in triples for x in t})
    for _ in range(1500):
        q.append('B\t%s\t%d' % screenful(rng.choice(names), names))
    return q


def screenful(name, names):
    """The shortest beginning of a name that at most a screenful of the names has, and how many have it. No name has a byte above 126."""
    for cut in range(1, len(name) + 1):
        n = bisect.bisect(names, name[:cut] + '\x7f') - bisect.bisect_left(names, name[:cut])
        if n <= SCREENFUL:
            return name[:cut], n


MAKERS = {'relay': relay, 'typed': typed, 'wide': wide, 'cross': cross, 'bay': bay}
SEED_OF = {'typed': 'relay'}


def main():
    folder, workloads = sys.argv[1], sys.argv[2:]
    for workload in workloads:
        name, size = workload.rsplit('-', 1)
        T = int(size)
        rng = random.Random('%d %s %d' % (SEED, SEED_OF.get(name, name), T))
        triples, join, ks = MAKERS[name](T, rng)
        names = {x for t in triples for x in t}
        text = sum(len(x) + 1 for x in names)
        assert len(triples) == len(set(triples)) == T and len(names) <= MAX_RESOURCES
        assert text <= MAX_TEXT and max(map(len, names)) <= MAX_NAME
        with open('%s/%s.nt' % (folder, workload), 'w') as f:
            f.writelines('%s %s %s .\n' % t for t in triples)
        with open('%s/%s.q' % (folder, workload), 'w') as f:
            f.write('\n'.join(queries(triples, join, ks, rng)) + '\n')
        print('%s: %d resources, %d predicates, %d bytes of text' % (workload, len(names), len({t[1] for t in triples}), text))


main()
