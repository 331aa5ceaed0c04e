"""The picture of growth: time for each operation against the size of the store, a panel for each operation, a line for each peer."""
import math

PANELS = [
    ('load', 'load, a statement'),
    ('find', 'find a name'),
    ('lookup', 'bound lookup'),
    ('list-s', 'list, one bound, a record'),
    ('list-sp', 'list, two bound, a record'),
    ('join', 'three-pattern join'),
    ('retract', 'retract'),
    ('check', 'soundness check, a statement'),
]
COLOURS = {'library': '#c2410c', 'reference': '#1f2937', 'serd+sord': '#2563eb', 'sqlite': '#15803d', 'lmdb': '#7e22ce'}
DASHES = {'reference': '5 3'}
ACROSS, WIDE, HIGH, LEFT, TOP, GAP_X, GAP_Y = 4, 190, 150, 62, 84, 62, 62


def label(ns):
    """A power of ten of nanoseconds, short."""
    for limit, unit, by in ((1e3, 'ns', 1), (1e6, 'µs', 1e3), (1e9, 'ms', 1e6)):
        if ns < limit:
            return '%g %s' % (ns / by, unit)
    return '%g s' % (ns / 1e9)


def text(x, y, s, anchor='middle', size=11, colour='#374151', weight='normal'):
    return '<text x="%.1f" y="%.1f" text-anchor="%s" font-size="%d" fill="%s" font-weight="%s">%s</text>' % (x, y, anchor, size, colour, weight, s)


def panel(x0, y0, title, lines, sizes):
    """One panel: axes, grid, and a line with its points for each peer that has the operation."""
    seen = [v for points in lines.values() for _, v in points]
    low, high = math.floor(math.log10(min(seen))), math.ceil(math.log10(max(seen)))
    if high == low:
        high += 1
    x_low, x_high = math.log10(min(sizes)), math.log10(max(sizes))

    def at(size, ns):
        return (x0 + 8 + (WIDE - 16) * (math.log10(size) - x_low) / ((x_high - x_low) or 1),
                y0 + HIGH - HIGH * (math.log10(ns) - low) / (high - low))

    out = ['<rect x="%d" y="%d" width="%d" height="%d" fill="#fafafa" stroke="#9ca3af"/>' % (x0, y0, WIDE, HIGH),
           text(x0 + WIDE / 2, y0 - 9, title, size=12, colour='#111827', weight='bold')]
    for power in range(low, high + 1):
        y = at(min(sizes), 10.0 ** power)[1]
        out.append('<line x1="%d" y1="%.1f" x2="%d" y2="%.1f" stroke="#e5e7eb"/>' % (x0, y, x0 + WIDE, y))
        out.append(text(x0 - 6, y + 4, label(10.0 ** power), 'end', 10))
    for size in sizes:
        x = at(size, 10.0 ** low)[0]
        out.append('<line x1="%.1f" y1="%d" x2="%.1f" y2="%d" stroke="#e5e7eb"/>' % (x, y0, x, y0 + HIGH))
        out.append(text(x, y0 + HIGH + 15, '{:,}'.format(size), size=10))
    for peer, points in lines.items():
        where = [at(size, ns) for size, ns in points]
        dash = ' stroke-dasharray="%s"' % DASHES[peer] if peer in DASHES else ''
        out.append('<polyline points="%s" fill="none" stroke="%s" stroke-width="2"%s/>' % (' '.join('%.1f,%.1f' % p for p in where), COLOURS[peer], dash))
        out += ['<circle cx="%.1f" cy="%.1f" r="3" fill="%s"/>' % (x, y, COLOURS[peer]) for x, y in where]
    return out


def picture(least, workloads, peers, titles):
    """The whole picture as SVG text."""
    sizes = [int(w.rsplit('-', 1)[1]) for w in workloads]
    rows = -(-len(PANELS) // ACROSS)
    width, height = LEFT + ACROSS * (WIDE + GAP_X) - GAP_X + 24, TOP + rows * (HIGH + GAP_Y) - 30
    out = ['<svg xmlns="http://www.w3.org/2000/svg" viewBox="0 0 %d %d" width="%d" height="%d" font-family="sans-serif">' % (width, height, width, height),
           '<rect width="100%" height="100%" fill="#ffffff"/>',
           text(LEFT, 24, 'Time per operation against statements in the store (relay workload, both axes logarithmic)', 'start', 15, '#111827', 'bold')]
    x = LEFT
    for peer in peers:
        dash = ' stroke-dasharray="%s"' % DASHES[peer] if peer in DASHES else ''
        out.append('<line x1="%d" y1="43" x2="%d" y2="43" stroke="%s" stroke-width="2.5"%s/>' % (x, x + 26, COLOURS[peer], dash))
        out.append(text(x + 32, 47, titles[peer], 'start', 12, '#111827'))
        x += 60 + 8 * len(titles[peer])
    for i, (metric, title) in enumerate(PANELS):
        lines = {p: [(size, least[p, w, metric]) for size, w in zip(sizes, workloads) if (p, w, metric) in least] for p in peers}
        out += panel(LEFT + i % ACROSS * (WIDE + GAP_X), TOP + i // ACROSS * (HIGH + GAP_Y), title, {p: v for p, v in lines.items() if v}, sizes)
    return '\n'.join(out + ['</svg>', ''])
