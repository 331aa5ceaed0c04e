#!/usr/bin/env python3
"""A dialogue with the shell, from standard input, as a picture of a terminal:

    python3 crates/shell/reference.py --dialogue crates/shell/data/bay.nt < crates/shell/stdin |
        sed -n '/^> totals/,/^solutions 3/p;/^solutions 3/q' | python3 docs/terminal.py "shell bay.nt" > docs/terminal.svg
    python3 crates/shell/reference.py --dialogue samples/whole-station.nt < docs/station.txt |
        python3 docs/terminal.py "shell samples/whole-station.nt" > docs/station.svg

Lines that begin with `> ` were typed; others are answers. A line over 100 columns goes on in the next, as in a terminal."""
import re
import sys
from xml.sax.saxutils import escape

COLUMNS, WIDTH, HEIGHT = 100, 8.43, 20  # columns; width of a column, height of a line
LEFT, BAR, GAP = 22, 36, 7  # margin; window bar; a little room before what is typed next
STYLE = """\
text{font:14px "DejaVu Sans Mono",Menlo,Consolas,"Liberation Mono",monospace;fill:#c9d1d9;white-space:pre}
.title{fill:#8b949e;font-size:13px;text-anchor:middle}.prompt{fill:#6e7681}.typed{fill:#f4e04d}.comment{fill:#7d9a6b}
.header{fill:#6cc7f2}.refused{fill:#ff7b72}.end{fill:#8b949e}"""


def classes(lines):
    """Each line with its class: the header is an answer's first line, a refusal goes on in the line and the caret below it."""
    last, left = "", 0
    for line in lines:
        left -= 1
        if line.startswith("> "):
            kind = "comment" if line[2:].lstrip().startswith("#") else "typed"
        elif line.startswith("refused "):
            kind, left = "refused", 3 if " at column " in line else 1
        elif left > 0:
            kind = "refused"
        elif line.startswith("?") and last == "typed":
            kind = "header"
        else:
            kind = "end" if re.fullmatch(r"(solutions|statements|names) \d+( visits \d+)?", line) else "answer"
        yield line, kind
        last = kind


def text(line, kind, y):
    """The runs of a line, each at its own column, so that columns stand under each other in any type."""
    for run in re.finditer(r"\S+(?: \S+)*", line):
        words = escape(run[0])
        if kind in ("typed", "comment") and run.start() == 0 and line.startswith("> "):
            words = f'<tspan class="prompt">&gt;</tspan>{words[4:]}'
        if kind == "typed":
            words = re.sub(r"\?\w+", r'<tspan class="header">\g<0></tspan>', words)
        name = "" if kind == "answer" else f' class="{kind}"'
        yield f'<text{name} x="{LEFT + run.start() * WIDTH:.1f}" y="{y}" textLength="{len(run[0]) * WIDTH:.1f}">{words}</text>'


def picture(title, lines):
    y, body, last = BAR + 26, [], "typed"
    for line, kind in classes(lines):
        if line.startswith("> ") and last not in ("typed", "comment"):
            y += GAP
        for at in range(0, max(len(line), 1), COLUMNS):
            body += text(line[at:at + COLUMNS], kind, y)
            y += HEIGHT
        last = kind
    y += GAP
    wide = round(2 * LEFT + WIDTH * max([60] + [min(len(line), COLUMNS) for line in lines]))
    high = y + 18
    dots = "".join(f'<circle cx="{x}" cy="18" r="6" fill="{c}"/>' for x, c in ((22, "#ff5f57"), (42, "#febc2e"), (62, "#28c840")))
    return "\n".join([
        f'<svg xmlns="http://www.w3.org/2000/svg" viewBox="0 0 {wide} {high}" width="{wide}" height="{high}" role="img">',
        f"<title>{escape(title)}</title>", f"<style>{STYLE}</style>",
        f'<rect x=".5" y=".5" width="{wide - 1}" height="{high - 1}" rx="9" fill="#0d1117" stroke="#30363d"/>',
        f'<path d="M1 {BAR}V10a9 9 0 0 1 9-9H{wide - 10}a9 9 0 0 1 9 9V{BAR}Z" fill="#21262d"/>', dots,
        f'<text class="title" x="{wide / 2:g}" y="23">{escape(title)}</text>', *body,
        f'<text class="prompt" x="{LEFT}" y="{y}">&gt;</text>',
        f'<rect x="{LEFT + 2 * WIDTH:.1f}" y="{y - 12}" width="{WIDTH}" height="16" fill="#c9d1d9"/>', "</svg>", ""])


if __name__ == "__main__":
    if len(sys.argv) != 2:
        sys.exit("python3 docs/terminal.py TITLE < dialogue > docs/terminal.svg")
    given = sys.stdin.buffer.read().decode("utf-8", "replace").splitlines()
    sys.stdout.write(picture(sys.argv[1], [re.sub(r"[^ -~]", "?", line.expandtabs(8)) for line in given]))
