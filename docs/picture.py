#!/usr/bin/env python3
"""Draws a mount from what the demo prints: what each slot's header said, who holds the name after the mount and why, and what the headers
say then. In the repository's root: ./run demo | docs/picture.py > docs/mount.svg"""

import re
import sys
from html import escape

WIDE, HIGH, GAP, LEFT, TOP = 190, 84, 18, 24, 64


def read(lines):
    """The demo's lines as numbers: headers before, holder, queue, headers after."""
    headers, holder, queue = [], None, []
    for line in lines:
        if m := re.fullmatch(r"slot (\d+): (.*)", line):
            said = re.fullmatch(r"claim of (.*), generation (\d+), length (\d+)", m[2])
            free = re.fullmatch(r"free, generation (\d+)", m[2])
            if said:
                headers.append(("claim", said[1], int(said[2]), int(said[3])))
            elif free:
                headers.append(("free", "", int(free[1]), 0))
            else:
                headers.append(("absent", "", None, 0))
        elif m := re.fullmatch(r"(.*): slot (\d+), generation (\d+), length (\d+)", line):
            holder = (m[1], int(m[2]), int(m[3]))
        elif m := re.fullmatch(r"free slots:((?: \d+)*)", line):
            queue = [int(n) for n in m[1].split()]
    half = len(headers) // 2
    return headers[:half], holder, queue, headers[half:]


def text(x, y, words, kind="line"):
    return f'<text x="{x}" y="{y}" class="{kind}">{escape(words)}</text>'


def box(x, y, kind, lines):
    out = [f'<rect x="{x}" y="{y}" width="{WIDE}" height="{HIGH}" rx="8" class="{kind}"/>']
    for i, (words, style) in enumerate(lines):
        out.append(text(x + 12, y + 24 + 20 * i, words, style))
    return out


def header_lines(slot, header):
    what, path, generation, length = header
    if what == "claim":
        return [(f"slot {slot} claims", "head"), (path, "path"), (f"generation {generation}, length {length}", "line")]
    if what == "free":
        return [(f"slot {slot} is free", "head"), (f"generation {generation}", "line")]
    return [(f"slot {slot}: no header", "head"), ("cut in the middle of a write", "line")]


def draw(lines):
    before, (name, winner, generation), queue, after = read(lines)
    claims = [(h[2], i) for i, h in enumerate(before) if h[0] == "claim"]
    losers = [i for _, i in claims if i != winner]
    wide = LEFT * 2 + len(before) * (WIDE + GAP) - GAP
    middle, bottom = TOP + HIGH + 34, TOP + HIGH + 132
    high = bottom + HIGH + 54
    out = [
        f'<svg xmlns="http://www.w3.org/2000/svg" viewBox="0 0 {wide} {high}" width="{wide}" height="{high}" role="img">',
        "<style>text{font-family:system-ui,sans-serif;fill:#223}.title{font-size:16px;font-weight:600}.head{font-size:14px;font-weight:600}"
        ".path{font-size:13px;font-family:ui-monospace,monospace}.line{font-size:12px}rect{stroke:#889;fill:#f6f7fa}"
        ".won{fill:#dff3e3;stroke:#2c8a46;stroke-width:2}.lost{fill:#fbe6e2;stroke:#b5482f;stroke-width:2}"
        "path{fill:none;stroke:#2c8a46;stroke-width:2}"
        ".gone{stroke:#b5482f;stroke-dasharray:5 4}</style>",
        f'<rect width="{wide}" height="{high}" style="fill:#fff;stroke:none"/>',
        text(LEFT, 32, "What the header of each slot says", "title"),
    ]
    for i, header in enumerate(before):
        kind = "won" if i == winner else "lost" if i in losers else "plain"
        out += box(LEFT + i * (WIDE + GAP), TOP, kind, header_lines(i, header))
    lost = " and ".join(f"slot {i}, with {before[i][2]}," for i in losers)
    for row, (words, style) in enumerate([
        (f"Mount: {name} goes to slot {winner}", "title"),
        (f"Its generation {generation} is the highest among the claims of that path, in whichever spelling; {lost} loses.", "line"),
        (
            "The loser is released under a new generation, and joins the free slots behind those that claimed nothing: "
            f"{', '.join(map(str, queue))}.",
            "line",
        ),
    ]):
        out.append(text(LEFT, middle + 6 + 22 * row, words, style))
    for i, header in enumerate(after):
        x = LEFT + i * (WIDE + GAP)
        kind = "won" if i == winner else "plain"
        out += box(x, bottom, kind, header_lines(i, header))
        style = "" if i == winner else ' class="gone"' if i in losers else None
        if style is not None:
            out.append(f'<path d="M{x + WIDE // 2} {TOP + HIGH} V{TOP + HIGH + 14}"{style}/>')
            out.append(f'<path d="M{x + WIDE // 2} {bottom - 14} V{bottom}"{style}/>')
    out.append(text(LEFT, bottom + HIGH + 32, "What the headers say after the mount: another mount finds the same holder.", "line"))
    return "\n".join(out + ["</svg>", ""])


if __name__ == "__main__":
    sys.stdout.write(draw(sys.stdin.read().splitlines()))
