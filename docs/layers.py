#!/usr/bin/env python3
"""Draws the layers from crates.txt: a band for each of its headings, the programs on top, and a line from a crate to each crate that it
names and that none of its others reaches. In the repository's root: docs/layers.py > docs/layers.svg"""

import sys
from html import escape
from pathlib import Path

WIDE, HIGH, GAP, LEFT, HEAD, BAND = 138, 26, 12, 20, 22, 22
ACROSS = 8


def read(text):
    """The headings with their crates in order, and each crate's dependencies that are crates of this repository."""
    bands, needs = [], {}
    for line in text.splitlines()[1:]:
        if line.startswith("#"):
            bands.append((line.lstrip("# "), []))
        elif ":" in line:
            name, rest = line.split(":", 1)
            name = name.removesuffix(" staticlib")
            bands[-1][1].append(name)
            needs[name] = rest.split()
    known = set(needs)
    return bands, {name: [n for n in rest if n in known] for name, rest in needs.items()}


def reach(needs):
    """What each crate reaches at all; a crate stands behind what it names."""
    found = {}
    for name in needs:
        found[name] = set(needs[name]).union(*[found[n] for n in needs[name]])
    return found


def reduced(needs):
    far = reach(needs)
    return {name: [n for n in rest if not any(n in far[o] for o in rest if o != n)] for name, rest in needs.items()}


def draw(bands, needs):
    places, out, y = {}, [], 16
    width = LEFT * 2 + ACROSS * WIDE + (ACROSS - 1) * GAP
    for title, names in reversed(bands):
        rows = [names[i : i + ACROSS] for i in range(0, len(names), ACROSS)]
        high = HEAD + len(rows) * (HIGH + GAP) + 4
        out.append(f'<rect x="8" y="{y}" width="{width - 16}" height="{high}" rx="8" class="band"/>')
        out.append(f'<text x="{LEFT}" y="{y + 16}" class="title">{escape(title)}</text>')
        for k, row in enumerate(reversed(rows)):
            start = (width - len(row) * WIDE - (len(row) - 1) * GAP) / 2
            for i, name in enumerate(row):
                places[name] = (start + i * (WIDE + GAP), y + HEAD + k * (HIGH + GAP))
        y += high + BAND
    lines, boxes = [], []
    for name, rest in reduced(needs).items():
        x, top = places[name]
        for other in rest:
            u, v = places[other]
            a, b, c, d = x + WIDE / 2, top + HIGH, u + WIDE / 2, v
            if v <= top:  # a crate of the same band: an arc over the boxes between
                lines.append(f'<path d="M{a:g} {top:g} C{a:g} {top - 14:g} {c:g} {v - 14:g} {c:g} {v:g}"/>')
            else:
                lines.append(f'<path d="M{a:g} {b:g} C{a:g} {b + 40:g} {c:g} {d - 40:g} {c:g} {d:g}"/>')
    for name, (x, top) in places.items():
        boxes.append(f'<rect x="{x:g}" y="{top:g}" width="{WIDE}" height="{HIGH}" rx="5" class="crate"/>')
        boxes.append(f'<text x="{x + WIDE / 2:g}" y="{top + 17:g}" class="name">{escape(name)}</text>')
    style = (
        "text{font-family:sans-serif;fill:#222}.title{font-size:12px;font-style:italic}.name{font-size:12px;text-anchor:middle}"
        ".band{fill:#f3f1ea;stroke:none}.crate{fill:#fff;stroke:#555}path{fill:none;stroke:#8a9bb0;stroke-width:1}"
    )
    head = f'<svg xmlns="http://www.w3.org/2000/svg" viewBox="0 0 {width} {y}" width="{width}" height="{y}">'
    return "\n".join([head, f"<style>{style}</style>", f'<rect width="{width}" height="{y}" fill="#fff"/>', *out, *lines, *boxes, "</svg>"])


if __name__ == "__main__":
    root = Path(__file__).resolve().parent.parent
    sys.stdout.write(draw(*read((root / "crates.txt").read_text(encoding="utf-8"))) + "\n")
