#!/usr/bin/env python3
"""flame.py [--total]: reads folded stacks from standard input and prints the picture of a flame view, or their total.

A line is names joined by semicolons, a space, a count. Equal stacks are added up; a box is a name under the same names, as
wide as its share of the whole, and beside one another they stand by name. The same text gives the same picture. A line
that is not so ends it with status 1.
"""

import re
import sys
from html import escape

WIDTH, HEIGHT, MARGIN, LETTER = 960, 22, 10, 7  # of the picture, of a row, around them, of a letter
COLOURS = ["#e4572e", "#f3a712", "#e8871e", "#edb458", "#d97b29"]


def stacks(text):
    """The names and the count of each line."""
    for number, line in enumerate(text.splitlines()):
        read = re.fullmatch(r"([^; ]+(?:;[^; ]+)*) ([0-9]+)", line)
        if not read:
            sys.exit(f"flame.py: line {number} is no folded stack: {line!r}")
        yield read[1].split(";"), int(read[2])


def added_up(lines):
    """A tree of boxes: each a count and the boxes above it by name."""
    root = [0, {}]
    for names, count in lines:
        root[0] += count
        box = root
        for name in names:
            box = box[1].setdefault(name, [0, {}])
            box[0] += count
    return root


def depth(box):
    return 1 + max(map(depth, box[1].values()), default=-1)


def boxes(box, scale, left, bottom):
    """The boxes above one, as SVG."""
    for name, own in sorted(box[1].items()):
        width = own[0] * scale
        fits = int((width - 6) / LETTER)
        label = next((label for label in (f"{name} {own[0]}", name) if len(label) <= fits), "")
        colour = COLOURS[sum(name.encode()) % len(COLOURS)]
        size = f'x="{left:.1f}" y="{bottom - HEIGHT}" width="{width:.1f}" height="{HEIGHT - 1}"'
        yield f'<g><title>{escape(name)}: {own[0]}</title><rect {size} rx="2" fill="{colour}"/>'
        yield f'<text x="{left + 4:.1f}" y="{bottom - 7}">{escape(label)}</text></g>' if label else "</g>"
        yield from boxes(own, scale, left, bottom - HEIGHT)
        left += width


def picture(root):
    height = HEIGHT * depth(root) + 2 * MARGIN
    scale = (WIDTH - 2 * MARGIN) / max(root[0], 1)
    size = f'width="{WIDTH}" height="{height}"'
    yield f'<svg xmlns="http://www.w3.org/2000/svg" {size} font-family="monospace" font-size="12">'
    yield f'<rect {size} fill="#fffaf0"/>'
    yield from boxes(root, scale, MARGIN, height - MARGIN)
    yield "</svg>"


def main(words):
    if words not in ([], ["--total"]):
        sys.exit("usage: flame.py [--total] <FOLDED")
    root = added_up(stacks(sys.stdin.read()))
    print(root[0] if words else "\n".join(picture(root)))


main(sys.argv[1:])
