#!/usr/bin/env python3
"""Draws the crates by layers from crates.txt, as docs/layers.svg: layers.py [--check]

In crates.txt a comment of one line names a layer, and the crates of the layer stand below it, the lowest layer first. Refused is a
crate without a layer, and one that uses a crate which stands behind it. So in the picture, from the bottom up and in a layer from the
left, a crate uses only those before it. With --check nothing is written, and the status is 1 where the picture is another.
"""
import os
import sys

TOP = os.path.dirname(os.path.dirname(os.path.abspath(__file__)))
PICTURE = os.path.join(TOP, "docs", "layers.svg")
WIDTH, NAMES, BOX, ROW, PAD, GAP = 1000, 215, 24, 32, 10, 10  # of the picture, the headings, a box, a row, a layer's edge, between boxes
COLOURS = ["#eef3fb", "#f7f4ea"]
TEXT = '<text x="%d" y="%d" font-size="%d" %s fill="#223">%s</text>'
RECT = '<rect x="%d" y="%d" width="%d" height="%d" rx="%d" fill="%s"%s/>'


def read_layers(path):
    """The layers in their order, each with its crates."""
    layers, before = [], set()
    with open(path, encoding="utf-8") as text:
        lines = [line.strip() for line in text if line.strip()]
    names = {line.split(":")[0].split()[0] for line in lines if not line.startswith("#")}
    for line in lines:
        if line.startswith("#"):
            layers.append((line.lstrip("#").strip(), []))
            continue
        name, uses = line.split(":")[0].split()[0], line.split("#")[0].split(":")[1].split()
        if not layers:
            sys.exit("crates.txt: %s stands in no layer" % name)
        later = [other for other in uses if other in names - before]
        if later:
            sys.exit("crates.txt: %s uses %s, which stands behind it" % (name, later[0]))
        before.add(name)
        layers[-1][1].append(name)
    return layers


def long(name):
    """How long the box of a name is."""
    return 8 * len(name) + 16


def rows_of(crates):
    """The crates of a layer with the left ends of their boxes, row by row."""
    rows, left = [[]], NAMES
    for name in crates:
        if left + long(name) > WIDTH - 20:
            rows.append([])
            left = NAMES
        rows[-1].append((name, left))
        left += long(name) + GAP
    return rows


def draw_layer(heading, rows, top, colour):
    """What is drawn of one layer, and how tall it is."""
    tall = len(rows) * ROW - (ROW - BOX) + 2 * PAD
    out = [RECT % (6, top, WIDTH - 12, tall, 6, colour, ""), TEXT % (20, top + tall / 2 + 5, 14, 'font-weight="bold"', heading)]
    for number, row in enumerate(rows):
        y = top + PAD + number * ROW
        for name, left in row:
            out.append(RECT % (left, y, long(name), BOX, 4, "#ffffff", ' stroke="#55617a"'))
            out.append(TEXT % (left + long(name) / 2, y + 16, 13, 'text-anchor="middle"', name))
    return out, tall


def draw(layers):
    """The picture, with the lowest layer at the bottom."""
    out, top = [], 8
    for number, (heading, crates) in reversed(list(enumerate(layers))):
        drawn, tall = draw_layer(heading, rows_of(crates), top, COLOURS[number % 2])
        out += drawn
        top += tall + 4
    size = (WIDTH, top + 4)
    head = '<svg xmlns="http://www.w3.org/2000/svg" viewBox="0 0 %d %d" font-family="Helvetica, Arial, sans-serif">' % size
    return "\n".join([head, '<rect width="%d" height="%d" fill="#ffffff"/>' % size] + out + ["</svg>", ""])


def main():
    picture = draw(read_layers(os.path.join(TOP, "crates.txt")))
    if "--check" in sys.argv[1:]:
        with open(PICTURE, encoding="utf-8") as kept:
            sys.exit(0 if kept.read() == picture else 1)
    with open(PICTURE, "w", encoding="utf-8") as out:
        out.write(picture)


if __name__ == "__main__":
    main()
