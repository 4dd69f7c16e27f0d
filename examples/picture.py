#!/usr/bin/env python3
"""Parts a grey picture (PGM, at most 256 pixels) into a dark object and the rest, and draws what was found.

Each pixel is an element and weighs its grey less LEVEL, so what is darker than LEVEL speaks for the object; with --bright it is
what is brighter, and the weight is LEVEL less the grey. A border between
two neighbours, one in the object and one not, costs BORDER. The least set is the object. A slope moves LEVEL, so the slope at
which a pixel comes in, added to LEVEL, is its grey in a picture made smooth by the cost of borders (total variation).

    python3 picture.py data/cells.pgm --svg cells.svg

A stroke of a brush holds pixels in the object or out of it: --in and --out take a pixel ROW,COLUMN, counted from 0, or the straight
line between two of them, and stand as often as there are strokes. The object is then the least set of those that keep to them.

    python3 picture.py data/cells.pgm --in 5,2-5,9 --out 13,12 --svg cells.svg
"""
import argparse
import re
import sys
from collections import namedtuple

from answers import ask, leastset, solve
from faults import MOST_NAMES, Stop, fault, read_bytes, run_main, write_text

# The kind of a PGM, its width, height and greatest grey; a comment goes from # to the end of a line.
PGM_HEAD = re.compile(rb"(P[25])" + 3 * rb"(?:\s|#[^\n]*\n)+(\d+)" + rb"\s")
# The pixels on strokes, and what is least among the sets that keep to them.
Held = namedtuple("Held", "inside outside asked")
# A stroke: a pixel, or two of them with a line between.
STROKE = re.compile(r"([0-9]+),([0-9]+)(?:-([0-9]+),([0-9]+))?")
SMALLER = "ImageMagick makes one: convert PICTURE -colorspace Gray -resize 16x16 -depth 8 small.pgm"
CELL = 12
GAP = 28
# Colours of what is in a set and what is not, and of strokes.
IN, OUT = "#1f4e79", "#e8eef4"
HELD_IN, HELD_OUT = "#1b9e4b", "#e0301e"
# Colours of the heat map from early to late.
HEAT = [(59, 15, 112), (140, 41, 129), (222, 73, 104), (254, 159, 109), (252, 253, 191)]


def plain_greys(path, data, start):
    """The greys of a plain picture, each with its line; a comment goes from # to the end of a line."""
    first = data.count(b"\n", 0, start) + 1
    for number, line in enumerate(data[start:].split(b"\n"), first):
        for word in line.split(b"#")[0].split():
            if not re.fullmatch(rb"[0-9]+", word):
                raise fault(path, number, f"{word.decode('ascii', 'replace')!r} stands where a grey is due, a whole number")
            yield int(word), number


def read_pgm(path, most_pixels=MOST_NAMES):
    """The rows of a picture, each grey from 0 (black) to 255 (white). Plain (P2) and raw (P5) files are read."""
    data = read_bytes(path)
    head = PGM_HEAD.match(data)
    if not head:
        raise fault(path, 1, f"this is no PGM with its width, height and greatest grey. {SMALLER}")
    width, height, most = (int(word) for word in head.groups()[1:])
    if not 0 < width * height <= most_pixels:
        raise fault(path, None, f"it has {width} x {height} pixels, and 1 to {most_pixels:,} are taken. {SMALLER}")
    if not 0 < most < 256:
        raise fault(path, None, f"its greatest grey is {most}, and 1 to 255 are taken. {SMALLER}")
    if head[1] == b"P5":
        greys = [(grey, None) for grey in data[head.end() :]]
    else:
        greys = list(plain_greys(path, data, head.end()))
    count = width * height
    if len(greys) < count:
        raise fault(path, None, f"it ends after {len(greys)} greys, where {width} x {height} are due")
    for place, (grey, line) in enumerate(greys[:count]):
        if grey > most:
            where = f"row {place // width + 1}, column {place % width + 1}"
            raise fault(path, line, f"the grey of {where} is {grey}, and the greatest is said to be {most}")
    greys = [grey * 255 // most for grey, _ in greys[:count]]
    return [greys[row * width : (row + 1) * width] for row in range(height)]


def name(row, column):
    return f"r{row}c{column}"


def instance(rows, options):
    """A weight for each pixel, and for each two neighbours a concave line that costs BORDER where it has one of the two."""
    sign = -1 if options.bright else 1
    places = [(r, c) for r in range(len(rows)) for c in range(len(rows[0]))]
    picture = leastset.Instance(name(*place) for place in places)
    picture.weight({name(r, c): sign * (rows[r][c] - options.level) for r, c in places})
    for r, c in places:
        for r2, c2 in ((r, c + 1), (r + 1, c)):
            if r2 < len(rows) and c2 < len(rows[0]):
                picture.border(options.border, name(r, c), name(r2, c2))
    return picture


def pixels_of(strokes, rows):
    """The places of the pixels on strokes, in the order of the rows, none twice."""
    places = set()
    for stroke in strokes:
        found = STROKE.fullmatch(stroke)
        if not found:
            raise Stop(2, f"{stroke!r} is no stroke: a pixel is ROW,COLUMN, and a line ROW,COLUMN-ROW,COLUMN")
        r, c, r2, c2 = (int(number) for number in (*found.groups()[:2], found[3] or found[1], found[4] or found[2]))
        if max(r, r2) >= len(rows) or max(c, c2) >= len(rows[0]):
            raise Stop(2, f"{stroke!r} leaves the picture, which has {len(rows)} rows and {len(rows[0])} columns, counted from 0")
        steps = max(abs(r2 - r), abs(c2 - c), 1)
        # the nearest pixel to each step of the line, in whole numbers
        places |= {tuple((2 * a * (steps - i) + 2 * b * i + steps) // (2 * steps) for a, b in ((r, r2), (c, c2))) for i in range(steps + 1)}
    return sorted(places)


def held_by(rows, picture, options):
    """The pixels on the strokes, and what is least among the sets that keep to them. There always is such a set, as a picture has no
    needs."""
    inside, outside = pixels_of(options.inside, rows), pixels_of(options.outside, rows)
    for row, column in inside:
        if (row, column) in outside:
            raise Stop(2, f"the pixel {row},{column} is held in and held out")
    asked = ask(picture, [name(*place) for place in inside], [name(*place) for place in outside], options.instance)
    return Held(inside, outside, asked)


def mixed(share):
    """The colour of the heat map at a share from 0 to 1."""
    place = share * (len(HEAT) - 1)
    low = min(int(place), len(HEAT) - 2)
    part = place - low
    return "#" + "".join(f"{round(a + (b - a) * part):02x}" for a, b in zip(HEAT[low], HEAT[low + 1]))


def panel(rows, left, title, colour):
    """A title and a square for each pixel."""
    parts = [f'<text x="{left}" y="16">{title}</text>']
    for r, row in enumerate(rows):
        for c in range(len(row)):
            x, y = left + c * CELL, 24 + r * CELL
            parts.append(f'<rect x="{x}" y="{y}" width="{CELL}" height="{CELL}" fill="{colour(r, c)}"/>')
    return parts


def legend(left, top, width, low, high):
    """The colours of the heat map with the first and the last slope."""
    step = width / 40
    parts = [
        f'<rect x="{left + i * step:.1f}" y="{top}" width="{step + 0.3:.1f}" height="8" fill="{mixed(i / 39)}"/>' for i in range(40)
    ]
    parts.append(f'<text x="{left}" y="{top + 22}" class="small">{float(low):.1f}</text>')
    parts.append(f'<text x="{left + width}" y="{top + 22}" class="small" text-anchor="end">{float(high):.1f}</text>')
    return parts


def marks(left, places, colour):
    """A small square on each of the pixels that are held."""
    return [f'<rect x="{left + c * CELL + 3}" y="{24 + r * CELL + 3}" width="6" height="6" fill="{colour}"/>' for r, c in places]


def draw(rows, answer, held):
    """An SVG of three panels: the picture, the least set, and the slope at which each pixel comes in. With strokes: the picture with
    these, the least set, and the least one of those that keep to them."""
    slopes, least = {pixel: answer.slope_of(pixel) for pixel in answer.ground}, answer.least
    low, high = min(slopes.values()), max(slopes.values())
    width, height = len(rows[0]) * CELL, len(rows) * CELL
    lefts = [8 + i * (width + GAP) for i in range(3)]

    def grey(r, c):
        return f"#{rows[r][c]:02x}{rows[r][c]:02x}{rows[r][c]:02x}"

    def member(r, c):
        return IN if name(r, c) in least else OUT

    def kept(r, c):
        return IN if name(r, c) in held.asked.least else OUT

    def heat(r, c):
        return mixed(float((slopes[name(r, c)] - low) / (high - low))) if high > low else mixed(0)

    wide, tall = lefts[2] + width + 8, 24 + height + 36
    if held:
        last = panel(rows, lefts[2], "least set with strokes", kept)
        last += marks(lefts[0], held.inside, HELD_IN) + marks(lefts[0], held.outside, HELD_OUT)
        last.append(f'<text x="{lefts[0]}" y="{24 + height + 20}" class="small" style="fill: {HELD_IN}">held in</text>')
        last.append(f'<text x="{lefts[0] + 60}" y="{24 + height + 20}" class="small" style="fill: {HELD_OUT}">held out</text>')
    else:
        last = panel(rows, lefts[2], "slope at which it comes in", heat) + legend(lefts[2], 24 + height + 8, width, low, high)
    parts = [
        f'<svg xmlns="http://www.w3.org/2000/svg" width="{wide}" height="{tall}" viewBox="0 0 {wide} {tall}">',
        "<style>text { font: 13px sans-serif; fill: #222 } .small { font-size: 11px }</style>",
        f'<rect width="{wide}" height="{tall}" fill="#fff"/>',
        '<g shape-rendering="crispEdges">',
        *panel(rows, lefts[0], "picture", grey),
        *panel(rows, lefts[1], "least set", member),
        *last,
        "</g>",
        "</svg>",
    ]
    return "\n".join(parts) + "\n"


def main():
    parser = argparse.ArgumentParser(description=__doc__, formatter_class=argparse.RawDescriptionHelpFormatter)
    parser.add_argument("picture", help="a picture in PGM")
    parser.add_argument("--level", type=int, default=128, help="what is darker speaks for the object (128)")
    parser.add_argument("--bright", action="store_true", help="what is brighter than the level speaks for the object")
    parser.add_argument("--border", type=int, default=16, help="what a border between two pixels costs, from 0 (16)")
    parser.add_argument("--in", dest="inside", metavar="STROKE", action="append", default=[], help="pixels held in the object")
    parser.add_argument("--out", dest="outside", metavar="STROKE", action="append", default=[], help="pixels held out of it")
    parser.add_argument("--svg", help="where to draw what was found")
    parser.add_argument("--instance", help="where to keep the instance; its pins are kept beside it, in a file .pins")
    options = parser.parse_args()
    if not 0 <= options.border <= 10**12 or abs(options.level) > 10**9:
        parser.error("--border is from 0 to 10^12, and --level within 10^9 either way")
    rows = read_pgm(options.picture)
    picture = instance(rows, options)
    held = held_by(rows, picture, options) if options.inside or options.outside else None
    answer = solve(picture, options.instance)
    least = held.asked.least if held else answer.least
    for r, row in enumerate(rows):
        print("".join("#" if name(r, c) in least else "." for c in range(len(row))))
    pixels = f"{len(least)} of {len(rows) * len(rows[0])} pixels"
    if held:
        print(f"minimum {held.asked.minimum}, {pixels}, {len(held.inside)} held in and {len(held.outside)} held out")
        print(f"without strokes: minimum {answer.minimum}, {len(answer.least)} pixels")
    else:
        print(f"minimum {answer.minimum}, {pixels}, {len(answer.steps)} slopes")
    if options.svg:
        write_text(options.svg, draw(rows, answer, held))


if __name__ == "__main__":
    sys.exit(run_main(main))
