#!/usr/bin/env python3
"""Parts a grey picture (PGM) of up to 1,000,000 pixels into a dark object and the rest, by regions of pixels that are alike.

The picture is cut into at most 256 rectangles: again and again the one that is least alike is cut in two across its longer side. Each
rectangle is an element. It weighs the greys of all its pixels, each less LEVEL, and its size is its area, so that at a slope each
pixel counts as if it were an element. A border between two neighbours costs BORDER for each pixel of its length, where it has one of
the two in the object. So a slope moves LEVEL, as in picture.py, for pictures that are too large for it.

    python3 regions.py data/lake.pgm --svg lake.svg
"""
import argparse
import heapq
import sys
from collections import Counter, namedtuple
from fractions import Fraction

from answers import leastset, solve
from faults import MOST_NAMES, run_main, write_text
from picture import legend, mixed, read_pgm

MOST_PIXELS = 10**6
GAP = 28
# How many greys the picture is drawn with.
GREYS = 8

Region = namedtuple("Region", "top left height width")


def pixels_of(region):
    return [
        (row, column)
        for row in range(region.top, region.top + region.height)
        for column in range(region.left, region.left + region.width)
    ]


def spread(rows, region):
    """How little the pixels are alike: the sum of the squared differences from their mean."""
    greys = [grey for row in rows[region.top : region.top + region.height] for grey in row[region.left : region.left + region.width]]
    return sum(grey * grey for grey in greys) - Fraction(sum(greys) ** 2, len(greys))


def halves(region):
    """The two parts of a region that is cut across its longer side."""
    top, left, height, width = region
    if height > width:
        return [Region(top, left, height // 2, width), Region(top + height // 2, left, height - height // 2, width)]
    return [Region(top, left, height, width // 2), Region(top, left + width // 2, height, width - width // 2)]


def regions_of(rows, count):
    """At most so many regions, in the order of their first pixels."""
    whole = Region(0, 0, len(rows), len(rows[0]))
    queue, done = [(-spread(rows, whole), whole)], []
    while queue and len(queue) + len(done) < count:
        worst, region = heapq.heappop(queue)
        if worst == 0:
            done.append(region)
        else:
            for half in halves(region):
                heapq.heappush(queue, (-spread(rows, half), half))
    return sorted(done + [region for _, region in queue])


def name(region):
    return f"r{region.top}c{region.left}"


def sizes_of(regions):
    return {name(region): region.height * region.width for region in regions}


def borders_of(rows, regions):
    """For each two regions that touch how many pixels the border between them is long."""
    owner = {pixel: region for region in regions for pixel in pixels_of(region)}
    lengths = Counter()
    for (row, column), region in owner.items():
        for other in (owner.get((row, column + 1)), owner.get((row + 1, column))):
            if other is not None and other != region:
                lengths[min(region, other), max(region, other)] += 1
    return sorted(lengths.items())


def instance(rows, regions, options):
    """A weight for each region, and for each border a concave line that costs its length times BORDER where it parts the two."""
    sign = -1 if options.bright else 1
    picture = leastset.Instance(map(name, regions))
    picture.weight({name(region): sign * sum(rows[r][c] - options.level for r, c in pixels_of(region)) for region in regions})
    for (one, other), length in borders_of(rows, regions):
        picture.border(length * options.border, name(one), name(other))
    return picture


def photograph(rows, left, top, cell):
    """The picture in a few greys: for each grey one path, which has a stroke for each run of pixels."""
    strokes = {}
    for r, row in enumerate(rows):
        marks = [grey * GREYS // 256 for grey in row]
        start = 0
        for c in range(1, len(row) + 1):
            if c == len(row) or marks[c] != marks[start]:
                strokes.setdefault(marks[start], []).append(f"M{left + start * cell} {top + r * cell + cell // 2}h{(c - start) * cell}")
                start = c
    colours = {mark: f"{(2 * mark + 1) * 255 // (2 * GREYS):02x}" * 3 for mark in strokes}
    return [f'<path stroke="#{colours[mark]}" stroke-width="{cell}" d="{"".join(strokes[mark])}"/>' for mark in sorted(strokes)]


def panel(regions, left, top, cell, colour):
    """A rectangle for each region."""
    return [
        f'<rect x="{left + it.left * cell}" y="{top + it.top * cell}" width="{it.width * cell}" height="{it.height * cell}" '
        f'fill="{colour(name(it))}"/>'
        for it in regions
    ]


def draw(rows, regions, answer):
    """An SVG of three panels: the picture, the least set, and the slope at which each region comes in."""
    cell = max(2, 256 // max(len(rows), len(rows[0])) // 2 * 2)
    slopes, least = {element: answer.slope_of(element) for element in answer.ground}, answer.least
    low, high = min(slopes.values()), max(slopes.values())
    width, height, top = len(rows[0]) * cell, len(rows) * cell, 24
    lefts = [8 + i * (width + GAP) for i in range(3)]

    def member(element):
        return "#1f4e79" if element in least else "#e8eef4"

    def heat(element):
        return mixed(float((slopes[element] - low) / (high - low))) if high > low else mixed(0)

    titles = ("picture", "least set, by regions", "slope at which it comes in")
    wide, tall = lefts[2] + width + 8, top + height + 36
    parts = [
        f'<svg xmlns="http://www.w3.org/2000/svg" width="{wide}" height="{tall}" viewBox="0 0 {wide} {tall}">',
        "<style>text { font: 13px sans-serif; fill: #222 } .small { font-size: 11px } .edge rect { stroke: #fff; stroke-width: 0.5 }</style>",
        f'<rect width="{wide}" height="{tall}" fill="#fff"/>',
        *[f'<text x="{left}" y="16">{title}</text>' for left, title in zip(lefts, titles)],
        '<g shape-rendering="crispEdges">',
        *photograph(rows, lefts[0], top, cell),
        "</g>",
        '<g class="edge">',
        *panel(regions, lefts[1], top, cell, member),
        *panel(regions, lefts[2], top, cell, heat),
        "</g>",
        *legend(lefts[2], top + height + 8, width, low, high),
        "</svg>",
    ]
    return "\n".join(parts) + "\n"


def main():
    parser = argparse.ArgumentParser(description=__doc__, formatter_class=argparse.RawDescriptionHelpFormatter)
    parser.add_argument("picture", help="a picture in PGM")
    parser.add_argument("--regions", type=int, default=200, help=f"how many regions there are at most, from 1 to {MOST_NAMES} (200)")
    parser.add_argument("--level", type=int, default=128, help="what is darker speaks for the object (128)")
    parser.add_argument("--bright", action="store_true", help="what is brighter than the level speaks for the object")
    parser.add_argument("--border", type=int, default=16, help="what a pixel of a border costs, from 0 (16)")
    parser.add_argument("--svg", help="where to draw what was found")
    parser.add_argument("--instance", help="where to keep the instance, and its sizes in FILE.sizes")
    options = parser.parse_args()
    if not 1 <= options.regions <= MOST_NAMES:
        parser.error(f"--regions is from 1 to {MOST_NAMES}")
    if not 0 <= options.border <= 10**5 or abs(options.level) > 10**5:
        parser.error("--border is from 0 to 100,000, and --level within 100,000 either way")
    rows = read_pgm(options.picture, MOST_PIXELS)
    regions = regions_of(rows, options.regions)
    sizes = sizes_of(regions)
    answer = solve(instance(rows, regions, options), options.instance, sizes)
    area = sum(sizes[element] for element in answer.least)
    print(f"{len(rows[0])} x {len(rows)} pixels, {len(regions)} regions")
    print(f"minimum {answer.minimum}, {len(answer.least)} regions with {area} pixels, {len(answer.steps)} slopes")
    if options.svg:
        write_text(options.svg, draw(rows, regions, answer))


if __name__ == "__main__":
    sys.exit(run_main(main))
