#!/usr/bin/env python3
"""Finds how well a network holds together, where it is densest, and its parts from the densest on.

EDGES is a list of edges, two names of vertices a line (at most 256 edges; `#` begins a comment). A third column has what an edge
is worth, a whole number from 1, or {'weight': 3}, as networkx writes it; an edge without one is worth 1. The instance is one
rank line: how many edges a part needs to join what it joins; what edges are worth are sizes, by which `sfm weigh` counts. The
first slope is 1 over the greatest density, the most worth of edges for each vertex but one of a part; the last slope is 1 over the
strength, the least worth of edges that must be cut for each further piece.

    python3 network.py data/karate.edges --svg karate.svg
"""
import argparse
import ast
import re
import sys
from collections import namedtuple

from answers import in_lines, leastset, solve
from faults import MOST_NAMES, fault, name_of, read_text, run_main, whole_of, write_text

SIZE = 460
# Colours of the parts from the densest on; the last one serves for all further parts.
COLOURS = ["#b2182b", "#ef8a62", "#e0a800", "#5aae61", "#4393c3", "#2166ac", "#762a83", "#777777"]
MOST_WORTH = 10**6

Edge = namedtuple("Edge", "u v worth")


def words_of(path, number, line):
    """The words of a line, with the weight that stands in braces behind them in their place."""
    found = re.fullmatch(r"([^{#]*)(\{.*\})\s*", line)
    if not found:
        return line.split("#")[0].split()
    try:
        weight = ast.literal_eval(found[2]).get("weight")
    except (ValueError, SyntaxError, AttributeError):
        raise fault(path, number, f"{found[2]} is not what networkx writes, such as {{'weight': 3}}")
    return found[1].split() + ([] if weight is None else [str(weight)])


def worth_of(path, number, text):
    """What an edge is worth: 3, and 3.0 as well, as networkx may write it."""
    worth = whole_of(path, number, "the worth of the edge", re.sub(r"\.0+$", "", text))
    if not 1 <= worth <= MOST_WORTH:
        raise fault(path, number, f"the worth of the edge is {worth}, and it is from 1 to {MOST_WORTH:,}")
    return worth


def read_edges(path):
    """The edges of a file."""
    edges = []
    for number, line in enumerate(read_text(path).splitlines(), 1):
        words = words_of(path, number, line)
        if not words:
            continue
        if len(words) not in (2, 3):
            what = "one name stands" if len(words) == 1 else f"{len(words)} words stand"
            raise fault(path, number, f"{what} here, where an edge has two names with a space between, and its worth behind them")
        ends = [name_of(path, number, word) for word in words[:2]]
        edges.append(Edge(*ends, worth_of(path, number, words[2]) if len(words) == 3 else 1))
        if len(edges) > MOST_NAMES:
            raise fault(path, number, f"this is one edge more than {MOST_NAMES}, the most that an instance has")
    if not edges:
        raise fault(path, None, "no edge stands in it")
    if worth(edges) > MOST_WORTH:
        raise fault(path, None, f"its edges are worth {worth(edges):,} together, and {MOST_WORTH:,} are taken")
    return edges


def worth(edges):
    return sum(edge.worth for edge in edges)


def name(place):
    return f"e{place + 1}"


def sizes_of(edges):
    """What edges are worth, where some are not worth 1; else nothing, since elements without sizes count as 1 each."""
    return {name(place): edge.worth for place, edge in enumerate(edges)} if worth(edges) > len(edges) else None


def instance(edges):
    """The edges are the elements e1, e2 and so on of one graphic rank."""
    links = {name(place): (edge.u, edge.v) for place, edge in enumerate(edges)}
    network = leastset.Instance(links)
    network.rank_graphic(1, links)
    return network


def joined(edges):
    """The vertices of each connected piece that these edges make, in the order in which they are met."""
    label = {vertex: vertex for edge in edges for vertex in edge[:2]}
    for u, v, _ in edges:
        old, new = label[v], label[u]
        if old != new:
            label = {vertex: new if it == old else it for vertex, it in label.items()}
    pieces = {}
    for vertex, it in label.items():
        pieces.setdefault(it, []).append(vertex)
    return list(pieces.values())


def parts(edges, answer):
    """For each slope: the slope, the edges that come in, and the pieces that are new when they are in."""
    found, known = [], []
    for step in answer.steps:
        new = [edges[int(it[1:]) - 1] for it in step.new]
        pieces = joined([edges[int(it[1:]) - 1] for it in step.members])
        found.append((step.slope, new, [piece for piece in pieces if piece not in known]))
        known = pieces
    return found


def by_length(name):
    """So that 2 stands before 10."""
    return len(name), name


def counted(edges):
    count = "1 edge" if len(edges) == 1 else f"{len(edges)} edges"
    return count if worth(edges) == len(edges) else f"{count} worth {worth(edges)}"


def tell(edges, found):
    """What the slopes say, as lines of text. A slope of 0 is that of edges from a vertex to itself."""
    vertices = {vertex for edge in edges for vertex in edge[:2]}
    lines = [f"{len(vertices)} vertices, {counted(edges)}"]
    slopes = [slope for slope, _, _ in found if slope > 0]
    if slopes:
        lines.append(f"strength {1 / slopes[-1]}, greatest density {1 / slopes[0]}")
    for number, (slope, new, pieces) in enumerate(found, 1):
        lines.append(f"part {number}: {counted(new)} at slope {slope}")
        lines += [f"  joins {len(piece)} vertices\n{in_lines(sorted(piece, key=by_length))}" for piece in pieces]
    return lines


def distances(edges):
    """For each two vertices the fewest edges from one to the other; the number of vertices where there is no way."""
    vertices = list(dict.fromkeys(vertex for edge in edges for vertex in edge[:2]))
    beside = {vertex: set() for vertex in vertices}
    for u, v, _ in edges:
        beside[u].add(v)
        beside[v].add(u)
    found = {}
    for start in vertices:
        level, steps, seen = [start], 0, {start: 0}
        while level:
            steps += 1
            level = list(dict.fromkeys(far for near in level for far in sorted(beside[near]) if far not in seen))
            seen.update((vertex, steps) for vertex in level)
        found[start] = {vertex: seen.get(vertex, len(vertices)) for vertex in vertices}
    return found


def round_square(way):
    """The point that lies so far along the sides of a square, from 0 to 4."""
    side, rest = int(way), way - int(way)
    return [(rest, 0.0), (1.0, rest), (1 - rest, 1.0), (0.0, 1 - rest)][side]


def places(edges, rounds=300):
    """A place for each vertex, as far from each other one as the fewest edges between them say, as nearly as can be."""
    far = distances(edges)
    vertices = list(far)
    # the first places lie round a square, so that each run gives the same picture
    at = {vertex: round_square(4 * i / len(vertices)) for i, vertex in enumerate(vertices)}
    for _ in range(rounds):
        for u in vertices:
            x = y = total = 0.0
            for v in vertices:
                if u != v:
                    weight = 1 / far[u][v]
                    dx, dy = at[u][0] - at[v][0], at[u][1] - at[v][1]
                    length = (dx * dx + dy * dy) ** 0.5 or 1e-9
                    x += weight * (at[v][0] + far[u][v] * dx / length)
                    y += weight * (at[v][1] + far[u][v] * dy / length)
                    total += weight
            if total:
                at[u] = (x / total, y / total)
    return at


def scaled(at):
    """The same places in a square of SIZE, with a margin."""
    xs, ys = [x for x, _ in at.values()], [y for _, y in at.values()]
    span = max(max(xs) - min(xs), max(ys) - min(ys)) or 1
    left, top = (min(xs) + max(xs) - span) / 2, (min(ys) + max(ys) - span) / 2
    room = SIZE - 40
    return {vertex: (20 + (x - left) / span * room, 20 + (y - top) / span * room) for vertex, (x, y) in at.items()}


def draw(edges, found):
    """An SVG of the graph. An edge has the colour of its part, a vertex that of the first part that has one of its edges."""
    at = scaled(places(edges))
    tall = SIZE + 12 + 22 * len(found[: len(COLOURS)])
    lines, discs, key, first = [], [], [], {}
    for number, (slope, new, _) in enumerate(found):
        colour = COLOURS[min(number, len(COLOURS) - 1)]
        for u, v, _ in new:
            first.setdefault(u, colour)
            first.setdefault(v, colour)
            (x1, y1), (x2, y2) = at[u], at[v]
            ends = f'x1="{x1:.1f}" y1="{y1:.1f}" x2="{x2:.1f}" y2="{y2:.1f}"'
            lines.append(f'<line {ends} stroke="{colour}" stroke-width="2" stroke-opacity="0.75"/>')
        if number < len(COLOURS):
            y = SIZE + 16 + 22 * number
            key.append(f'<rect x="20" y="{y - 10}" width="12" height="12" fill="{colour}"/>')
            behind = " and what follows" if number == len(COLOURS) - 1 and len(found) > len(COLOURS) else ""
            key.append(f'<text x="40" y="{y}">part {number + 1}: {counted(new)} at slope {slope}{behind}</text>')
    for vertex, (x, y) in at.items():
        discs.append(f'<circle cx="{x:.1f}" cy="{y:.1f}" r="10" fill="{first[vertex]}" stroke="#fff"/>')
        discs.append(f'<text x="{x:.1f}" y="{y + 3:.1f}" class="name">{vertex}</text>')
    parts = [
        f'<svg xmlns="http://www.w3.org/2000/svg" width="{SIZE}" height="{tall}" viewBox="0 0 {SIZE} {tall}">',
        "<style>text { font: 13px sans-serif; fill: #222 } .name { font-size: 9px; fill: #fff; text-anchor: middle }</style>",
        f'<rect width="{SIZE}" height="{tall}" fill="#fff"/>',
        *lines,
        *discs,
        *key,
        "</svg>",
    ]
    return "\n".join(parts) + "\n"


def main():
    parser = argparse.ArgumentParser(description=__doc__, formatter_class=argparse.RawDescriptionHelpFormatter)
    parser.add_argument("edges", help="a list of edges")
    parser.add_argument("--svg", help="where to draw the network")
    parser.add_argument("--instance", help="where to keep the instance, and its sizes in FILE.sizes")
    options = parser.parse_args()
    edges = read_edges(options.edges)
    found = parts(edges, solve(instance(edges), options.instance, sizes_of(edges)))
    print("\n".join(tell(edges, found)))
    if options.svg:
        write_text(options.svg, draw(edges, found))


if __name__ == "__main__":
    sys.exit(run_main(main))
