#!/usr/bin/env python3
"""Chooses projects that need one another, and draws what the choice costs and brings as a bounty for each project grows.

PROJECTS is a table in CSV with the columns name, cost, worth and needs (names with a space between), in any order, with commas
or semicolons between cells. Costs and worths are whole numbers. A choice takes with each project all that it needs (a closure).
The slopes say how the best choice grows as each project chosen brings a bounty more.

    python3 projects.py data/projects.csv --svg projects.svg
"""
import argparse
import csv
import math
import sys
from collections import namedtuple

from answers import in_lines, leastset, solve
from faults import MOST_NAMES, fault, name_of, read_text, run_main, whole_of, write_text

COLUMNS = ("name", "cost", "worth", "needs")
Project = namedtuple("Project", "cost worth needs")
WIDE, TALL, LEFT, TOP = 640, 300, 60, 40


def read_rows(path, wanted=COLUMNS):
    """The rows of a table, each with the number of its first line and its cells by the names of their columns."""
    text = read_text(path)
    heading = next((line for line in text.splitlines() if line.strip()), "")
    table = csv.reader(text.splitlines(), delimiter=";" if heading.count(";") > heading.count(",") else ",")
    columns, line = None, 1
    while True:
        try:
            cells = [cell.strip() for cell in next(table)]
        except StopIteration:
            return
        except csv.Error as error:
            raise fault(path, table.line_num, str(error))
        if columns is None and any(cells):
            columns = [cell.lower() for cell in cells]
            for column in wanted:
                if columns.count(column) != 1:
                    raise fault(path, line, f"the heading needs one column {column!r}, beside the others of {', '.join(wanted)}")
        elif any(cells):
            if len(cells) != len(columns):
                raise fault(path, line, f"{len(cells)} cells stand here, where the heading has {len(columns)}")
            yield line, dict(zip(columns, cells))
        line = table.line_num + 1


def read_projects(path):
    """The projects of a table by their names."""
    projects, lines = {}, {}
    for line, row in read_rows(path):
        name = name_of(path, line, row["name"])
        if name in projects:
            raise fault(path, line, f"the name {name} stands twice, first in line {lines[name]}")
        numbers = [whole_of(path, line, f"the {column} of {name}", row[column]) for column in ("cost", "worth")]
        projects[name], lines[name] = Project(*numbers, list(dict.fromkeys(row["needs"].split()))), line
        if len(projects) > MOST_NAMES:
            raise fault(path, line, f"this is one project more than {MOST_NAMES}, the most that an instance has")
    for name, project in projects.items():
        for other in project.needs:
            if other not in projects or other == name:
                what = "itself" if other == name else f"{other!r}, which is the name of no row"
                raise fault(path, lines[name], f"{name} needs {what} (names in 'needs' have a space between)")
    if not projects:
        raise fault(path, None, "no project stands in it")
    return projects


def instance(projects):
    """A project weighs its cost less its worth, and a choice that has it has what it needs."""
    choice = leastset.Instance(projects)
    choice.weight({name: it.cost - it.worth for name, it in projects.items()})
    for name, it in projects.items():
        for other in it.needs:
            choice.need(name, other)
    return choice


def curve(projects, answer):
    """For each slope: the slope, and what the choice from there on costs and is worth."""
    return [
        (step.slope, sum(projects[name].cost for name in step.members), sum(projects[name].worth for name in step.members))
        for step in answer.steps
    ]


def tell(projects, answer):
    """What is best, and the first slopes beyond it, as lines of text."""
    chosen = [projects[name] for name in answer.least]
    cost, worth = sum(it.cost for it in chosen), sum(it.worth for it in chosen)
    lines = [f"{len(projects)} projects, {len(answer.steps)} slopes"]
    lines.append(f"best: {len(chosen)} projects for {cost}, worth {worth}, gain {-answer.minimum}")
    lines.append(in_lines(answer.in_order(answer.least)))
    for step in [step for step in answer.steps if step.slope > 0][:3]:
        lines.append(f"with a bounty of {step.slope} for each: {len(step.new)} more, gain without it {-step.worth}")
        lines.append(in_lines(step.new))
    return lines


def stairs(points, across, up, last):
    """The path of a line that keeps its height from each point to the next one."""
    path = f"M{across(points[0][0]):.1f} {up(0):.1f}"
    for x, y in points:
        path += f" H{across(x):.1f} V{up(y):.1f}"
    return path + f" H{across(last):.1f}"


def axis(across, up, marks, heights):
    """Lines and numbers for the bounty across and for the money upwards."""
    parts = []
    for mark in marks:
        x = across(mark)
        parts.append(f'<line x1="{x:.1f}" y1="{TOP}" x2="{x:.1f}" y2="{TOP + TALL}" class="mark"/>')
        parts.append(f'<text x="{x:.1f}" y="{TOP + TALL + 16}" text-anchor="middle">{mark}</text>')
    for height in heights:
        y = up(height)
        parts.append(f'<line x1="{LEFT}" y1="{y:.1f}" x2="{LEFT + WIDE}" y2="{y:.1f}" class="mark"/>')
        parts.append(f'<text x="{LEFT - 6}" y="{y + 4:.1f}" text-anchor="end">{height}</text>')
    return parts


def rounded(least, greatest, count):
    """At most about so many round numbers from the one to the other."""
    steps = (digit * 10**power for power in range(16) for digit in (1, 2, 5))
    step = next(it for it in steps if (greatest - least) / it <= count)
    return range(math.ceil(least / step) * step, math.floor(greatest) + 1, step)


def draw(points):
    """An SVG of two lines over the bounty: what the best choice costs, and what it is worth."""
    first, last = min(0, points[0][0]), max(0, points[-1][0])
    margin = (last - first) / 20 or 1
    first, last = first - margin, last + margin
    most = max(max(cost, worth) for _, cost, worth in points) or 1

    def across(slope):
        return LEFT + float((slope - first) / (last - first)) * WIDE

    def up(money):
        return TOP + TALL - money / most * TALL

    costs = stairs([(slope, cost) for slope, cost, _ in points], across, up, last)
    worths = stairs([(slope, worth) for slope, _, worth in points], across, up, last)
    wide, tall = LEFT + WIDE + 20, TOP + TALL + 44
    parts = [
        f'<svg xmlns="http://www.w3.org/2000/svg" width="{wide}" height="{tall}" viewBox="0 0 {wide} {tall}">',
        "<style>text { font: 13px sans-serif; fill: #222 } .mark { stroke: #ddd } path { fill: none; stroke-width: 2 }</style>",
        f'<rect width="{wide}" height="{tall}" fill="#fff"/>',
        *axis(across, up, rounded(first, last, 12), rounded(0, most, 8)),
        f'<line x1="{across(0):.1f}" y1="{TOP}" x2="{across(0):.1f}" y2="{TOP + TALL}" stroke="#777"/>',
        f'<path d="{worths}" stroke="#1b7837"/>',
        f'<path d="{costs}" stroke="#b2182b"/>',
        f'<text x="{LEFT + 12}" y="22" style="fill: #1b7837">worth of the best choice</text>',
        f'<text x="{LEFT + 212}" y="22" style="fill: #b2182b">its cost</text>',
        f'<text x="{LEFT + WIDE}" y="{TOP + TALL + 36}" text-anchor="end">bounty for each project chosen (slope)</text>',
        "</svg>",
    ]
    return "\n".join(parts) + "\n"


def main():
    parser = argparse.ArgumentParser(description=__doc__, formatter_class=argparse.RawDescriptionHelpFormatter)
    parser.add_argument("projects", help="a table of projects in CSV")
    parser.add_argument("--svg", help="where to draw cost and worth")
    parser.add_argument("--instance", help="where to keep the instance")
    options = parser.parse_args()
    projects = read_projects(options.projects)
    answer = solve(instance(projects), options.instance)
    print("\n".join(tell(projects, answer)))
    if options.svg:
        write_text(options.svg, draw(curve(projects, answer)))


if __name__ == "__main__":
    sys.exit(run_main(main))
