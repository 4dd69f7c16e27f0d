#!/usr/bin/env python3
"""Puts jobs in an order, where some wait for others and each hour until a job is done costs something (1|prec|sum w C).

JOBS is a table in CSV with the columns name, hours (from 1), waiting (what each hour until the job is done costs, from 0) and after
(names with a space between, of the jobs that have to be done before). One job is done at a time. What is to be least is the sum of
the waiting of each job times the hour at which it is done.

A job weighs its waiting, turned round, needs the jobs it comes after, and its size is its hours. Then the slopes tell groups of jobs:
some best order does them one after the other (Sidney's decomposition). Within a group of at most 14 jobs the best order is found by
trying all sets of them; in a larger one the next job is that which saves most for its hours, and no order costs less than half.

    python3 order.py data/storm.csv --svg storm.svg
"""
import argparse
import sys
from collections import namedtuple
from fractions import Fraction

from answers import in_lines, leastset, solve
from faults import MOST_NAMES, fault, name_of, run_main, whole_of, write_text
from projects import axis, read_rows, rounded

COLUMNS = ("name", "hours", "waiting", "after")
MOST_HOURS = 10**6
# The most jobs of which all sets are tried.
FEW = 14
# The most of which --all tries them.
MOST_TRIED = 18
WIDE, TALL, LEFT, TOP = 640, 300, 60, 40
COLOURS = ["#b2182b", "#ef8a62", "#e0a800", "#4d9221", "#1f78b4", "#6a3d9a", "#999999"]

Job = namedtuple("Job", "hours waiting after")


def read_jobs(path):
    """The jobs of a table by their names."""
    jobs, lines = {}, {}
    for line, row in read_rows(path, COLUMNS):
        name = name_of(path, line, row["name"])
        if name in jobs:
            raise fault(path, line, f"the name {name} stands twice, first in line {lines[name]}")
        hours, waiting = (whole_of(path, line, f"{column!r} of {name}", row[column]) for column in ("hours", "waiting"))
        if hours < 1 or waiting < 0:
            raise fault(path, line, f"{name} has {hours} hours and a waiting of {waiting}: hours are from 1, and waiting is from 0")
        jobs[name], lines[name] = Job(hours, waiting, list(dict.fromkeys(row["after"].split()))), line
        if len(jobs) > MOST_NAMES:
            raise fault(path, line, f"this is one job more than {MOST_NAMES}, the most that an instance has")
    for name, job in jobs.items():
        for other in job.after:
            if other not in jobs:
                raise fault(path, lines[name], f"{name} comes after {other!r}, which is the name of no row")
    if not jobs:
        raise fault(path, None, "no job stands in it")
    if sum(job.hours for job in jobs.values()) > MOST_HOURS:
        raise fault(path, None, f"its jobs take more than {MOST_HOURS:,} hours together")
    refuse_circles(path, jobs, lines)
    return jobs


def refuse_circles(path, jobs, lines):
    """A fault where some jobs wait for one another, so that none of them can be the first."""
    left = dict(jobs)
    while left:
        free = [name for name, job in left.items() if not any(other in left for other in job.after)]
        if not free:
            name = next(iter(left))
            raise fault(path, lines[name], f"{name} can't begin: it waits for jobs that wait for one another")
        for name in free:
            del left[name]


def instance(jobs):
    order = leastset.Instance(jobs)
    order.weight({name: -job.waiting for name, job in jobs.items()})
    for name, job in jobs.items():
        for other in job.after:
            order.need(name, other)
    return order


def best_order(jobs, names, start):
    """A best order of these jobs and what it costs, where all that they wait for besides is done at the hour `start`. It is found from
    set to set: the best order of a set ends in one of its jobs, behind a best order of the others."""
    index = {name: i for i, name in enumerate(names)}
    before = [sum(1 << index[other] for other in jobs[name].after if other in index) for name in names]
    found = {0: (0, start, ())}
    for _ in names:
        longer = {}
        for done, (cost, hour, order) in found.items():
            for i, name in enumerate(names):
                if not done >> i & 1 and before[i] & ~done == 0:
                    end = hour + jobs[name].hours
                    way = (cost + jobs[name].waiting * end, end, (*order, name))
                    if done | 1 << i not in longer or way < longer[done | 1 << i]:
                        longer[done | 1 << i] = way
        found = longer
    cost, _, order = next(iter(found.values()))
    return cost, list(order)


def greedy_order(jobs, names, start):
    """An order of these jobs that takes next, of those that wait for nothing, the one that saves most for its hours."""
    left, order, cost, hour = list(names), [], 0, start
    while left:
        free = [name for name in left if not any(other in left for other in jobs[name].after)]
        name = max(free, key=lambda it: Fraction(jobs[it].waiting, jobs[it].hours))
        hour += jobs[name].hours
        cost += jobs[name].waiting * hour
        left.remove(name)
        order.append(name)
    return cost, order


def orders_of(jobs, answer):
    """For each group its slope and its jobs in order; and what the whole order costs."""
    groups, cost, hour = [], 0, 0
    for step in answer.steps:
        more, order = (best_order if len(step.new) <= FEW else greedy_order)(jobs, step.new, hour)
        groups.append((step.slope, order))
        cost += more
        hour += sum(jobs[name].hours for name in order)
    return groups, cost


def tell(jobs, groups, cost):
    """The groups in order and what the order costs, as lines of text."""
    lines = [f"{len(jobs)} jobs, {sum(job.hours for job in jobs.values())} hours, {len(groups)} groups"]
    for number, (slope, order) in enumerate(groups, 1):
        hours, waiting = (sum(getattr(jobs[name], what) for name in order) for what in ("hours", "waiting"))
        lines.append(f"group {number}: {hours} hours for a waiting of {waiting}, {-slope} for each hour")
        lines.append(in_lines(order))
    sure = all(len(order) <= FEW for _, order in groups)
    lines.append(f"waiting costs {cost}, and no order costs less" + ("" if sure else " than half"))
    return lines


def draw(jobs, groups):
    """An SVG of the order: over its hours each job is as high as all waiting that is left, so that the whole area is what it costs. The
    line is that of the slopes, and no corner of any order is below it."""
    most = sum(job.hours for job in jobs.values())
    high = sum(job.waiting for job in jobs.values()) or 1

    def across(hour):
        return LEFT + hour / most * WIDE

    def up(cost):
        return TOP + TALL - cost / high * TALL

    bars, hour, waiting = [], 0, high
    corners = [(0, high)]
    for number, (_, order) in enumerate(groups):
        colour = COLOURS[min(number, len(COLOURS) - 1)]
        for name in order:
            wide, tall = across(hour + jobs[name].hours) - across(hour), TOP + TALL - up(waiting)
            bars.append(f'<rect x="{across(hour):.1f}" y="{up(waiting):.1f}" width="{wide:.1f}" height="{tall:.1f}" fill="{colour}"/>')
            x, y = across(hour) + wide / 2 + 4, up(waiting) - 4
            bars.append(f'<text x="{x:.1f}" y="{y:.1f}" class="name" transform="rotate(-90 {x:.1f} {y:.1f})">{name}</text>')
            hour, waiting = hour + jobs[name].hours, waiting - jobs[name].waiting
        corners.append((hour, waiting))
    line = " ".join(f"{across(x):.1f},{up(y):.1f}" for x, y in corners)
    wide, tall = LEFT + WIDE + 20, TOP + TALL + 44
    parts = [
        f'<svg xmlns="http://www.w3.org/2000/svg" width="{wide}" height="{tall}" viewBox="0 0 {wide} {tall}">',
        "<style>text { font: 13px sans-serif; fill: #222 } .name { font-size: 11px } .mark { stroke: #ddd } "
        "rect { stroke: #fff; stroke-width: 0.5 }</style>",
        f'<rect width="{wide}" height="{tall}" fill="#fff"/>',
        *axis(across, up, rounded(0, most, 12), rounded(0, high, 8)),
        *bars,
        f'<polyline points="{line}" fill="none" stroke="#222" stroke-width="2"/>',
        f'<text x="{LEFT + WIDE}" y="22" text-anchor="end">waiting that is left; the area is what the order costs</text>',
        f'<text x="{LEFT + WIDE}" y="{TOP + TALL + 36}" text-anchor="end">hours</text>',
        "</svg>",
    ]
    return "\n".join(parts) + "\n"


def compare(path, jobs, cost):
    """Whether no order costs less. All sets of jobs are tried, whatever the groups are."""
    if len(jobs) > MOST_TRIED:
        raise fault(path, None, f"it has {len(jobs)} jobs, and --all takes {MOST_TRIED}")
    least, _ = best_order(jobs, list(jobs), 0)
    print(f"least of all orders: {least}")
    return 0 if least == cost else 1


def main():
    parser = argparse.ArgumentParser(description=__doc__, formatter_class=argparse.RawDescriptionHelpFormatter)
    parser.add_argument("jobs", help="a table of jobs in CSV")
    parser.add_argument("--svg", help="where to draw the order")
    parser.add_argument("--instance", help="where to keep the instance, and its sizes in FILE.sizes")
    parser.add_argument("--all", action="store_true", help=f"compare with all orders of at most {MOST_TRIED} jobs")
    options = parser.parse_args()
    jobs = read_jobs(options.jobs)
    answer = solve(instance(jobs), options.instance, {name: job.hours for name, job in jobs.items()})
    groups, cost = orders_of(jobs, answer)
    print("\n".join(tell(jobs, groups, cost)))
    if options.svg:
        write_text(options.svg, draw(jobs, groups))
    return compare(options.jobs, jobs, cost) if options.all else 0


if __name__ == "__main__":
    sys.exit(run_main(main))
