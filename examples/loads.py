#!/usr/bin/env python3
"""Shares jobs out among the machines that can do them, so that the loads are as level as can be.

JOBS is a table in CSV with the columns name, hours (from 0) and machines (names with a space between: those that can do the job, in
any shares of whole hours). Each job is a cover of its machines, and `sfm level` gives each machine its hours: the sum of their squares
is the least, so no machine can be relieved by one that has two hours less. Beside them stand the hours of a plan that gives each
job to the first of its machines.

    python3 loads.py data/loads.csv --svg loads.svg
"""
import argparse
import sys
from collections import namedtuple

from answers import leastset, level
from faults import MOST_NAMES, fault, name_of, run_main, whole_of, write_text
from projects import read_rows

COLUMNS = ("name", "hours", "machines")
# The most plans of which --all tries them all.
MOST_PLANS = 2_000_000
WIDE, ROW, LEFT, TOP = 480, 34, 110, 34
COLOURS = ("#b2182b", "#1f78b4")

Job = namedtuple("Job", "hours machines")


def read_jobs(path):
    """The jobs of a table by their names."""
    jobs, lines = {}, {}
    for line, row in read_rows(path, COLUMNS):
        name = name_of(path, line, row["name"])
        if name in jobs:
            raise fault(path, line, f"the name {name} stands twice, first in line {lines[name]}")
        hours = whole_of(path, line, f"'hours' of {name}", row["hours"])
        if hours < 0:
            raise fault(path, line, f"{name} has {hours} hours: hours are from 0")
        machines = list(dict.fromkeys(name_of(path, line, machine) for machine in row["machines"].split()))
        if not machines:
            raise fault(path, line, f"no machine can do {name}")
        jobs[name], lines[name] = Job(hours, machines), line
    if not jobs:
        raise fault(path, None, "no job stands in it")
    if len(machines_of(jobs)) > MOST_NAMES:
        raise fault(path, None, f"it has more than {MOST_NAMES} machines, the most that an instance has")
    return jobs


def machines_of(jobs):
    """All machines, as they come."""
    return list(dict.fromkeys(machine for job in jobs.values() for machine in job.machines))


def instance(jobs):
    loads = leastset.Instance(machines_of(jobs))
    for job in jobs.values():
        loads.cover(job.hours, job.machines)
    return loads


def first_come(jobs):
    """The hours of each machine where each job is done by the first of its machines."""
    loads = dict.fromkeys(machines_of(jobs), 0)
    for job in jobs.values():
        loads[job.machines[0]] += job.hours
    return loads


def tell(jobs, found):
    """The hours of each machine, level and by the first plan, and who does what, as lines of text."""
    first, wide = first_come(jobs), max(map(len, machines_of(jobs)))
    lines = [f"{'':{wide}}  level  first"]
    lines += [f"{machine:{wide}}  {hours:5}  {first[machine]:5}  {'#' * min(hours, 60)}" for machine, hours in found.vector.items()]
    for (name, job), shares in zip(jobs.items(), found.bases):
        done = ", ".join(f"{machine} {hours}" for machine, hours in shares.items() if hours)
        lines.append(f"{name}: {done or 'nothing to do'}")
    lines.append(f"squares {found.squares}, of the first plan {sum(hours * hours for hours in first.values())}")
    return lines


def draw(jobs, found):
    """An SVG with two bars for each machine: its hours in the first plan, and in the level one."""
    first = first_come(jobs)
    most = max([*first.values(), *found.vector.values(), 1])
    parts = []
    for place, machine in enumerate(found.vector):
        top = TOP + place * ROW
        parts.append(f'<text x="{LEFT - 8}" y="{top + 18}" text-anchor="end">{machine}</text>')
        for row, hours in enumerate((first[machine], found.vector[machine])):
            wide = hours / most * WIDE
            parts.append(f'<rect x="{LEFT}" y="{top + row * 12}" width="{wide:.1f}" height="11" fill="{COLOURS[row]}"/>')
            parts.append(f'<text x="{LEFT + wide + 5:.1f}" y="{top + row * 12 + 10}" class="few">{hours}</text>')
    wide, tall = LEFT + WIDE + 40, TOP + len(found.vector) * ROW + 8
    head = [
        f'<svg xmlns="http://www.w3.org/2000/svg" width="{wide}" height="{tall}" viewBox="0 0 {wide} {tall}">',
        "<style>text { font: 13px sans-serif; fill: #222 } .few { font-size: 11px }</style>",
        f'<rect width="{wide}" height="{tall}" fill="#fff"/>',
        f'<text x="{LEFT}" y="20" style="fill: {COLOURS[0]}">hours by the first machine</text>',
        f'<text x="{LEFT + 200}" y="20" style="fill: {COLOURS[1]}">hours made level</text>',
    ]
    return "\n".join([*head, *parts, "</svg>"]) + "\n"


def splits(hours, count):
    """All ways to share so many hours out among so many machines."""
    if count == 1:
        yield (hours,)
        return
    for own in range(hours + 1):
        for rest in splits(hours - own, count - 1):
            yield (own, *rest)


def compare(path, jobs, found):
    """Whether no plan has a lesser sum of squares. All loads that some plan gives are tried."""
    place = {machine: i for i, machine in enumerate(machines_of(jobs))}
    loads = {(0,) * len(place)}
    for job in jobs.values():
        ways = list(splits(job.hours, len(job.machines)))
        if len(ways) * len(loads) > MOST_PLANS:
            raise fault(path, None, f"it has more plans than the {MOST_PLANS:,} that --all tries")
        longer = set()
        for load in loads:
            for way in ways:
                more = list(load)
                for machine, hours in zip(job.machines, way):
                    more[place[machine]] += hours
                longer.add(tuple(more))
        loads = longer
    least = min(sum(hours * hours for hours in load) for load in loads)
    print(f"least squares of all plans: {least}")
    return 0 if least == found.squares else 1


def main():
    parser = argparse.ArgumentParser(description=__doc__, formatter_class=argparse.RawDescriptionHelpFormatter)
    parser.add_argument("jobs", help="a table of jobs in CSV")
    parser.add_argument("--svg", help="where to draw the loads")
    parser.add_argument("--instance", help="where to keep the instance")
    parser.add_argument("--all", action="store_true", help="compare with all plans of a few jobs")
    options = parser.parse_args()
    jobs = read_jobs(options.jobs)
    found = level(instance(jobs), options.instance)
    print("\n".join(tell(jobs, found)))
    if options.svg:
        write_text(options.svg, draw(jobs, found))
    return compare(options.jobs, jobs, found) if options.all else 0


if __name__ == "__main__":
    sys.exit(run_main(main))
