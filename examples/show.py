#!/usr/bin/env python3
"""Prints an answer for people: what is best, what may come along, and for each slope what comes in and what the set is worth.

    sfm solve towns.sfm > towns.answer
    python3 show.py towns.answer

An answer to `sfm weigh` is shown with the sizes that were given, as its values follow from these:

    python3 show.py jobs.answer --sizes jobs.sizes
"""
import argparse
import sys

from answers import read_answer, read_sizes
from faults import run_main


def listed(names):
    return " ".join(names) if names else "(nothing)"


def head(answer):
    """The minimum, and the sets that attain it."""
    lines = [f"least value {answer.minimum}"]
    least, greatest = (listed(answer.in_order(members)) for members in (answer.least, answer.greatest))
    if answer.least == answer.greatest:
        return [*lines, f"at one set alone: {least}"]
    lines += [f"smallest such set: {least}", f"greatest such set: {greatest}"]
    for number, block in enumerate(answer.blocks, 1):
        needs = " with " + ", ".join(f"choice {need + 1}" for need in sorted(block.needs)) if block.needs else ""
        lines.append(f"choice {number}{needs}: {listed(answer.in_order(block.members))} may come along, all or none")
    return lines


def table(answer):
    """A row for each slope: from there on, so many elements, worth so much where that is known, and those that are new."""
    rows = [("from slope", "elements", "value", "new")]
    for step in answer.steps:
        value = "?" if step.worth is None else str(step.worth)
        rows.append((str(step.slope), str(len(step.members)), value, listed(step.new)))
    widths = [max(len(row[column]) for row in rows) for column in range(3)]
    return ["  ".join([*(row[i].rjust(widths[i]) for i in range(3)), row[3]]) for row in rows]


def main():
    parser = argparse.ArgumentParser(description=__doc__, formatter_class=argparse.RawDescriptionHelpFormatter)
    parser.add_argument("answer", help="a file that sfm solve or sfm weigh wrote")
    parser.add_argument("--sizes", help="the sizes that sfm weigh was given")
    options = parser.parse_args()
    sizes = read_sizes(options.sizes) if options.sizes else None
    answer = read_answer(options.answer, sizes)
    print("\n".join([*head(answer), "", *table(answer)]))


if __name__ == "__main__":
    sys.exit(run_main(main))
