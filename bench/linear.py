#!/usr/bin/env python3
"""Solves a linear program by HiGHS, as scipy has it, and prints its least value and the processor time of the call of the solver.

    $ python3 linear.py it.lp
    Objective value : -12
    Processor seconds : 0.0031

It reads the form that cuts.py writes: what is least, rows of variables with factors 1 and -1 that are at least a number, and bounds from
0 to 1. A variable without bounds is 0 or more. To start Python and to read the text takes far longer than to solve, so it is not counted.
"""
import argparse
import re
import sys
import time

from scipy.optimize import linprog
from scipy.sparse import coo_matrix

TERM = re.compile(r"([+-]?) ?([0-9]*) ?([a-z][a-z0-9]*)")


def read_program(lines):
    """The costs by the names of the variables, the rows as pairs of factors by name and a least number, and the names with bounds."""
    part, costs, rows, bounded = "", {}, [], []
    for line in lines:
        if not line.startswith(" "):
            part = line
        elif part == "Minimize":
            costs.update((name, int(number)) for _, number, name in TERM.findall(line.replace("cost:", "")))
        elif part == "Subject To":
            terms, least = line.split(":")[1].split(">=")
            rows.append(({name: -1 if sign == "-" else 1 for sign, _, name in TERM.findall(terms)}, int(least)))
        elif part == "Bounds":
            bounded.append(line.split("<=")[1].strip())
    return costs, rows, bounded


def main():
    parser = argparse.ArgumentParser(description=__doc__, formatter_class=argparse.RawDescriptionHelpFormatter)
    parser.add_argument("program", help="a linear program, as cuts.py writes it")
    with open(parser.parse_args().program, encoding="ascii") as file:
        costs, rows, bounded = read_program(file.read().splitlines())
    places = {name: place for place, name in enumerate([*bounded, *(name for name in costs if name not in set(bounded))])}
    cells = [(-factor, row, places[name]) for row, (factors, _) in enumerate(rows) for name, factor in factors.items()]
    numbers, at, columns = zip(*cells)
    matrix = coo_matrix((numbers, (at, columns)), shape=(len(rows), len(places))).tocsr()
    cost = [costs.get(name, 0) for name in places]
    bounds = [(0, 1)] * len(bounded) + [(0, None)] * (len(places) - len(bounded))
    start = time.process_time()
    found = linprog(cost, A_ub=matrix, b_ub=[-least for _, least in rows], bounds=bounds, method="highs")
    seconds = time.process_time() - start
    if found.status != 0:
        sys.exit(f"the solver ends with: {found.message}")
    print(f"Objective value : {found.fun:.6f}\nProcessor seconds : {seconds:.4f}")
    return 0


if __name__ == "__main__":
    sys.exit(main())
