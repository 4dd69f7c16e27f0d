#!/usr/bin/env python3
"""Times `PROGRAM solve` beside one maximum flow, and beside a solver of linear programs, on instances that are cuts of a graph.

The flow (flow.c, compiled by cc) finds the least value and one set. So does the linear program, by HiGHS or another program that is
run as COMMAND FILE.lp and prints a line `Objective value : NUMBER` or `Primal bound NUMBER`; linear.py is one. `PROGRAM` finds that
value with all best sets, all slopes and a proof. The three values are compared. The times are of the processor, for the whole of each
call; but where a program prints a line `Processor seconds : NUMBER`, as linear.py does for the call of its solver, it is that number.
"""
import argparse
import os
import re
import shlex
import subprocess
import sys
import tempfile

from ladder import text_of, timed, write_instance

KINDS = ("grid", "covers", "needs")
HERE = os.path.dirname(os.path.abspath(__file__))


def graph_of(text):
    """The arcs of a graph with the source 0 and the sink 1, whose least cut is the minimum less the constant, and that constant.
    A capacity below 0 has no bound. An element is on the side of the source where it is in the set."""
    nodes, arcs, constant = {}, [], 0
    for line in text.splitlines():
        word, *rest = line.split(" ")
        if word == "ground":
            nodes = {name: number for number, name in enumerate(rest, 2)}
        elif word == "weight":
            for name, number in (pair.split(":") for pair in rest):
                if int(number) < 0:
                    constant += int(number)
                    arcs.append((0, nodes[name], -int(number)))
                else:
                    arcs.append((nodes[name], 1, int(number)))
        elif word == "cut":
            arcs.append((nodes[rest[1]], nodes[rest[2]], int(rest[0])))
        elif word == "need":
            arcs.append((nodes[rest[0]], nodes[rest[1]], -1))
        elif word == "cover":
            shared = 2 + len(nodes)
            nodes[("cover", shared)] = shared
            arcs += [(nodes[name], shared, -1) for name in rest[1:]] + [(shared, 1, int(rest[0]))]
    return 2 + len(nodes), arcs, constant


def write_flow(path, nodes, arcs):
    with open(path, "w", encoding="ascii") as file:
        file.write(f"{nodes} {len(arcs)}\n" + "".join(f"{u} {v} {c}\n" for u, v, c in arcs))


def write_program(path, nodes, arcs):
    """The least cut as a linear program: x is 1 on the side of the source, and y is 1 on each arc that is cut."""
    name = {0: "1", 1: "0", **{node: f"x{node}" for node in range(2, nodes)}}
    costs, rows, low = [], [], []
    for number, (u, v, capacity) in enumerate(arcs):
        fixed = (1 if u == 0 else 0) - (1 if v == 0 else 0)
        terms = [f"- {name[u]}" for _ in [0] if u > 1] + [f"+ {name[v]}" for _ in [0] if v > 1]
        if capacity < 0:
            rows.append(f" r{number}: {' '.join(terms)} >= {fixed}")
        else:
            rows.append(f" r{number}: y{number} {' '.join(terms)} >= {fixed}")
            costs.append(f"{capacity} y{number}")
    low = [f" 0 <= x{node} <= 1" for node in range(2, nodes)]
    with open(path, "w", encoding="ascii") as file:
        file.write("Minimize\n cost: " + "\n + ".join(costs) + "\nSubject To\n" + "\n".join(rows) + "\n")
        file.write("Bounds\n" + "\n".join(low) + "\nEnd\n")


def value_of(text):
    found = re.search(r"(?:Objective value\s*:|Primal bound)\s*(-?[0-9.]+(?:e[+-]?[0-9]+)?)", text)
    return round(float(found[1])) if found else None


def parse_words():
    parser = argparse.ArgumentParser(description=__doc__, formatter_class=argparse.RawDescriptionHelpFormatter)
    parser.add_argument("program", help="the path of the program")
    parser.add_argument("--kinds", nargs="+", choices=KINDS, default=list(KINDS))
    parser.add_argument("--sizes", nargs="+", type=int, default=[64, 128, 256])
    parser.add_argument("--seed", type=int, default=1)
    parser.add_argument("--runs", type=int, default=5, help="how often each is run")
    parser.add_argument("--linear", metavar="COMMAND", help="a solver of linear programs, such as highs, run as COMMAND FILE.lp")
    return parser.parse_args()


def best_of(options, words, answer):
    """The least time of the processor of some runs, that which the program tells where it tells one; all ends where a run fails."""
    times = []
    for _ in range(options.runs):
        processor, _, code = timed(words, answer, 600)
        if code != 0:
            sys.exit(f"{' '.join(words)}: ends with {code}")
        told = re.search(r"^Processor seconds\s*:\s*([0-9.]+)$", text_of(answer), re.M)
        times.append(float(told[1]) if told else processor)
    return min(times)


def measure(options, folder, kind, size):
    """Prints the row of one instance, and gives whether all say the same value."""
    path, answer, out = (os.path.join(folder, name) for name in ("it.sfm", "it.answer", "it.out"))
    terms = write_instance(path, kind, size, options.seed)
    row = [kind, size, terms, f"{best_of(options, [os.path.abspath(options.program), 'solve', path], answer):.4f}"]
    minimum = int(re.search(r"^minimum (-?[0-9]+)$", text_of(answer), re.M)[1])
    nodes, arcs, constant = graph_of(text_of(path))
    write_flow(os.path.join(folder, "it.flow"), nodes, arcs)
    flow = f"{shlex.quote(os.path.join(folder, 'flow'))} <{shlex.quote(os.path.join(folder, 'it.flow'))}"
    row.append(f"{best_of(options, ['sh', '-c', 'exec ' + flow], out):.4f}")
    values = [int(text_of(out)) + constant]
    if options.linear:
        write_program(os.path.join(folder, "it.lp"), nodes, arcs)
        row.append(f"{best_of(options, [*shlex.split(options.linear), os.path.join(folder, 'it.lp')], out):.4f}")
        cut = value_of(text_of(out))
        values.append(None if cut is None else cut + constant)
    print("| " + " | ".join(str(cell) for cell in row) + " |", flush=True)
    if any(value != minimum for value in values):
        print(f"{kind} {size}: minimum {minimum}, and beside it {values}", file=sys.stderr, flush=True)
        return False
    return True


def main():
    options = parse_words()
    head = [f"Instance, seed {options.seed}", "Elements", "Terms", "solve", "one flow"] + ["one linear program"] * bool(options.linear)
    print("| " + " | ".join(head) + " |\n|" + "---|" * len(head), flush=True)
    with tempfile.TemporaryDirectory() as folder:
        subprocess.run(["cc", "-O2", "-o", os.path.join(folder, "flow"), os.path.join(HERE, "flow.c")], check=True)
        same = [measure(options, folder, kind, size) for kind in options.kinds for size in options.sizes]
    return 0 if all(same) else 1


if __name__ == "__main__":
    sys.exit(main())
