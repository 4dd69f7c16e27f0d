#!/usr/bin/env python3
"""Writes instances, runs `PROGRAM solve` on each some times, and prints the least times: of the processor (user and system
added), and by the clock."""
import argparse
import math
import os
import random
import shlex
import subprocess
import sys
import tempfile
import threading
import time

COLUMNS = 16


def weights(names, rng, low, high):
    pairs = [f"{name}:{rng.randint(low, high)}" for name in names]
    return [" ".join(["weight", *pairs])]


def grid(names, rng):
    """Pixels in rows of 16, with a cut each way between neighbours."""
    lines = weights(names, rng, -100, 100)
    for i in range(len(names)):
        beside = i + 1 if (i + 1) % COLUMNS else None
        for j in (beside, i + COLUMNS):
            if j is not None and j < len(names):
                lines.append(f"cut {rng.randint(0, 60)} {names[i]} {names[j]}")
                lines.append(f"cut {rng.randint(0, 60)} {names[j]} {names[i]}")
    return lines


def covers(names, rng):
    """As many covers of three elements as there are elements."""
    lines = weights(names, rng, -300, -1)
    for _ in names:
        some = rng.sample(names, 3)
        lines.append(" ".join(["cover", str(rng.randint(0, 300)), *some]))
    return lines


def needs(names, rng):
    """The first half earn and need two of the second half each, which cost."""
    half = len(names) // 2
    lines = weights(names[:half], rng, -200, 0)
    lines += weights(names[half:], rng, 0, 200)
    for name in names[:half]:
        for other in rng.sample(names[half:], 2):
            lines.append(f"need {name} {other}")
    return lines


def counts(names, rng):
    """Half as many concave functions of eight elements as there are elements."""
    lines = weights(names, rng, -300, -1)
    for _ in range(len(names) // 2):
        rise, value, values = rng.randint(0, 300), 0, []
        for _ in range(8):
            value += rise
            values.append(str(value))
            rise -= rng.randint(0, 60)
        lines.append(" ".join(["concave", *values, ":", *rng.sample(names, 8)]))
    return lines


def groups(names, rng):
    """A quarter as many ranks of laminar matroids over eight elements, with two nested groups each."""
    lines = weights(names, rng, -200, -1)
    for _ in range(len(names) // 4):
        some = rng.sample(names, 8)
        rank = ["rank", str(rng.randint(0, 400)), "laminar", ":", *some]
        lines.append(" ".join([*rank, ";", "4", *some[:6], ";", str(rng.randint(1, 2)), *some[:3]]))
    return lines


def links(names, rng):
    """An eighth as many ranks of graphs as there are elements, each over eight edges between five vertices."""
    lines = weights(names, rng, -200, -1)
    for _ in range(len(names) // 8):
        edges = [f"{name}={rng.randint(1, 5)}-{rng.randint(1, 5)}" for name in rng.sample(names, 8)]
        lines.append(" ".join(["rank", str(rng.randint(0, 400)), "graphic", ":", *edges]))
    return lines


def slots(names, rng):
    """A quarter as many ranks of transversal matroids, each over eight elements with two of five slots."""
    lines = weights(names, rng, -200, -1)
    for _ in range(len(names) // 4):
        some = rng.sample(names, 8)
        entries = [name + "=" + ",".join(str(s) for s in rng.sample(range(1, 6), 2)) for name in some]
        lines.append(" ".join(["rank", str(rng.randint(0, 400)), "transversal", ":", *entries]))
    return lines


def one_graph(names, vertices, rng):
    """One rank of a graph that has all elements as edges, each between two different vertices."""
    edges = [name + "=" + "-".join(f"v{v}" for v in rng.sample(range(vertices), 2)) for name in names]
    return [*weights(names, rng, -200, -1), " ".join(["rank 100 graphic :", *edges])]


def one_sparse_graph(names, rng):
    """Half as many vertices as edges."""
    return one_graph(names, len(names) // 2, rng)


def one_dense_graph(names, rng):
    """About as many vertices as a whole graph of so many edges has."""
    return one_graph(names, math.isqrt(2 * len(names)) + 2, rng)


def one_slots(names, rng):
    """One rank of a transversal matroid over all elements, each with three of half as many slots."""
    entries = [name + "=" + ",".join(f"s{s}" for s in rng.sample(range(len(names) // 2), 3)) for name in names]
    return [*weights(names, rng, -200, -1), " ".join(["rank 100 transversal :", *entries])]


def one_laminar(names, rng):
    """One rank of a laminar matroid over all elements, with groups that are halved down to four elements."""
    groups, waiting = [], [names]
    while waiting:
        some = waiting.pop()
        groups += [";", str(rng.randint(len(some) // 4, len(some))), *some]
        if len(some) >= 8:
            waiting += [some[: len(some) // 2], some[len(some) // 2 :]]
    return [*weights(names, rng, -200, -1), " ".join(["rank 100 laminar :", *names, *groups])]


KINDS = {
    "grid": grid,
    "covers": covers,
    "needs": needs,
    "counts": counts,
    "groups": groups,
    "links": links,
    "slots": slots,
    "onegraph-sparse": one_sparse_graph,
    "onegraph-dense": one_dense_graph,
    "oneslots": one_slots,
    "onelaminar": one_laminar,
}


def write_instance(path, kind, size, seed):
    """Writes an instance, and gives the number of its terms."""
    names = [f"e{i}" for i in range(size)]
    lines = KINDS[kind](names, random.Random(f"{kind} {size} {seed}"))
    with open(path, "w", encoding="ascii", newline="\n") as file:
        file.write("\n".join(["sfm 1", "ground " + " ".join(names), *lines, "end"]) + "\n")
    return len(lines)


def timed(words, answer, limit):
    """Runs a command, and gives its time of the processor and by the clock in seconds, and its exit code, None past the limit."""
    with open(answer, "wb") as out:
        start = time.perf_counter()
        process = subprocess.Popen(words, stdout=out)
        timer = threading.Timer(limit, process.kill)
        timer.start()
        _, status, usage = os.wait4(process.pid, 0)
        seconds = time.perf_counter() - start
        timer.cancel()
        process.returncode = os.waitstatus_to_exitcode(status)
    return usage.ru_utime + usage.ru_stime, seconds, None if seconds >= limit else process.returncode


def text_of(path):
    with open(path, "rb") as file:
        return file.read().decode("ascii", "replace")


def forced_lines(path):
    """The lines of an answer that no other right answer may say otherwise: all but the bases."""
    return [line for line in text_of(path).split("\n") if not line.startswith("base")]


def judge(options, path, answer):
    """Has an answer judged, and gives the time of the processor and the verdict."""
    verdict = answer + ".verdict"
    processor, _, code = timed([os.path.abspath(options.program), "check", path, answer], verdict, options.limit)
    return processor, text_of(verdict).strip() or f"exit {code}"


def solve_beside(options, path, answer):
    """Has another program solve the instance, and gives the least time of the processor and what is to be said of it."""
    other = answer + ".beside"
    runs = [timed([*shlex.split(options.beside), path], other, options.limit) for _ in range(options.runs)]
    if any(code != 0 for _, _, code in runs):
        return None, "the program beside failed"
    same = forced_lines(other) == forced_lines(answer)
    return min(processor for processor, _, _ in runs), "" if same else "the program beside says other lines"


def parse_words():
    parser = argparse.ArgumentParser(description=__doc__)
    parser.add_argument("program", help="the path of the program")
    parser.add_argument("--kinds", nargs="+", choices=list(KINDS), default=list(KINDS))
    parser.add_argument("--sizes", nargs="+", type=int, default=[32, 64, 128, 256])
    parser.add_argument("--seed", type=int, default=1)
    parser.add_argument("--runs", type=int, default=3, help="how often each is run")
    parser.add_argument("--limit", type=float, default=600, help="seconds for each run")
    parser.add_argument("--keep", help="a folder for the instances and answers, which else are removed")
    parser.add_argument("--check", action="store_true", help="judge each answer too")
    parser.add_argument("--beside", metavar="COMMAND", help="another solver, run as COMMAND FILE, whose answer is compared but for its bases")
    options = parser.parse_args()
    if any(not 16 <= size <= 256 for size in options.sizes):
        parser.error("sizes are from 16 to 256")
    if options.runs < 1:
        parser.error("each is run once or more")
    return options


def measure(options, folder, kind, size):
    """Prints the row of one instance, and gives whether each run ended well."""
    path = os.path.join(folder, f"{kind}_{size}.sfm")
    answer = os.path.join(folder, f"{kind}_{size}.answer")
    terms = write_instance(path, kind, size, options.seed)
    program = os.path.abspath(options.program)
    runs = [timed([program, "solve", path], answer, options.limit) for _ in range(options.runs)]
    codes = [code for _, _, code in runs if code != 0]
    processor, seconds = (min(run[place] for run in runs) for place in (0, 1))
    row = [kind, size, terms, f"{processor:.4f}", f"{seconds:.4f}", os.path.getsize(answer)]
    faults = []
    if codes:
        row[3:5] = ["", f"over {options.limit:g}" if codes[0] is None else f"exit {codes[0]}"]
        faults.append("no answer")
    if options.check:
        judged, verdict = judge(options, path, answer) if not codes else (0, "valid")
        row.append(f"{judged:.4f}")
        faults += [verdict] * (verdict != "valid")
    if options.beside:
        beside, fault = solve_beside(options, path, answer) if not codes else (None, "")
        row += ["", ""] if beside is None else [f"{beside:.4f}", f"{processor / max(beside, 0.0005):.1f}"]
        faults += [fault] * (fault != "")
    print("| " + " | ".join(str(cell) for cell in row) + " |", flush=True)
    for fault in faults:
        print(f"{kind} {size}: {fault}", file=sys.stderr, flush=True)
    return not faults


def print_head(options):
    head = [f"Instance, seed {options.seed}", "Elements", "Terms", "Processor seconds", "By the clock", "Answer in bytes"]
    head += ["Judged in"] * options.check + ["Beside", "Times"] * bool(options.beside)
    print("| " + " | ".join(head) + " |")
    print("|---" * len(head) + "|", flush=True)


def main():
    options = parse_words()
    print_head(options)
    with tempfile.TemporaryDirectory() as temporary:
        folder = options.keep or temporary
        os.makedirs(folder, exist_ok=True)
        ended = [measure(options, folder, kind, size) for kind in options.kinds for size in options.sizes]
    return 0 if all(ended) else 1


if __name__ == "__main__":
    sys.exit(main())
