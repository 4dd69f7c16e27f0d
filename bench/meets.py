#!/usr/bin/env python3
"""Times `PROGRAM meet` and `PROGRAM met` beside `PROGRAM solve` of one instance with the terms of both sides, and prints the least
times of the processor (user and system added)."""
import argparse
import os
import random
import sys
import tempfile

from ladder import KINDS, text_of, timed

# Kinds of one side and of the other: cuts, covers, concave functions, ranks of laminar matroids, graphs and transversal matroids,
# of many terms and of one, and mixtures.
PAIRS = [
    ("grid", "grid"),
    ("covers", "covers"),
    ("counts", "counts"),
    ("uniform", "uniform"),
    ("groups", "groups"),
    ("links", "links"),
    ("slots", "slots"),
    ("onelaminar", "onelaminar"),
    ("onegraph-sparse", "onegraph-sparse"),
    ("onegraph-dense", "onegraph-dense"),
    ("oneslots", "oneslots"),
    ("onegraph-dense", "colours"),
    ("oneslots", "uniform"),
    ("grid", "covers"),
    ("mixture", "mixture"),
]


def uniform(names, rng):
    """Half as many uniform ranks of eight elements as there are elements."""
    lines = []
    for _ in range(len(names) // 2):
        lines.append(" ".join(["rank", str(rng.randint(0, 400)), "uniform", str(rng.randint(1, 7)), ":", *rng.sample(names, 8)]))
    return lines


def colours(names, rng):
    """One rank of a laminar matroid over all elements, each of one of sixteen colours, of which each may be taken five times."""
    by_colour = {}
    for name in names:
        by_colour.setdefault(rng.randrange(16), []).append(name)
    groups = [" ".join([";", "5", *some]) for some in by_colour.values()]
    return [" ".join(["rank 100 laminar :", *names, *groups])]


def mixture(names, rng):
    """Some lines of each kind."""
    lines = []
    for kind in (*KINDS.values(), uniform, colours):
        some = [line for line in kind(names, rng) if line.split()[0] not in ("weight", "need")]
        lines += rng.sample(some, min(12, len(some)))
    return lines


MAKERS = {**KINDS, "uniform": uniform, "colours": colours, "mixture": mixture}


def terms_of(kind, names, seed):
    return MAKERS[kind](names, random.Random(f"{kind} {len(names)} {seed}"))


def write(path, names, lines):
    with open(path, "w", encoding="ascii", newline="\n") as file:
        file.write("\n".join(["sfm 1", "ground " + " ".join(names), *lines, "end"]) + "\n")


def least(options, words, answer):
    """The least time of the processor of some runs."""
    runs = [timed([os.path.abspath(options.program), *words], answer, 600) for _ in range(options.runs)]
    if any(code != 0 for _, _, code in runs):
        sys.exit(f"{' '.join(words)}: ends with {[code for _, _, code in runs]}")
    return min(processor for processor, _, _ in runs)


def parse_words():
    parser = argparse.ArgumentParser(description=__doc__)
    parser.add_argument("program", help="the path of the program")
    parser.add_argument("--sizes", nargs="+", type=int, default=[256])
    parser.add_argument("--seed", type=int, default=1)
    parser.add_argument("--runs", type=int, default=5, help="how often each is run")
    return parser.parse_args()


def main():
    options = parse_words()
    head = [f"Left, seed {options.seed}", f"Right, seed {options.seed + 1}", "Elements", "Terms", "solve", "meet", "met", "meet by solve", "met by meet"]
    print("| " + " | ".join(head) + " |\n|" + "---|" * len(head), flush=True)
    valid = True
    with tempfile.TemporaryDirectory() as folder:
        left, right, both, answer, common, verdict = (
            os.path.join(folder, name) for name in ("left", "right", "both", "answer", "common", "verdict"))
        for one, other in PAIRS:
            for size in options.sizes:
                names = [f"e{i}" for i in range(size)]
                lefts, rights = terms_of(one, names, options.seed), terms_of(other, names, options.seed + 1)
                write(left, names, lefts)
                write(right, names, rights)
                write(both, names, lefts + rights)
                solve = least(options, ["solve", both], answer)
                meet = least(options, ["meet", left, right], common)
                met = least(options, ["met", left, right, common], verdict)
                times = [f"{seconds:.4f}" for seconds in (solve, meet, met)] + [f"{meet / solve:.2f}", f"{met / meet:.2f}"]
                print("| " + " | ".join([one, other, str(size), str(len(lefts) + len(rights)), *times]) + " |", flush=True)
                if text_of(verdict) != "valid\n":
                    print(f"{one} {other} {size}: {text_of(verdict).strip()}", file=sys.stderr, flush=True)
                    valid = False
    return 0 if valid else 1


if __name__ == "__main__":
    sys.exit(main())
