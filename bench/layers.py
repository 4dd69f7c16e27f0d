#!/usr/bin/env python3
"""Times `PROGRAM solve` of instances of version 2, and of the same instances in version 1, where each line with weights is written
out: a plain rank line for each of its layers. Both have the same terms, so they have the same answer but for the labels of the bases."""
import argparse
import os
import shlex
import sys
import tempfile

from ladder import forced_lines, timed


def split_weight(word):
    """An element of a line, and its weight, which is 1 where it has none."""
    element, star, weight = word.partition("*")
    return element, int(weight) if star else 1


def layers(line):
    """The plain rank lines of one with weights, that of the greatest weight first."""
    words = line.split()
    colon = words.index(":")
    head = words[:colon]
    ground, *groups = " ".join(words[colon + 1 :]).split(" ; ")
    elements = [split_weight(word) for word in ground.split()]
    weights = sorted({weight for _, weight in elements}, reverse=True)
    for weight, below in zip(weights, weights[1:] + [0]):
        kept = [element for element, own in elements if own >= weight]
        names = {element.partition("=")[0] for element in kept}
        number = str(int(head[1]) * (weight - below))
        line = [head[0], number, *head[2:], ":", *kept]
        for group in groups:
            cap, *members = group.split()
            members = [name for name in members if name in names]
            if members:
                line += [";", cap, *members]
        yield " ".join(line)


def written_out(text):
    """The text of version 1 with a line for each layer."""
    lines = []
    for line in text.splitlines():
        if line.split() == ["sfm", "2"]:
            lines.append("sfm 1")
        elif line.startswith("rank ") and "*" in line:
            lines += layers(line)
        else:
            lines.append(line)
    return "\n".join(lines) + "\n"


def least_time(words, answer, runs):
    """The least time of the processor of some runs of a command."""
    least = None
    for _ in range(runs):
        processor, _, code = timed(words, answer, 600)
        if code != 0:
            sys.exit(f"{shlex.join(words)} ended with {code}")
        least = processor if least is None else min(least, processor)
    return least


def main():
    parser = argparse.ArgumentParser(description=__doc__)
    parser.add_argument("program")
    parser.add_argument("files", nargs="+", help="instances of version 2")
    parser.add_argument("--runs", type=int, default=5)
    parser.add_argument("--beside", help="another solver, run as COMMAND FILE")
    options = parser.parse_args()
    commands = [[os.path.abspath(options.program), "solve"]]
    if options.beside:
        commands.append(shlex.split(options.beside))
    with tempfile.TemporaryDirectory() as folder:
        for path in options.files:
            plain = os.path.join(folder, "plain.sfm")
            with open(path, encoding="utf-8") as file, open(plain, "w", encoding="utf-8") as to:
                to.write(written_out(file.read()))
            times, answers = [], []
            for command in commands:
                for name in (path, plain):
                    answer = os.path.join(folder, f"answer{len(times)}")
                    times.append(least_time([*command, name], answer, options.runs))
                    answers.append(forced_lines(answer))
            if any(answer != answers[0] for answer in answers):
                sys.exit(f"{path}: the answers differ")
            print(path, *(f"{time:.4f}" for time in times))


if __name__ == "__main__":
    main()
