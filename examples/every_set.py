#!/usr/bin/env python3
"""Answers a small instance without `sfm`: tries every set, by the words of docs/FORMATS.md alone, in exact fractions.

It prints what an answer says before its proof, as `sfm solve` does, or as `sfm weigh` does where SIZES is given. With --pins it
prints what `sfm ask` does, and with --meet the first three lines of what `sfm meet` does:

    python3 every_set.py towns.sfm
    python3 every_set.py jobs.sfm jobs.sizes
    python3 every_set.py border.sfm --pins border.pins
    python3 every_set.py shares.sfm --meet shares.right.sfm

With --all it takes each instance of a folder with at most 14 elements, also with its sizes and its pins where it has some, and with
each element held in and out alone, and compares each line with what `sfm` says. Of what `sfm level` says it sees that no set has more
than it is worth, and that the squares are the least; and of what `sfm meet` says of an instance X.sfm and X.right.sfm that no set has
more than either is worth, and all elements as much as the least split. A set of elements is a number here: bit i is set where the set
has the i-th name of the ground.
"""
import argparse
import glob
import os
import sys
import tempfile
from fractions import Fraction

from answers import read_pins, read_sizes, run_well
from faults import fault, read_text, run_main, write_text

MOST = 14


def has(chosen, place):
    return chosen >> place & 1


def best_choice(weights, is_free):
    """For each set of so many elements the greatest weight of a free set within it."""
    count = len(weights)
    best = [0] * 2**count
    for chosen in range(1, 2**count):
        members = [i for i in range(count) if has(chosen, i)]
        best[chosen] = sum(weights[i] for i in members) if is_free(members) else max(best[chosen & ~(1 << i)] for i in members)
    return best


def is_forest(edges):
    """Whether no edges of these close a trail: each one joins two pieces of the network that were apart before."""
    piece = {vertex: vertex for edge in edges for vertex in edge}
    for u, v in edges:
        if piece[u] == piece[v]:
            return False
        old, new = piece[u], piece[v]
        piece = {vertex: new if mark == old else mark for vertex, mark in piece.items()}
    return True


def have_own_slots(entries, used=()):
    """Whether these entries can have slots of their own, all different, beside those that are used."""
    return not entries or any(have_own_slots(entries[1:], (*used, slot)) for slot in entries[0] if slot not in used)


def cut_at(tokens, sign):
    """The tokens before each sign, and those behind the last."""
    pieces = [[]]
    for token in tokens:
        if token == sign:
            pieces.append([])
        else:
            pieces[-1].append(token)
    return pieces


def weighed(tokens):
    """These tokens without their weights, and the weights: in version 2 a weight stands behind a star, and is 1 where there is none."""
    pairs = [token.split("*") for token in tokens]
    return [pair[0] for pair in pairs], [int(pair[1]) if pair[1:] else 1 for pair in pairs]


def rank_of(kind, rest):
    """The elements of a rank, and for each set of them the weight of a best choice."""
    if kind == "uniform":
        names, weights = weighed(rest[2:])
        return names, best_choice(weights, lambda members: len(members) <= int(rest[0]))
    if kind == "laminar":
        (_, *elements), *groups = cut_at(rest, ";")
        names, weights = weighed(elements)
        caps = [(int(group[0]), {names.index(name) for name in group[1:]}) for group in groups]
        return names, best_choice(weights, lambda members: all(len(group & set(members)) <= cap for cap, group in caps))
    tokens, weights = weighed(rest[1:])
    pairs = [token.split("=") for token in tokens]
    names = [name for name, _ in pairs]
    if kind == "graphic":
        edges = [edge.split("-") for _, edge in pairs]
        return names, best_choice(weights, lambda members: is_forest([edges[i] for i in members]))
    slots = [entry.split(",") for _, entry in pairs]
    return names, best_choice(weights, lambda members: have_own_slots([slots[i] for i in members]))


def worths_of(word, rest):
    """The elements of a term line, and for each set of them what it is worth; None where the set is not allowed."""
    if word == "weight":
        names, numbers = zip(*(pair.split(":") for pair in rest))
        return names, [sum(int(number) for i, number in enumerate(numbers) if has(chosen, i)) for chosen in range(2 ** len(names))]
    if word == "cut":
        return rest[1:], [0, int(rest[0]), 0, 0]
    if word == "need":
        return rest, [0, None, 0, 0]
    if word == "cover":
        return rest[1:], [int(rest[0]) if chosen else 0 for chosen in range(2 ** (len(rest) - 1))]
    if word == "rank":
        names, best = rank_of(rest[1], rest[2:])
        return names, [int(rest[0]) * weight for weight in best]
    numbers, names = cut_at(rest, ":")
    if word == "table":
        return names, [int(number) for number in numbers]
    return names, [int(["0", *numbers][bin(chosen).count("1")]) for chosen in range(2 ** len(names))]


def read_instance(path):
    """The ground, and the value of each set; None where it is not allowed."""
    try:
        return ground_and_values(path)
    except (ValueError, IndexError, TypeError, KeyError):
        raise fault(path, None, "this is no good instance; 'sfm solve' says where its first fault is")


def ground_and_values(path):
    lines = [line.split() for line in read_text(path).splitlines()]
    lines = [line for line in lines if line and not line[0].startswith("#")]
    if lines[:1] not in ([["sfm", "1"]], [["sfm", "2"]]) or lines[-1] != ["end"]:
        raise fault(path, None, "this is no instance of version 1 or 2")
    ground = lines[1][1:]
    if len(ground) > MOST:
        raise fault(path, None, f"it has {len(ground)} elements, and at most {MOST} are taken, as every set is tried")
    values = [0] * 2 ** len(ground)
    for word, *rest in lines[2:-1]:
        names, worths = worths_of(word, rest)
        places = [ground.index(name) for name in names]
        for chosen, value in enumerate(values):
            worth = worths[sum(has(chosen, place) << i for i, place in enumerate(places))]
            values[chosen] = None if value is None or worth is None else value + worth
    return ground, values


def least_of(worths):
    """The least worth of these, and the sets that have it. What is None is left out."""
    least = min(worth for worth in worths if worth is not None)
    return least, [chosen for chosen, worth in enumerate(worths) if worth == least]


def all_of(sets):
    """What all of these sets have in common."""
    common = sets[0]
    for chosen in sets:
        common &= chosen
    return common


def any_of(sets):
    """What one or more of these sets have."""
    joined = 0
    for chosen in sets:
        joined |= chosen
    return joined


def blocks_of(best, count):
    """The blocks of the best sets in order: elements that come along with one another, and the numbers of the blocks they need."""
    free = [e for e in range(count) if has(any_of(best) & ~all_of(best), e)]
    # with an element comes what each best set that has it has besides
    along = {e: all_of([chosen for chosen in best if has(chosen, e)]) & ~all_of(best) for e in free}
    blocks = {along[e]: [d for d in free if along[d] == along[e]] for e in free}
    order = sorted(blocks, key=lambda closed: (bin(closed).count("1"), blocks[closed][0]))
    return [
        (blocks[closed], [i for i, other in enumerate(order, 1) if other != closed and other & closed == other]) for closed in order
    ]


def slopes_of(values, weights):
    """All slopes at which two or more sets are best, in order, each with the greatest of these sets."""
    found, last = [], 0
    while any(value is not None and weights[chosen] > weights[last] for chosen, value in enumerate(values)):
        slope = min(
            Fraction(value - values[last], weights[chosen] - weights[last])
            for chosen, value in enumerate(values)
            if value is not None and weights[chosen] > weights[last]
        )
        _, best = least_of([None if value is None else value - slope * weights[chosen] for chosen, value in enumerate(values)])
        last = any_of(best)
        found.append((slope, last))
    return found


def line_of(ground, chosen, *words):
    """A line of words and of the names that a set has."""
    return " ".join([*words, *(name for e, name in enumerate(ground) if has(chosen, e))])


def answer_lines(ground, values, sizes=None):
    """What an answer says before its proof, one to `sfm weigh` where there are sizes."""
    sized = sizes or {}
    weights = [sum(sized.get(name, 1) for e, name in enumerate(ground) if has(chosen, e)) for chosen in range(len(values))]
    least, best = least_of(values)
    lines = ["answer 1" if sizes is None else "weighed 1", f"minimum {least}"]
    lines += [line_of(ground, all_of(best), "least"), line_of(ground, any_of(best), "greatest")]
    for number, (block, needs) in enumerate(blocks_of(best, len(ground)), 1):
        lines.append(" ".join(["block", str(number), *(ground[e] for e in block), ":", *map(str, needs)]))
    for slope, chosen in slopes_of(values, weights):
        lines.append(line_of(ground, chosen, "slope", f"{slope.numerator}/{slope.denominator}"))
    return lines


def pinned_lines(ground, values, inside, outside):
    """What is said of the sets that have all names of the one list and none of the other."""
    must, never = (sum(1 << ground.index(name) for name in names) for names in (inside, outside))
    asked = [value if chosen & must == must and not chosen & never else None for chosen, value in enumerate(values)]
    if all(value is None for value in asked):
        return ["none"]
    least, best = least_of(asked)
    sets = [line_of(ground, all_of(best), "least"), line_of(ground, any_of(best), "greatest")]
    return ["pinned 1", f"minimum {least}", *sets, "end"]


def least_squares(values, count):
    """The least sum of squares of a vector of whole numbers of which no set has more than it is worth, and the ground all of it. What
    comes in at a slope has the slope in the most level vector of fractions, and in that of whole numbers one of the two beside it."""
    squares, last = 0, 0
    for slope, chosen in slopes_of(values, [bin(chosen).count("1") for chosen in range(2**count)]):
        size, worth, floor = bin(chosen & ~last).count("1"), values[chosen] - values[last], slope.numerator // slope.denominator
        above = worth - floor * size
        squares, last = squares + above * (floor + 1) ** 2 + (size - above) * floor**2, chosen
    return squares


def is_level(path):
    """Whether what `sfm level` says of an instance is so."""
    ground, values = read_instance(path)
    lines = run_well("level", path).splitlines()
    vector = [int(number) for number in lines[2].split()[1:]]
    sums = [sum(number for e, number in enumerate(vector) if has(chosen, e)) for chosen in range(len(values))]
    within = all(value is None or total <= value for total, value in zip(sums, values))
    squares = sum(number * number for number in vector)
    return (
        lines[:2] == ["level 1", f"squares {squares}"]
        and len(vector) == len(ground)
        and within
        and sums[-1] == values[-1]
        and squares == least_squares(values, len(ground))
    )


def split_lines(path, beside):
    """The least that one instance is on a set and the other on its rest, with the least set that has it, in lines of `sfm meet`."""
    (ground, left), (other, right) = read_instance(path), read_instance(beside)
    if ground != other or None in left or None in right:
        raise fault(beside, None, f"it is over another ground than {path}, or one of them has a condition")
    least, best = least_of([value + right[len(left) - 1 - chosen] for chosen, value in enumerate(left)])
    return ["meet 1", f"value {least}", line_of(ground, all_of(best), "set")]


def is_meeting(path, beside):
    """Whether what `sfm meet` says of two instances is so, and `sfm met` takes it."""
    text = run_well("meet", path, beside)
    lines = text.splitlines()
    common = [int(number) for number in lines[3].split()[1:]]
    with tempfile.TemporaryDirectory() as work:
        write_text(os.path.join(work, "text"), text)
        verdict = run_well("met", path, beside, os.path.join(work, "text"))
    sums = [sum(number for e, number in enumerate(common) if has(chosen, e)) for chosen in range(2 ** len(common))]
    within = all(total <= min(pair) for total, *pair in zip(sums, read_instance(path)[1], read_instance(beside)[1]))
    return verdict == "valid\n" and lines[:3] == split_lines(path, beside) and within and f"value {sums[-1]}" == lines[1]


def is_small(path):
    ground = next((line.split() for line in read_text(path).splitlines() if line.startswith("ground")), [])
    return len(ground) - 1 <= MOST


def cases_of(path, pins_path):
    """The words of each call of `sfm` on an instance, and the lines that are due. Pins of one element are written to a file."""
    ground, values = read_instance(path)
    yield ("solve", path), answer_lines(ground, values)
    beside = path[:-4] + ".sizes"
    if os.path.exists(beside):
        yield ("weigh", path, beside), answer_lines(ground, values, read_sizes(beside))
    beside = path[:-4] + ".pins"
    if os.path.exists(beside):
        yield ("ask", path, beside), pinned_lines(ground, values, *read_pins(beside))
    for name in ground:
        for word, inside, outside in (("in", [name], []), ("out", [], [name])):
            write_text(pins_path, f"pins 1\n{word} {name}\nend\n")
            yield ("ask", path, pins_path), pinned_lines(ground, values, inside, outside)


def compare(folder):
    """Compares what `sfm` says with what is found here, and prints the lines of which only one side knows."""
    counts, wrong = {"solve": 0, "weigh": 0, "ask": 0, "level": 0, "meet": 0}, 0
    with tempfile.TemporaryDirectory() as work:
        for path in filter(is_small, sorted(glob.glob(os.path.join(folder, "*.sfm")))):
            counts["level"] += 1
            if not is_level(path):
                wrong += 1
                print(f"level {os.path.basename(path)}")
            beside = path[:-4] + ".right.sfm"
            if os.path.exists(beside):
                counts["meet"] += 1
                if not is_meeting(path, beside):
                    wrong += 1
                    print(f"meet {os.path.basename(path)} {os.path.basename(beside)}")
            for words, found in cases_of(path, os.path.join(work, "one.pins")):
                said = run_well(*words).splitlines()
                said = said[: said.index("at 0/1")] if "at 0/1" in said else said
                counts[words[0]] += 1
                if said != found:
                    wrong += 1
                    print(" ".join([words[0], *(os.path.basename(file) for file in words[1:])]))
                    print("\n".join([f"  sfm says {line}" for line in said if line not in found]))
                    print("\n".join([f"  found    {line}" for line in found if line not in said]))
    answers = counts["solve"] + counts["weigh"]
    told = f"{answers} answers, {counts['ask']} texts on pins, {counts['level']} level texts and {counts['meet']} common vectors"
    print(f"every set tried: {told}, {wrong} differ")
    return 1 if wrong else 0


def main():
    parser = argparse.ArgumentParser(description=__doc__, formatter_class=argparse.RawDescriptionHelpFormatter)
    parser.add_argument("file", help="an instance, or with --all a folder")
    parser.add_argument("sizes", nargs="?", help="the sizes of its elements")
    parser.add_argument("--pins", help="the elements that are held in and out; then slopes are not told")
    parser.add_argument("--meet", metavar="RIGHT", help="another instance; then the least split of the two is told")
    parser.add_argument("--all", action="store_true", help="compare each small instance of the folder with what sfm says")
    options = parser.parse_args()
    if options.all:
        return compare(options.file)
    if options.meet:
        print("\n".join(split_lines(options.file, options.meet)))
        return 0
    ground, values = read_instance(options.file)
    if options.pins:
        inside, outside = read_pins(options.pins)
        for name in [name for name in inside + outside if name not in ground]:
            raise fault(options.pins, None, f"{name} is no name of the ground")
        lines = pinned_lines(ground, values, inside, outside)
    else:
        lines = answer_lines(ground, values, read_sizes(options.sizes) if options.sizes else None)
    print("\n".join(lines))
    return 0


if __name__ == "__main__":
    sys.exit(run_main(main))
