#!/usr/bin/env python3
"""Prints the price of each element: the least value with it in, less the least value with it out, both told by `sfm ask`.

Below 0 each best set has the element, and it may cost so much more until one without it is as good. Above 0 no best set has it, and
it must cost so much less until one with it is as good. At 0 one best set has it and another has not.

    python3 price.py projects.sfm
    python3 price.py clash.sfm clash.pins

With a text of pins behind it, all values are those of the sets that keep to these pins, and an element that they hold has no row. An
element that such a set must have, or can't have, has `none` for the value of the other case, and - for its price.

There is one call for each element at most: with an element of the least best set the least value is known, and so is the one
without an element that the greatest best set lacks.
"""
import argparse
import sys

from answers import ask, asked_of, read_pins
from faults import read_bytes, run_main


def ground_of(text):
    """The names of an instance, in which `sfm` has found no fault."""
    lines = [line.split() for line in text.splitlines()]
    return next(words[1:] for words in lines if words[:1] == ["ground"])


def value_of(asked):
    return None if asked is None else asked.minimum


def values_of(instance, name, best, inside, outside):
    """The least value with the element in, and with it out; None where there is no such set."""
    if name in best.least:
        return best.minimum, value_of(ask(instance, inside, [*outside, name]))
    if name not in best.greatest:
        return value_of(ask(instance, [*inside, name], outside)), best.minimum
    return best.minimum, best.minimum


def table(rows):
    """A row for each element: its name, the least value with it in and with it out, and its price."""
    cells = [("element", "in", "out", "price")]
    for name, *values in rows:
        price = "-" if None in values else str(values[0] - values[1])
        cells.append((name, *("none" if value is None else str(value) for value in values), price))
    widths = [max(len(row[column]) for row in cells) for column in range(4)]
    return ["  ".join([row[0].ljust(widths[0]), *(row[i].rjust(widths[i]) for i in (1, 2, 3))]) for row in cells]


def main():
    parser = argparse.ArgumentParser(description=__doc__, formatter_class=argparse.RawDescriptionHelpFormatter)
    parser.add_argument("file", help="an instance")
    parser.add_argument("pins", nargs="?", help="a text of pins, which hold throughout")
    options = parser.parse_args()
    instance = read_bytes(options.file).decode("utf-8", "surrogateescape")
    if options.pins:
        held = read_pins(options.pins)
        best = asked_of(options.file, options.pins)
    else:
        held = [], []
        best = ask(instance, *held)
    if best is None:
        print("none")
        return
    free = [name for name in ground_of(instance) if name not in held[0] and name not in held[1]]
    print(f"least value {best.minimum}")
    print("\n".join(table([(name, *values_of(instance, name, best, *held)) for name in free])))


if __name__ == "__main__":
    sys.exit(run_main(main))
