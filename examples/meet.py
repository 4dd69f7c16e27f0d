#!/usr/bin/env python3
"""Chooses as many links of a table as can be built, none that closes a ring, and no more of any firm than it builds.

LINKS is a table in CSV with the columns link, from, to (two places) and firm; each firm builds one link, or as many as --each says.
The links are the elements of two instances, a rank of the network and a rank for each firm, and `sfm meet` gives a greatest common
vector: 1 for each link that is chosen, which `sfm met` judges. What bounds their number is told too: some links of which no more go
without a ring, and the firms of all others. --all compares with all choices of at most 20 links.

    python3 meet.py data/links.csv
"""
import argparse
import os
import sys
from collections import namedtuple

from answers import leastset, stopped
from every_set import is_forest
from faults import MOST_NAMES, fault, name_of, run_main, whole_of, write_text
from projects import read_rows

COLUMNS = ("link", "from", "to", "firm")
# The most links of which --all tries each choice.
MOST_TRIED = 20

Link = namedtuple("Link", "u v firm")
# What `sfm meet` tells: how many links, the links that bound the number together with the firms of the others, and those chosen.
Found = namedtuple("Found", "count inner chosen")


def read_links(path):
    """The links of a table by their names."""
    links, lines = {}, {}
    for line, row in read_rows(path, COLUMNS):
        name = name_of(path, line, row["link"])
        if name in links:
            raise fault(path, line, f"the name {name} stands twice, first in line {lines[name]}")
        links[name] = Link(*(name_of(path, line, row[column]) for column in COLUMNS[1:]))
        lines[name] = line
    if not links:
        raise fault(path, None, "no link stands in it")
    if len(links) > MOST_NAMES:
        raise fault(path, None, f"it has more than {MOST_NAMES} links, the most that an instance has")
    return links


def by_firm(links):
    """The links of each firm."""
    firms = {}
    for name, link in links.items():
        firms.setdefault(link.firm, []).append(name)
    return firms


def network_of(links):
    """Links are independent where they close no ring."""
    network = leastset.Instance(links)
    network.rank_graphic(1, {name: (link.u, link.v) for name, link in links.items()})
    return network


def firms_of(links, each):
    """Links are independent where no firm builds too many."""
    firms = leastset.Instance(links)
    for names in by_firm(links).values():
        firms.rank_uniform(1, each, names)
    return firms


def meet(links, each, folder):
    """What is told of the two instances, and was judged. Where there is a folder, both are kept in it, and the text that tells it."""
    left, right = network_of(links), firms_of(links, each)
    if folder:
        write_text(os.path.join(folder, "network.sfm"), left.text())
        write_text(os.path.join(folder, "firms.sfm"), right.text())
    with stopped("meet"):
        told = leastset.meet(left, right)
    if folder:
        write_text(os.path.join(folder, "met"), told.text)
    inner = [name for name in links if name in told.members]
    return Found(told.total, inner, [name for name, entry in told.common.items() if entry == 1])


def tell(links, found):
    """What is chosen and what bounds it, as lines of text."""
    firms = sorted({link.firm for name, link in links.items() if name not in found.inner})
    lines = [f"{found.count} links", "chosen by one best plan: " + " ".join(found.chosen)]
    if found.inner:
        lines.append("bounded by rings among " + " ".join(found.inner))
    if firms:
        lines.append("bounded by the firms " + " ".join(firms))
    return lines


def is_plan(links, each, names):
    """Whether these links close no ring and no firm builds too many."""
    chosen = [links[name] for name in names]
    firms = [link.firm for link in chosen]
    return is_forest([(link.u, link.v) for link in chosen]) and all(firms.count(firm) <= each for firm in firms)


def compare(path, links, each, found):
    """Whether the plan is one, and no plan has more links. All sets of links are tried."""
    names = list(links)
    if len(names) > MOST_TRIED:
        raise fault(path, None, f"it has more links than the {MOST_TRIED} of which --all tries each choice")
    choices = ([name for i, name in enumerate(names) if number >> i & 1] for number in range(2 ** len(names)))
    most = max(len(choice) for choice in choices if is_plan(links, each, choice))
    print(f"most links of all plans: {most}")
    return 0 if is_plan(links, each, found.chosen) and len(found.chosen) == found.count == most else 1


def main():
    parser = argparse.ArgumentParser(description=__doc__, formatter_class=argparse.RawDescriptionHelpFormatter)
    parser.add_argument("links", help="a table of links in CSV")
    parser.add_argument("--each", default="1", help="how many links each firm builds")
    parser.add_argument("--folder", help="where to keep both instances and what is told of them")
    parser.add_argument("--all", action="store_true", help="compare with all choices of a few links")
    options = parser.parse_args()
    links = read_links(options.links)
    each = whole_of("--each", None, "the number of links that each firm builds", options.each)
    if each < 0:
        raise fault("--each", None, f"{each} is below 0")
    found = meet(links, each, options.folder)
    print("\n".join(tell(links, found)))
    return compare(options.links, links, each, found) if options.all else 0


if __name__ == "__main__":
    sys.exit(run_main(main))
