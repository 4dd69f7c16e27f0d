#!/usr/bin/env python3
"""Counts walks: of the minimum of an instance in which one term was changed, from the first bases of the terms and from the bases
before the change (`resume` of crates/sfm_edit), and prints a table.

The kinds of instances are those of ladder.py. The text of edits drops a line and adds it with another number, up to 100 more or less: a
weight line with that of one element, a concave line with all of its numbers by as much, and a `need` line, which has none, with another
second name. The lines are spread evenly over the file. The program prints no walks, so a small one is written into a copy of the crates
in a temporary folder, built without proofs by `rt try`, and run there. Both minima have to be the same.
"""
import argparse
import math
import os
import random
import shutil
import subprocess
import sys
import tempfile

from ladder import KINDS, write_instance

TOP = os.path.dirname(os.path.dirname(os.path.abspath(__file__)))
CRATE = "walks: sfm_edit sfm_side sfm_text sfm_walk sfm_kind sfm_law sfm_base sfm_spec anyhow\n"
SOURCE = """\
// Counts walks. The words are names of files, in pairs of an instance and a text of edits. For each pair a line has the walks to the
// minimum of the instance, those to that of the edited one from the first bases, those to that from the bases before the edits, and
// these two minima.
#![tactic(auto)]

use sfm_base::{Numbers, Steps};
use sfm_edit::{apply, resume};
use sfm_text::read_instance;
use sfm_walk::minimise_counted;
use std::alloc::Global;
use std::{env, fs};

#[derive(Clone, Copy)]
struct Counted {
    before: u64,
    cold: u64,
    resumed: u64,
    cold_minimum: i64,
    resumed_minimum: i64,
}

/// The minimum that bases prove: the sum of what is below 0 in z.
fn minimum_of(z: &Numbers) -> i64 {
    let mut sum = 0i64;
    for number in z.as_slice() {
        if *number < 0 {
            sum += *number as i64;
        }
    }
    sum
}

fn counted(alloc: Global, text: &[u8], edits: &[u8]) -> Option<Counted> {
    let instance = read_instance(alloc, text).ok()?;
    let n = instance.names_len();
    let mut before = Steps::new();
    let old = minimise_counted(alloc, instance.terms(), n, 0, 1, &mut before).ok()?;
    let edited = apply(alloc, instance, edits).ok()?;
    let mut cold = Steps::new();
    let afresh = minimise_counted(alloc, edited.instance.terms(), n, 0, 1, &mut cold).ok()?;
    let mut resumed = Steps::new();
    let found = resume(alloc, &edited, &old.bases, &mut resumed).ok()?;
    Some(Counted {
        before: before.count(),
        cold: cold.count(),
        resumed: resumed.count(),
        cold_minimum: minimum_of(&afresh.z),
        resumed_minimum: minimum_of(&found.z),
    })
}

fn main(rt: HostRuntime) -> anyhow::Result<()> {
    let mut words = env::args(&rt)?.skip(1);
    while let Some(name) = words.next() {
        let Some(other) = words.next() else {
            break;
        };
        let text = fs::read(&rt, name.as_str())?;
        let edits = fs::read(&rt, other.as_str())?;
        match counted(rt.alloc(), text.as_slice(), edits.as_slice()) {
            Some(it) => {
                let Counted {
                    before,
                    cold,
                    resumed,
                    cold_minimum,
                    resumed_minimum,
                } = it;
                println!(rt; "{before} {cold} {resumed} {cold_minimum} {resumed_minimum}")?;
            }
            None => println!(rt; "none")?,
        }
    }
    Ok(())
}
"""


def other(number, least, rng):
    """Another number, up to 100 more or less, and no less than the least."""
    found = number
    while found == number:
        found = max(least, number + rng.randint(-100, 100))
    return found


def changed(lines, place, rng):
    """A term line with another number, or with another second name where it has none."""
    word, *rest = lines[place].split(" ")
    if word == "weight":
        at = rng.randrange(len(rest))
        name, number = rest[at].split(":")
        rest[at] = f"{name}:{other(int(number), -(10**12), rng)}"
    elif word == "need":
        seconds = {line.split(" ")[2] for line in lines if line.startswith("need ")}
        rest[1] = rng.choice(sorted(seconds - set(rest)))
    elif word == "concave":
        # the first rise alone changes, and may not fall below the second
        numbers = [int(number) for number in rest[: rest.index(":")]]
        more = other(numbers[0], numbers[1] - numbers[0], rng) - numbers[0]
        rest[: len(numbers)] = [str(number + more) for number in numbers]
    else:
        rest[0] = str(other(int(rest[0]), 0, rng))
    return " ".join([word, *rest])


def write_edits(folder, kind, size, options):
    """Writes an instance and texts of edits of it, and gives their names in pairs, and the number of its terms."""
    name = f"{kind}_{size}"
    path = os.path.join(folder, name + ".sfm")
    terms = write_instance(path, kind, size, options.seed)
    with open(path, encoding="ascii") as file:
        lines = file.read().splitlines()[2:-1]
    rng = random.Random(f"{kind} {size} {options.seed} changes")
    pairs = []
    for turn in range(options.changes):
        place = turn * terms // options.changes
        edits = f"{name}_{turn + 1}.edits"
        with open(os.path.join(folder, edits), "w", encoding="ascii") as file:
            file.write(f"edits 1\ndrop {place + 1}\nadd {changed(lines, place, rng)}\nend\n")
        pairs += [name + ".sfm", edits]
    return pairs, terms


def write_crate(folder):
    """Copies the crates and adds the one that counts, whose folder is given."""
    shutil.copytree(os.path.join(TOP, "crates"), os.path.join(folder, "crates"), ignore=shutil.ignore_patterns("out"))
    for name in ("crates.txt", "HANDLES"):
        shutil.copy(os.path.join(TOP, name), folder)
    with open(os.path.join(folder, "crates.txt"), "a", encoding="utf-8") as file:
        file.write(CRATE)
    crate = os.path.join(folder, "crates", "walks")
    os.makedirs(os.path.join(crate, "src"))
    with open(os.path.join(crate, "src", "main.rt"), "w", encoding="utf-8") as file:
        file.write(SOURCE)
    return crate


def run_counts(crate, pairs, options):
    """Builds the program and runs it on all pairs, and gives the numbers of each."""
    words = ["rt", "try", "--seconds", str(options.seconds), "--", *pairs]
    done = subprocess.run(words, cwd=crate, stdin=subprocess.DEVNULL, stdout=subprocess.PIPE, stderr=subprocess.PIPE, text=True)
    lines = done.stdout.splitlines()
    if done.returncode != 0 or len(lines) != len(pairs) // 2 or "none" in lines:
        sys.exit(f"rt try ends with {done.returncode} after {len(lines)} of {len(pairs) // 2} lines:\n{done.stderr}{done.stdout}")
    return [[int(word) for word in line.split()] for line in lines]


def parse_words():
    parser = argparse.ArgumentParser(description=__doc__, formatter_class=argparse.RawDescriptionHelpFormatter)
    parser.add_argument("--kinds", nargs="+", choices=list(KINDS), default=list(KINDS))
    parser.add_argument("--sizes", nargs="+", type=int, default=[128, 256])
    parser.add_argument("--seed", type=int, default=1)
    parser.add_argument("--changes", type=int, default=12, help="in how many lines, one at a time")
    parser.add_argument("--seconds", type=int, default=3600, help="for all runs together")
    options = parser.parse_args()
    if any(not 16 <= size <= 256 for size in options.sizes) or options.changes < 1:
        parser.error("sizes are from 16 to 256, and there is one change or more")
    return options


def print_row(kind, size, terms, counts):
    """Prints the row of one instance, and gives the mean of its quotients and whether all minima are the same."""
    before = counts[0][0]
    cold, resumed = (sum(count[place] for count in counts) / len(counts) for place in (1, 2))
    # where no walk leads from the first bases, nothing can be saved
    quotient = sum(count[2] / count[1] if count[1] else 1 for count in counts) / len(counts)
    row = [kind, size, terms, before, f"{cold:.1f}", f"{resumed:.1f}", f"{quotient:.3f}"]
    print("| " + " | ".join(str(cell) for cell in row) + " |")
    return quotient, all(count[3] == count[4] for count in counts)


def main():
    options = parse_words()
    instances = [(kind, size) for kind in options.kinds for size in options.sizes]
    with tempfile.TemporaryDirectory() as folder:
        crate = write_crate(folder)
        written = [write_edits(crate, kind, size, options) for kind, size in instances]
        found = run_counts(crate, [name for pairs, _ in written for name in pairs], options)
    head = [f"Instance, seed {options.seed}", "Elements", "Terms", "Walks", "After a change, cold", "Resumed", "Quotient"]
    print("| " + " | ".join(head) + " |\n|" + "---|" * len(head))
    ended = []
    for (kind, size), (_, terms) in zip(instances, written):
        counts, found = found[: options.changes], found[options.changes :]
        ended.append(print_row(kind, size, terms, counts))
    mean = math.exp(sum(math.log(max(quotient, 1e-6)) for quotient, _ in ended) / len(ended))
    print(f"\nThe geometric mean of the quotients is {mean:.3f}.")
    if not all(same for _, same in ended):
        sys.exit("the minima differ")
    return 0


if __name__ == "__main__":
    sys.exit(main())
