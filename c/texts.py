#!/usr/bin/env python3
"""texts.py FOLDER COUNT: writes COUNT random instances, texts of sizes, pins and edits beside them, and second instances over the
same elements into FOLDER, always the same: N.sfm, N.sizes, N.pins, N.edits and N.right. Some of them have a fault."""
import random
import sys
from pathlib import Path

rng = random.Random(1)


def some(names, least, most):
    return rng.sample(names, rng.randint(min(least, len(names)), min(most, len(names))))


def falling(count, most):
    """So many numbers, of which none is greater than the one before it."""
    return sorted((rng.randint(-most, most) for _ in range(count)), reverse=True)


def term(names):
    kind = rng.randrange(9)
    members = some(names, 2, 6)
    if kind == 0:
        return " ".join(["weight", *(f"{name}:{rng.randint(-9, 9)}" for name in members)])
    if kind == 1:
        return " ".join([f"cover {rng.randint(0, 9)}", *members])
    if kind == 2 and len(names) > 1:
        return f"cut {rng.randint(0, 9)} {' '.join(rng.sample(names, 2))}"
    if kind == 3 and len(names) > 1:
        return f"need {' '.join(rng.sample(names, 2))}"
    if kind == 4:
        return " ".join(["concave", *map(str, falling(len(members), 9)), ":", *members])
    if kind == 5:
        return " ".join([f"rank {rng.randint(0, 9)} uniform {rng.randint(1, 3)} :", *members])
    if kind == 6:
        edges = (f"{name}=v{rng.randrange(4)}-v{rng.randrange(4)}" for name in members)
        return " ".join([f"rank {rng.randint(0, 9)} graphic :", *edges])
    if kind == 7:
        sides = (f"{name}=" + ",".join(rng.sample("abcd", 2)) for name in members)
        return " ".join([f"rank {rng.randint(0, 9)} transversal :", *sides])
    return " ".join([f"weight {rng.choice(names)}:{rng.randint(-20, 20)}"])


def instance(names):
    return ["sfm 1", " ".join(["ground", *names]), *(term(names) for _ in range(rng.randint(0, 8))), "end"]


def sizes(names):
    return ["sizes 1", *(f"size {name}:{rng.randint(1, 5)}" for name in some(names, 0, 10)), "end"]


def pins(names):
    held = some(names, 0, 4)
    return ["pins 1", *(f"{rng.choice(['in', 'out'])} {name}" for name in held), "end"]


def edits(names):
    lines = (f"add {term(names)}" if rng.randrange(3) else f"drop {rng.randint(1, 4)}" for _ in range(rng.randint(0, 4)))
    return ["edits 1", *lines, "end"]


def right(names):
    """A second instance; most of them have no conditions, as two instances with one are refused."""
    return [line for line in instance(names) if rng.randrange(4) == 0 or not line.startswith("need")]


def written(lines):
    """The text of the lines, in one of six cases with a fault that a hand makes."""
    text = bytearray("".join(line + "\n" for line in lines).encode())
    if rng.randrange(6) == 0:
        at = rng.randrange(len(text))
        way = rng.randrange(4)
        if way == 0:
            text[at] = rng.choice(b"\n :-0a9\x00\xff")
        elif way == 1:
            del text[at]
        elif way == 2:
            del text[at:]
        else:
            text[at:at] = rng.choice([b"\n", b" ", b"#", b"end\n", b"-", b"x0"])
    return bytes(text)


def main():
    folder, count = Path(sys.argv[1]), int(sys.argv[2])
    for number in range(count):
        names = [f"x{i}" for i in range(rng.randint(1, 10))]
        (folder / f"{number}.sfm").write_bytes(written(instance(names)))
        for kind in (sizes, pins, edits, right):
            (folder / f"{number}.{kind.__name__}").write_bytes(written(kind(names)))


main()
