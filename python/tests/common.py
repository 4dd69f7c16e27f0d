"""What the tests of the package share: the engines, and random instances.

LEASTSET_PROGRAM names the program, and LEASTSET_LIBRARY the library: without it, what needs it is passed over."""
import os
import sys
import unittest
from pathlib import Path

import leastset

TOP = Path(__file__).resolve().parents[2]
sys.path.append(str(TOP / "examples"))
import every_set  # noqa: E402

# the scripts of examples/ let all calls go to the program
leastset.use(None)
PROGRAM = leastset.Program(os.environ["LEASTSET_PROGRAM"])
LIBRARY = leastset.Library(os.environ["LEASTSET_LIBRARY"]) if "LEASTSET_LIBRARY" in os.environ else None
ENGINES = [engine for engine in (PROGRAM, LIBRARY) if engine]
needs_library = unittest.skipUnless(LIBRARY, "there is no library")


class Test(unittest.TestCase):
    """A test that may let calls go to one engine."""

    def tearDown(self):
        leastset.use(None)


def random_ground(rng):
    """At most 7 elements of several types."""
    kinds = [lambda i: f"x{i}", lambda i: i, lambda i: ("r", i), lambda i: frozenset([i]), lambda i: f"{i}, ü"]
    return [rng.choice(kinds)(i) for i in range(rng.randint(1, 7))]


def random_instance(rng, ground, conditions=True):
    """A random instance over these elements, with all kinds of terms, or with all but conditions."""
    made = leastset.Instance(ground)

    def some(least=1):
        return rng.sample(ground, rng.randint(min(least, len(ground)), len(ground)))

    def falling(count):
        rises = sorted((rng.randint(-9, 9) for _ in range(count)), reverse=True)
        return [sum(rises[: i + 1]) for i in range(count)]

    def weights(members):
        return {element: rng.randint(1, 4) for element in members if rng.random() < 0.5} if rng.random() < 0.3 else None

    for _ in range(rng.randint(0, 7)):
        kind, members, number = rng.randrange(11), some(), rng.randint(0, 9)
        if kind < 2:
            made.weight({element: rng.randint(-9, 9) for element in members})
        elif kind in (2, 3, 4) and len(ground) > 1:
            pair = rng.sample(ground, 2)
            if kind > 2:
                (made.cut if kind == 3 else made.border)(number, *pair)
            elif conditions:
                made.need(*pair)
        elif kind == 5:
            made.cover(number, members)
        elif kind == 6:
            made.concave(falling(len(members)), members)
        elif kind == 7:
            worths = [0, *falling(len(members[:3]))]
            made.table(lambda chosen, worths=worths: worths[len(chosen)], members[:3])
        elif kind == 8:
            made.rank_uniform(number, rng.randint(0, 3), members, weights(members))
        elif kind == 9:
            made.rank_graphic(number, {element: (rng.randrange(4), rng.randrange(4)) for element in members}, weights(members))
        else:
            made.rank_transversal(
                number, {element: rng.sample("abcd", rng.randint(1, 3)) for element in members}, weights(members)
            )
            made.rank_laminar(number, members, [(rng.randint(0, 3), members[:2]), (1, members[:1])], weights(members))
    return made
