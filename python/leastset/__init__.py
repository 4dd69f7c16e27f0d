"""The sets that a sum of integer submodular functions values least, exactly and with a proof.

An instance has elements, which are anything that can be hashed, and terms; each term is a method of `Instance`. What costs is
above 0, what brings something is below 0, and the answer tells the sets that are worth least:

>>> import leastset
>>> towns = leastset.Instance(["ash", "birch", "cedar", "dale"])
>>> towns.weight({"ash": -5, "birch": -5, "cedar": -3, "dale": -1})
>>> towns.cover(7, ["ash", "birch"])
>>> towns.cover(4, ["cedar", "dale"])
>>> answer = leastset.solve(towns)
>>> answer.minimum, sorted(answer.least)
(-3, ['ash', 'birch'])
>>> [sorted(best) for best in answer.minimisers()]
[['ash', 'birch'], ['ash', 'birch', 'cedar', 'dale']]

The work is done by the proved solver and judge: by the library libsfm.so where it is found, and else by the program sfm (`engines`).
`solve` has each answer judged. Nothing is proved of this package itself. `leastset.models` has well-known problems.
"""
from .answer import Answer, Block, Common, Level, Pinned, Step
from .calls import ask, check, level, meet, met, solve, weigh
from .engines import Library, Program, engine, use
from .errors import Error, Failed, Invalid, NoEngine, OutOfMemory, Refused, TimedOut, Unreadable
from .instance import Instance

__version__ = "1.0.0"
__all__ = [
    "Answer",
    "Block",
    "Common",
    "Error",
    "Failed",
    "Instance",
    "Invalid",
    "Level",
    "Library",
    "NoEngine",
    "OutOfMemory",
    "Pinned",
    "Program",
    "Refused",
    "Step",
    "TimedOut",
    "Unreadable",
    "ask",
    "check",
    "engine",
    "level",
    "meet",
    "met",
    "solve",
    "use",
    "weigh",
]
