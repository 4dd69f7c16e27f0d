"""Instances in, answers out: `solve`, `weigh`, `ask`, `level` and `check`; and of two instances `meet` and `met`.

An instance is an `Instance`, or the text of one, whose elements are then its names. With `timeout` a call ends with `TimedOut`
after so many seconds; it is made by the program, as a call of the library can't be stopped.
"""
from __future__ import annotations

import time
from typing import FrozenSet, Iterable, List, Mapping, Optional, Sequence, Union

from .answer import Answer, Common, Level, Pinned, common_of, levelled, pinned
from .engines import engine
from .errors import Invalid, OutOfMemory, Refused, TimedOut
from .instance import Element, Instance, Number, whole
from .texts import blamed, content, line_of, pins_text, sizes_text

Source = Union[Instance, str]


class _Clock:
    """What is left of a time that was given for one or more calls of an engine."""

    def __init__(self, timeout: Optional[float]) -> None:
        self.end = None if timeout is None else time.monotonic() + timeout

    def left(self) -> Optional[float]:
        if self.end is None:
            return None
        left = self.end - time.monotonic()
        if left <= 0:
            raise TimedOut("the time is over")
        return left


def solve(instance: Source, *, check: bool = True, timeout: Optional[float] = None) -> Answer:
    """The answer to an instance. With `check` it has been judged, and there is `Invalid` if it is not right.

    >>> towns = Instance(["ash", "birch", "cedar", "dale"])
    >>> towns.weight({"ash": -5, "birch": -5, "cedar": -3, "dale": -1})
    >>> towns.cover(7, ["ash", "birch"])
    >>> towns.cover(4, ["cedar", "dale"])
    >>> answer = solve(towns)
    >>> answer.minimum, sorted(answer.least), [sorted(block.members) for block in answer.blocks]
    (-3, ['ash', 'birch'], [['cedar', 'dale']])
    >>> [(str(slope), len(members)) for slope, members in answer.slopes]
    [('-3/2', 2), ('0', 4)]

    The bases prove the minimum: no set bears more in them than it is worth, and no set bears less than the negative sums.

    >>> sums = {town: sum(base.get(town, 0) for base in answer.bases()) for town in towns.ground}
    >>> sum(min(0, bears) for bears in sums.values())
    -3
    """
    return _answered(instance, None, check, _Clock(timeout))


def weigh(
    instance: Source, sizes: Mapping[Element, Number], *, check: bool = True, timeout: Optional[float] = None
) -> Answer:
    """The answer with slopes that count each element by its size, from 1; one without a size counts as 1.

    >>> shop = Instance(["drill", "lathe", "press"])
    >>> shop.weight({"drill": -30, "lathe": -40, "press": -18})
    >>> [(str(step.slope), *step.new) for step in weigh(shop, {"drill": 5, "lathe": 10, "press": 9}).steps]
    [('-6', 'drill'), ('-4', 'lathe'), ('-2', 'press')]
    """
    return _answered(instance, sizes, check, _Clock(timeout))


def ask(
    instance: Source, inside: Iterable[Element] = (), outside: Iterable[Element] = (), *, timeout: Optional[float] = None
) -> Optional[Pinned]:
    """The least value among the sets that have all elements of the one list and none of the other, with the smallest and the
    greatest set that attain it; None where there is no such set. It comes without a proof, so nothing judges it. An element that
    stands in both lists is a fault.

    >>> mill = Instance(["mill", "dam"])
    >>> mill.weight({"mill": -4, "dam": 6})
    >>> mill.need("mill", "dam")
    >>> ask(mill, inside=["mill"]).minimum
    2
    >>> ask(mill, inside=["mill"], outside=["dam"])
    """
    held_in, held_out = dict.fromkeys(inside), dict.fromkeys(outside)
    for element in held_in:
        if element in held_out:
            raise ValueError(f"{element!r} is held in and held out")
    pins = pins_text(_names(instance, held_in), _names(instance, held_out))
    return pinned(_done("ask", _Clock(timeout), _text(instance), pins), instance)


def level(instance: Source, *, timeout: Optional[float] = None) -> Level:
    """The most level way to share out what all elements are worth together: no set has more than it is worth, and the sum of
    squares is least. Nothing judges it; that its bases are such is told by their terms.

    >>> loads = Instance(["lathe", "mill", "press"])
    >>> loads.cover(12, ["lathe", "mill"])
    >>> loads.cover(6, ["mill", "press"])
    >>> level(loads).vector
    {'lathe': 6, 'mill': 6, 'press': 6}
    """
    return levelled(_done("level", _Clock(timeout), _text(instance)), instance)


def meet(left: Source, right: Source, *, check: bool = True, timeout: Optional[float] = None) -> Common:
    """A greatest vector that both of two instances allow: no set gets more than it is worth in either. With `check` it has been
    judged, and there is `Invalid` if it is not right. Both have the same elements in the same order, and no `need`.

    >>> clubs = ["arts", "books", "choir", "dance"]
    >>> town, county = Instance(clubs), Instance(clubs)
    >>> for number, funded in [(7, ["arts", "books"]), (5, ["books", "choir"]), (6, ["dance"])]:
    ...     town.cover(number, funded)
    >>> for number, funded in [(4, ["arts", "dance"]), (9, ["books"]), (8, ["choir"])]:
    ...     county.cover(number, funded)
    >>> plan = meet(town, county)
    >>> plan.total, sorted(plan.members), sum(plan.common.values())
    (16, ['books', 'choir'], 16)

    The bases prove that: in a sum of them no set gets more than it is worth.

    >>> sums = [{club: sum(base.get(club, 0) for base in bases) for club in clubs} for bases in (plan.left, plan.right)]
    >>> plan.common == {club: min(it[club] for it in sums) for club in clubs}
    True
    """
    if isinstance(left, Instance) and isinstance(right, Instance) and left.ground != right.ground:
        raise ValueError("the two instances do not have the same elements in the same order")
    clock, texts = _Clock(timeout), (_text(left), _text(right))
    said = _done("meet", clock, *texts)
    if check:
        _done("met", clock, *texts, said)
    return common_of(said, left, right)


def met(left: Source, right: Source, answer: Union[Common, str], *, timeout: Optional[float] = None) -> None:
    """Judges what `meet` tells, or a text of that form, whoever wrote it: nothing where it is right, else there is `Invalid`.

    >>> one, other = Instance(["ash"]), Instance(["ash"])
    >>> one.weight({"ash": 5})
    >>> other.weight({"ash": 3})
    >>> met(one, other, meet(one, other))
    >>> met(one, other, meet(one, other).text.replace("value 3", "value 4"))
    Traceback (most recent call last):
    leastset.errors.Invalid: invalid 2 answer
    """
    _done("met", _Clock(timeout), _text(left), _text(right), answer.text if isinstance(answer, Common) else answer)


def check(
    instance: Source,
    answer: Union[Answer, str],
    sizes: Optional[Mapping[Element, Number]] = None,
    *,
    timeout: Optional[float] = None,
) -> None:
    """Judges an answer, whoever wrote it: nothing where it is right, else there is `Invalid` with its first wrong line.

    `sizes` are those that `weigh` was given, and are known of an `Answer` of it.

    >>> one = Instance(["ash"])
    >>> one.weight({"ash": -5})
    >>> check(one, solve(one))
    >>> check(one, solve(one).text.replace("minimum -5", "minimum -6"))
    Traceback (most recent call last):
    leastset.errors.Invalid: invalid 2 answer
    """
    if isinstance(answer, Answer):
        sizes = answer.sizes if sizes is None else sizes
        answer = answer.text
    _done("check" if sizes is None else "weighed", _Clock(timeout), *_texts(instance, sizes), answer)


def _answered(instance: Source, sizes: Optional[Mapping[Element, Number]], checked: bool, clock: _Clock) -> Answer:
    texts = _texts(instance, sizes)
    said = _done("solve" if sizes is None else "weigh", clock, *texts)
    if checked:
        _done("check" if sizes is None else "weighed", clock, *texts, said)
    known = None if sizes is None else {element: whole(size, "a size") for element, size in sizes.items()}
    return Answer(said, instance, known)


def _done(word: str, clock: _Clock, *texts: str) -> str:
    """What an engine says to these texts; a refusal, a verdict of invalid and want of memory are raised."""
    left = clock.left()
    given = [text.encode("utf-8", "surrogateescape") for text in texts]
    code, said = engine(word, left is not None).call(word, *given, timeout=left)
    text = said.decode("ascii")
    if code == 5:
        raise OutOfMemory("out of memory")
    if code == 1:
        raise Invalid(text)
    if code == 2:
        raise _refusal(text, texts)
    return text


def _refusal(said: str, texts: Sequence[str]) -> Refused:
    """The refusal with the line that it names: that of the instance, or of the text beside it."""
    word, number, reason = said.split()
    source = line_of(texts[0 if word in ("refused", "left") else 1], int(number))
    # the right one of two instances has a ground of its own
    lines = content(texts[1 if word == "right" else 0])
    names: FrozenSet[str] = frozenset(lines[1].split()[1:]) if len(lines) > 1 else frozenset()
    return Refused(said, source, blamed(reason, source, names))


def _text(instance: Source) -> str:
    return instance.text() if isinstance(instance, Instance) else instance


def _names(instance: Source, elements: Iterable[Element]) -> List[str]:
    return [instance.name(element) if isinstance(instance, Instance) else str(element) for element in elements]


def _texts(instance: Source, sizes: Optional[Mapping[Element, Number]]) -> List[str]:
    """The text of the instance, and that of the sizes where there are any."""
    if sizes is None:
        return [_text(instance)]
    wholes = [whole(size, f"the size of {element!r}") for element, size in sizes.items()]
    return [_text(instance), sizes_text(dict(zip(_names(instance, sizes), wholes)))]
