"""What an answer says, in the elements of its instance."""
from __future__ import annotations

import re
from bisect import bisect_left, bisect_right
from fractions import Fraction
from functools import cached_property
from typing import Dict, FrozenSet, Iterable, Iterator, List, Mapping, NamedTuple, Optional, Sequence, Tuple, Union

from .errors import Unreadable
from .instance import Element, Instance
from .texts import content, members_of_bases, parts

Slope = Union[int, float, Fraction]


class Block(NamedTuple):
    """Elements that come along whole or not at all, each time with the blocks that they need: places in `blocks`, from 0."""

    members: FrozenSet[Element]
    needs: FrozenSet[int]


class Step(NamedTuple):
    """A slope, the elements that come in there, all that are in from there on, and what these are worth. Elements are in the order
    of the ground. The worth is None where they count by sizes that were not told."""

    slope: Fraction
    new: Tuple[Element, ...]
    members: Tuple[Element, ...]
    worth: Optional[Fraction]


class Pinned(NamedTuple):
    """The least value among the sets that keep to pins, and the smallest and the greatest of them that attain it."""

    minimum: int
    least: FrozenSet[Element]
    greatest: FrozenSet[Element]


class Level(NamedTuple):
    """A number for each element, all together what the ground is worth and no set with more than it is worth, with the least sum of
    squares; and for each term a base, a number for each of its elements: these add up to the vector."""

    squares: int
    vector: Dict[Element, int]
    bases: List[Dict[Element, int]]


class Common(NamedTuple):
    """A number for each element, `common`, of which no set gets more than it is worth in either of two instances; no such
    numbers have a greater `total`. That is what the set `members` is worth in the left instance and its rest in the right one, and
    no smaller set shows it. For each term of either there is a base, a number for each of its elements: the smaller of the two
    sums at an element is its number in `common`. `text` is what was written, which `met` judges."""

    total: int
    members: FrozenSet[Element]
    common: Dict[Element, int]
    left: List[Dict[Element, int]]
    right: List[Dict[Element, int]]
    text: str


LISTED = r"((?: [A-Za-z0-9_]+)*)"
NUMBERS = "(?: -?[0-9]+)*"
LABEL = "[0-9]+(?:\\.[0-9]+)?"
# The lines of an answer up to its proof, in their order: those of a word may stand there as often as is said.
LINES = [
    ("answer", re.compile("answer 1|weighed 1"), 1),
    ("minimum", re.compile(r"minimum (-?[0-9]+)"), 1),
    ("least", re.compile("least" + LISTED), 1),
    ("greatest", re.compile("greatest" + LISTED), 1),
    ("block", re.compile(f"block [0-9]+{LISTED} :((?: [0-9]+)*)"), None),
    ("slope", re.compile(f"slope (-?[0-9]+)/([1-9][0-9]*){LISTED}"), None),
]
PINNED = re.compile(rf"pinned 1\nminimum (-?[0-9]+)\nleast{LISTED}\ngreatest{LISTED}\nend\n")
LEVEL = re.compile(rf"level 1\nsquares ([0-9]+)\nvector({NUMBERS})\n((?:base {LABEL}{NUMBERS}\n)*)end\n")
COMMON = re.compile(
    rf"meet 1\nvalue (-?[0-9]+)\nset{LISTED}\ncommon({NUMBERS})\n"
    rf"((?:left {LABEL}{NUMBERS}\n)*)((?:right {LABEL}{NUMBERS}\n)*)end\n"
)
# What other texts begin with that are taken for answers.
OTHERS = {
    "": "the file is empty, or begins with a blank line",
    "sfm": "this is an instance; an answer is what 'sfm solve' writes for it",
    "valid": "this is a verdict and no answer",
    "invalid": "this is a verdict and no answer",
    "demo": "this is the line of 'sfm demo' and no answer",
}


class Answer:
    """An answer text and what it says.

    `instance` is what it answers, if its elements and its bases are to be told by more than names; `sizes` are those by which its
    slopes count elements. Where the text is no answer there is `Unreadable`; whether it is the right one, `check` tells.

    >>> text = "answer 1,minimum -3,least ash,greatest ash birch,block 1 birch :,slope -3/1 ash,slope 0/1 ash birch,at 0/1,.."
    >>> answer = Answer(text.replace(",", chr(10)))
    >>> answer.minimum, answer.least, answer.slope_of("birch")
    (-3, frozenset({'ash'}), Fraction(0, 1))
    >>> [sorted(best) for best in answer.minimisers()]
    [['ash'], ['ash', 'birch']]
    """

    #: what the best sets are worth
    minimum: int
    #: the smallest best set
    least: FrozenSet[Element]
    #: the greatest best set
    greatest: FrozenSet[Element]

    def __init__(
        self, text: str, instance: Union[Instance, str, None] = None, sizes: Optional[Mapping[Element, int]] = None
    ) -> None:
        #: the whole text, with its proof
        self.text = text
        #: the sizes that were told
        self.sizes = sizes
        #: what all best sets are made of: `least` and some blocks, each with all that it needs
        self.blocks: List[Block] = []
        #: the elements in their order
        self.ground: Tuple[Element, ...] = ()
        #: for each slope the greatest set that is best there
        self.slopes: List[Tuple[Fraction, FrozenSet[Element]]] = []
        self._elements = instance.elements() if isinstance(instance, Instance) else None
        # the term lines as they are now, as an instance may get further ones
        self._terms = tuple(instance.lines) if isinstance(instance, Instance) else instance
        proof = text.find("\nat ") + 1
        self._read((text[: text.find("\n", proof)] if proof else text).splitlines())

    def _read(self, lines: List[str]) -> None:
        """Reads the lines up to the first one of the proof."""
        at = 0
        for word, form, most in LINES:
            first = at
            words = (word, "weighed") if word == "answer" else (word,)
            while at < len(lines) and lines[at].split(" ")[0] in words and at - first != most:
                found = form.fullmatch(lines[at])
                if not found:
                    raise Unreadable(at + 1, f"this is no {word} line of an answer" if at else _no_answer(word, lines))
                self._take(word, found.groups())
                at += 1
            if most and at == first:
                raise Unreadable(at + 1, _no_answer(word, lines))
        if at == len(lines) or lines[at] != "at 0/1":
            raise Unreadable(at + 1, "the proof of an answer is due here, and its first line is 'at 0/1'")

    def _take(self, word: str, found: Tuple[str, ...]) -> None:
        if word == "minimum":
            self.minimum = int(found[0])
        elif word == "least":
            self.least = frozenset(self._listed(found[0]))
        elif word == "greatest":
            self.greatest = frozenset(self._listed(found[0]))
        elif word == "block":
            needs = frozenset(int(number) - 1 for number in found[1].split())
            self.blocks.append(Block(frozenset(self._listed(found[0])), needs))
        elif word == "slope":
            # the last one has the whole ground
            self.ground = self._listed(found[2])
            self.slopes.append((Fraction(int(found[0]), int(found[1])), frozenset(self.ground)))

    def _listed(self, names: str) -> Tuple[Element, ...]:
        found = names.split()
        return tuple(found) if self._elements is None else tuple(self._elements[name] for name in found)

    @cached_property
    def steps(self) -> List[Step]:
        """For each slope what comes in there. Each new element adds the slope to the worth, by its size."""
        found: List[Step] = []
        before: FrozenSet[Element] = frozenset()
        worth = None if self.sizes is None and self.text.startswith("weighed") else Fraction(0)
        for slope, members in self.slopes:
            new = self.in_order(members - before)
            if worth is not None:
                worth += slope * sum((self.sizes or {}).get(element, 1) for element in new)
            found.append(Step(slope, tuple(new), tuple(self.in_order(members)), worth))
            before = members
        return found

    def __repr__(self) -> str:
        counts = f"{len(self.least)} to {len(self.greatest)} elements, {len(self.slopes)} slopes"
        return f"<Answer minimum {self.minimum}, {counts}>"

    def in_order(self, elements: Iterable[Element]) -> List[Element]:
        """These elements in the order of the ground."""
        chosen = frozenset(elements)
        return [element for element in self.ground if element in chosen]

    def minimisers(self) -> Iterator[FrozenSet[Element]]:
        """All best sets, one after another, `least` first; there may be very many."""
        open_ends: List[Tuple[int, FrozenSet[Element], FrozenSet[int]]] = [(0, self.least, frozenset())]
        while open_ends:
            place, members, taken = open_ends.pop()
            if place == len(self.blocks):
                yield members
                continue
            block = self.blocks[place]
            if block.needs <= taken:
                open_ends.append((place + 1, members | block.members, taken | {place}))
            open_ends.append((place + 1, members, taken))

    def greatest_at(self, slope: Slope) -> FrozenSet[Element]:
        """The greatest best set where each element is cheaper by the slope, by its size where sizes were told."""
        place = bisect_right([at for at, _ in self.slopes], slope)
        return self.slopes[place - 1][1] if place else frozenset()

    def least_at(self, slope: Slope) -> FrozenSet[Element]:
        """The smallest such set: at a slope of `slopes` that of the one before, elsewhere the same as the greatest."""
        place = bisect_left([at for at, _ in self.slopes], slope)
        return self.slopes[place - 1][1] if place else frozenset()

    def slope_of(self, element: Element) -> Fraction:
        """The slope at which an element comes in: how much cheaper it and all others must get until it belongs to a best set."""
        for slope, members in self.slopes:
            if element in members:
                return slope
        raise ValueError(f"{element!r} is no element of this instance")

    def bases(self, slope: Slope = 0) -> List[Dict[Element, int]]:
        """The proof at a slope, 0 or one of `slopes`: for each term its base, a number for each of its elements. Where elements have
        weights, it is the sum of the bases of its layers.

        At p/q no set bears more in the base of a term than it is worth to q times that term. So the negative ones of the sums at
        each element, less p each, add to a bound on q times what any set is worth less p for each element, and that is attained.
        """
        if self._terms is None:
            raise ValueError("bases are told by the elements of terms: read the answer with its instance")
        ratio = Fraction(slope)
        lines = self.text.splitlines()
        try:
            start = lines.index(f"at {ratio.numerator}/{ratio.denominator}") + 1
        except ValueError:
            raise ValueError(f"{slope} is neither 0 nor a slope of this answer") from None
        terms = content(self._terms)[2:-1] if isinstance(self._terms, str) else self._terms
        return _bases(terms, lines[start:], self._elements)


def _bases(terms: Sequence[str], lines: Sequence[str], elements: Optional[Mapping[str, Element]]) -> List[Dict[Element, int]]:
    """For each term line its base, by elements, from the lines that tell it, which are the first of these."""
    rows, found = iter(lines), []
    for term in terms:
        base: Dict[Element, int] = dict.fromkeys(_named(parts(term)[1], elements), 0)
        for members in members_of_bases(term):
            for element, number in _vector(members, next(rows).split(" ")[2:], elements).items():
                base[element] += number
        found.append(base)
    return found


def _no_answer(due: str, lines: List[str]) -> str:
    """What is wrong where the line of a word is due and another one stands there, or none."""
    if due != "answer":
        return f"a line '{due} ..' is due here; has the answer been cut off?"
    first = lines[0] if lines else ""
    if first.startswith("refused"):
        return f"this is a refusal and no answer: {first}"
    return OTHERS.get(first.split(" ")[0], "this is no answer: its first line is not 'answer 1', nor 'weighed 1'")


def pinned(text: str, instance: Union[Instance, str, None] = None) -> Optional[Pinned]:
    """What a text on pins says; None where it says that no set keeps to them."""
    if text == "none\n":
        return None
    found = PINNED.fullmatch(text)
    if not found:
        raise Unreadable(1, "this is no text on pins")
    elements = instance.elements() if isinstance(instance, Instance) else {}
    least, greatest = (frozenset(elements.get(name, name) for name in names.split()) for names in found.groups()[1:])
    return Pinned(int(found[1]), least, greatest)


def levelled(text: str, instance: Union[Instance, str]) -> Level:
    """What a level text says of an instance."""
    found = LEVEL.fullmatch(text)
    if not found:
        raise Unreadable(1, "this is no level text")
    elements = instance.elements() if isinstance(instance, Instance) else None
    names, terms = _ground_and_terms(instance)
    return Level(int(found[1]), _vector(names, found[2].split(), elements), _bases(terms, found[3].splitlines(), elements))


def common_of(text: str, left: Union[Instance, str], right: Union[Instance, str]) -> Common:
    """What a common text says of two instances, in the elements of the one that has others than names."""
    found = COMMON.fullmatch(text)
    if not found:
        raise Unreadable(1, "this is no common text")
    elements = next((side.elements() for side in (left, right) if isinstance(side, Instance)), None)
    (names, terms), (_, others) = _ground_and_terms(left), _ground_and_terms(right)
    return Common(
        total=int(found[1]),
        members=frozenset(_named(found[2].split(), elements)),
        common=_vector(names, found[3].split(), elements),
        left=_bases(terms, found[4].splitlines(), elements),
        right=_bases(others, found[5].splitlines(), elements),
        text=text,
    )


def _ground_and_terms(instance: Union[Instance, str]) -> Tuple[List[str], List[str]]:
    """The names of the elements of an instance without a fault, and its term lines."""
    _, ground, *terms = content(instance.text() if isinstance(instance, Instance) else instance)[:-1]
    return ground.split()[1:], terms


def _named(names: Sequence[str], elements: Optional[Mapping[str, Element]]) -> List[Element]:
    """The elements of these names, which are the names themselves where no elements are told."""
    return [name if elements is None else elements[name] for name in names]


def _vector(
    names: Sequence[str], numbers: Sequence[str], elements: Optional[Mapping[str, Element]]
) -> Dict[Element, int]:
    """The numbers by the elements of these names."""
    return dict(zip(_named(names, elements), map(int, numbers)))
