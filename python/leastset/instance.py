"""An instance: its elements, and a line for each term of the sum that is to be least."""
from __future__ import annotations

import math
import operator
from decimal import Decimal
from numbers import Real
from typing import Callable, Dict, FrozenSet, Hashable, Iterable, List, Mapping, Optional, Sequence, Tuple, Union

from .texts import names_for

Element = Hashable
# A whole number: an int, whatever stands for one (as those of numpy do), or a float or a Fraction without a rest.
Number = Union[int, float, Real, Decimal]
Weights = Optional[Mapping[Element, Number]]
Worth = Union[Callable[[FrozenSet[Element]], Number], Sequence[Number]]
MOST_IN_TABLE = 8


def whole(number: Number, what: str) -> int:
    """The int that a number is. `what` says in a fault which number it was.

    >>> whole(3.0, "the weight")
    3
    >>> whole(1.5, "the weight")
    Traceback (most recent call last):
    ValueError: the weight is 1.5, and numbers are whole: multiply all of them by the same
    """
    try:
        return int(operator.index(number))  # type: ignore[arg-type]
    except TypeError:
        pass
    if not isinstance(number, (Real, Decimal)):
        raise TypeError(f"{what} is {number!r}, which is no number")
    if not math.isfinite(number) or number != int(number):
        raise ValueError(f"{what} is {number}, and numbers are whole: multiply all of them by the same")
    return int(number)


class Instance:
    """A sum of terms over elements, which are anything that can be hashed.

    The elements are given first, in the order in which answers list them; each method then adds one term, a line of
    docs/FORMATS.md. A set is worth the sum of its terms, and what is sought is worth least: costs are above 0, gains below.

    >>> towns = Instance(["ash", "birch"])
    >>> towns.weight({"ash": -5, "birch": -3})
    >>> towns.cover(7, ["ash", "birch"])
    >>> print(towns.text(), end="")
    sfm 1
    ground ash birch
    weight ash:-5 birch:-3
    cover 7 ash birch
    end
    >>> towns.need("ash", "elm")
    Traceback (most recent call last):
    ValueError: 'elm' is no element of this instance
    """

    def __init__(self, ground: Iterable[Element]) -> None:
        #: the elements, in order
        self.ground: Tuple[Element, ...] = tuple(ground)
        seen = set()
        for element in self.ground:
            if element in seen:
                raise ValueError(f"{element!r} stands twice among the elements")
            seen.add(element)
        #: the name that each element has in the text
        self.names: Dict[Element, str] = names_for(self.ground)
        #: the term lines
        self.lines: List[str] = []
        #: the version of the text: 2 where a rank has weights; it may be set to 2, for numbers of more than 10^12
        self.version = 1

    def __repr__(self) -> str:
        return f"<Instance of {len(self.ground)} elements and {len(self.lines)} terms>"

    def text(self) -> str:
        """The instance as a text, which the program reads."""
        ground = " ".join(["ground", *self.names.values()])
        return "\n".join([f"sfm {self.version}", ground, *self.lines, "end"]) + "\n"

    def elements(self) -> Dict[str, Element]:
        """The elements by their names in the text."""
        return {name: element for element, name in self.names.items()}

    def name(self, element: Element) -> str:
        """The name of an element in the text."""
        try:
            return self.names[element]
        except KeyError:
            raise ValueError(f"{element!r} is no element of this instance") from None

    def weight(self, numbers: Mapping[Element, Number]) -> None:
        """A set is worth the numbers of the elements in it, of which each may be below 0."""
        names = self._names(numbers)
        pairs = zip(names, (whole(number, f"the weight of {element!r}") for element, number in numbers.items()))
        self.lines.append("weight " + " ".join(f"{name}:{number}" for name, number in pairs))

    def cut(self, number: Number, first: Element, second: Element) -> None:
        """A set pays the number where it has the first element and not the second."""
        self._add("cut", [number], self._names([first, second]))

    def border(self, number: Number, first: Element, second: Element) -> None:
        """A set pays the number where it has just one of the two elements."""
        self.concave([number, 0], [first, second])

    def need(self, first: Element, second: Element) -> None:
        """A set that has the first element and not the second is not allowed."""
        self._add("need", [], self._names([first, second]))

    def cover(self, number: Number, elements: Iterable[Element]) -> None:
        """A set pays the number once, where it has one or more of the elements."""
        self._add("cover", [number], self._names(elements))

    def concave(self, numbers: Sequence[Number], elements: Iterable[Element]) -> None:
        """A set with i of the elements is worth number i, counted from 1, and 0 with none of them. No number may rise above the
        one before by more than that one did."""
        names = self._names(elements)
        if len(names) != len(numbers):
            raise ValueError(f"{len(numbers)} numbers stand here for {len(names)} elements")
        self._add("concave", numbers, [":", *names])

    def table(self, worth: Worth, elements: Iterable[Element]) -> None:
        """A set is worth what the table says of those of its elements that are among these, 1 to 8.

        `worth` is called with a frozenset of each choice of them; or it is a list of 2**k numbers, in which number i, counted
        from 0, is that of the choice that has element j exactly where bit j of i is set.

        >>> setups = Instance("ab")
        >>> setups.table(lambda jobs: {0: 0, 1: 4, 2: 6}[len(jobs)], "ab")
        >>> setups.lines
        ['table 0 4 4 6 : a b']
        """
        elements = list(elements)
        names = self._names(elements)
        if len(names) > MOST_IN_TABLE:
            raise ValueError(f"a table has 1 to {MOST_IN_TABLE} elements, and here are {len(names)}")
        count = 2 ** len(names)
        if callable(worth):
            choices = (frozenset(e for j, e in enumerate(elements) if i >> j & 1) for i in range(count))
            numbers = [worth(choice) for choice in choices]
        else:
            numbers = list(worth)
        if len(numbers) != count:
            raise ValueError(f"{len(numbers)} numbers stand here, where {len(names)} elements have {count} choices")
        self._add("table", numbers, [":", *names])

    def rank_uniform(self, number: Number, most: Number, elements: Iterable[Element], weights: Weights = None) -> None:
        """A set pays the number for each of its elements among these, but for no more than `most` of them.

        With `weights` for some of the elements, from 1, it pays the number times the weight of a heaviest choice of at most so
        many; an element without a weight has 1. So do the other ranks.

        >>> sales = Instance("abc")
        >>> sales.rank_uniform(2, 1, "abc", weights={"a": 5})
        >>> print(sales.text(), end="")
        sfm 2
        ground a b c
        rank 2 uniform 1 : a*5 b c
        end
        """
        elements = list(elements)
        tokens = self._weighed(elements, self._names(elements), weights)
        self._rank(number, ["uniform", str(whole(most, "the most that is paid for")), ":", *tokens])

    def rank_laminar(
        self,
        number: Number,
        elements: Iterable[Element],
        groups: Iterable[Tuple[Number, Iterable[Element]]] = (),
        weights: Weights = None,
    ) -> None:
        """A set pays the number for each element of a largest choice among its own that takes from no group more than its cap.
        Groups are pairs of a cap and elements; two that share an element are nested."""
        elements = list(elements)
        names = self._names(elements)
        tokens = ["laminar", ":", *self._weighed(elements, names, weights)]
        for cap, members in groups:
            group = self._names(members)
            for name in group:
                if name not in names:
                    raise ValueError(f"{self.elements()[name]!r} stands in a group, and not among the elements of the term")
            tokens += [";", str(whole(cap, "the cap of a group")), *group]
        self._rank(number, tokens)

    def rank_graphic(
        self, number: Number, edges: Mapping[Element, Tuple[Hashable, Hashable]], weights: Weights = None
    ) -> None:
        """A set pays the number for each element of a largest choice among its own whose edges close no trail. An edge is a pair
        of vertices, which are anything that can be hashed."""
        names = self._names(edges)
        vertices = names_for(list(dict.fromkeys(vertex for edge in edges.values() for vertex in edge)))
        ends = [f"{vertices[u]}-{vertices[v]}" for u, v in edges.values()]
        tokens = self._weighed(edges, [f"{name}={end}" for name, end in zip(names, ends)], weights)
        self._rank(number, ["graphic", ":", *tokens])

    def rank_transversal(
        self, number: Number, slots: Mapping[Element, Iterable[Hashable]], weights: Weights = None
    ) -> None:
        """A set pays the number for each element of a largest choice among its own that have slots, all different, each one of
        the slots of its element. Slots are anything that can be hashed."""
        names = self._names(slots)
        lists = {element: list(dict.fromkeys(entry)) for element, entry in slots.items()}
        for element, entry in lists.items():
            if not entry:
                raise ValueError(f"{element!r} has no slot")
        known = names_for(list(dict.fromkeys(slot for entry in lists.values() for slot in entry)))
        entries = [",".join(known[slot] for slot in entry) for entry in lists.values()]
        tokens = self._weighed(slots, [f"{name}={entry}" for name, entry in zip(names, entries)], weights)
        self._rank(number, ["transversal", ":", *tokens])

    def _names(self, elements: Iterable[Element]) -> List[str]:
        """The names of the elements of one term: one or more, none twice."""
        elements = list(elements)
        if not elements:
            raise ValueError("a term has one element or more")
        names = [self.name(element) for element in elements]
        if len(set(names)) < len(names):
            twice = next(element for place, element in enumerate(elements) if element in elements[:place])
            raise ValueError(f"{twice!r} stands twice in one term")
        return names

    def _weighed(self, elements: Iterable[Element], tokens: List[str], weights: Weights) -> List[str]:
        """The tokens of the elements of a rank, each with its weight behind it where there is one."""
        if not weights:
            return tokens
        elements = list(elements)
        for element in weights:
            if element not in elements:
                raise ValueError(f"{element!r} has a weight, and does not stand among the elements of the term")
        numbers = {element: whole(weight, f"the weight of {element!r}") for element, weight in weights.items()}
        for element, weight in numbers.items():
            if weight < 1:
                raise ValueError(f"the weight of {element!r} is {weight}, and weights in a rank are from 1")
        self.version = 2
        return [f"{token}*{numbers[element]}" if element in numbers else token for element, token in zip(elements, tokens)]

    def _add(self, word: str, numbers: Iterable[Number], tokens: Iterable[str]) -> None:
        wholes = [str(whole(number, f"a number of {word}")) for number in numbers]
        self.lines.append(" ".join([word, *wholes, *tokens]))

    def _rank(self, number: Number, tokens: Iterable[str]) -> None:
        self.lines.append(" ".join(["rank", str(whole(number, "the number of rank")), *tokens]))
