"""The texts beside an instance, and the parts of its lines. docs/FORMATS.md has the forms exactly."""
from __future__ import annotations

import re
from itertools import count
from numbers import Integral
from typing import Container, Dict, Hashable, Iterable, List, Mapping, Optional, Sequence, Tuple

from .errors import Unreadable

NAME = re.compile(r"[A-Za-z0-9_]{1,32}")
NUMBER = re.compile(r"0|-?[1-9][0-9]*")
# the greatest numbers that may stand in a text of the second version and of the first
MOST = (10**15, 10**12)


def names_for(things: Sequence[Hashable]) -> Dict[Hashable, str]:
    """A legal name for each thing, all different: a string that is one stays as it is, and others get one that is like them.

    >>> names_for(["ash", 7, ("r", 1, 2), "Zürich", 1.5])
    {'ash': 'ash', 7: '7', ('r', 1, 2): 'r_1_2', 'Zürich': 'Z_rich', 1.5: 'e4'}
    """
    found = {thing: str.__str__(thing) for thing in things if isinstance(thing, str) and NAME.fullmatch(thing)}
    taken = set(found.values())
    for place, thing in enumerate(things):
        if thing not in found:
            name = _like(thing)
            if not name or name in taken:
                name = next(other for number in count(place) for other in [f"e{number}"] if other not in taken)
            found[thing] = name
            taken.add(name)
    return {thing: found[thing] for thing in things}


def _like(thing: Hashable) -> str:
    """A name that is like a string, a whole number (be it one of numpy), or a tuple of these; empty for other things."""
    parts = thing if isinstance(thing, tuple) else (thing,)
    if not all(isinstance(part, (str, Integral)) for part in parts):
        return ""
    return re.sub("[^A-Za-z0-9_]+", "_", "_".join(map(str, parts)))[:32]


def content(text: str) -> List[str]:
    """The lines of a text that are neither blank nor comments.

    >>> content("# two towns" + chr(10) + "sfm 1" + chr(10) + "ground ash birch")
    ['sfm 1', 'ground ash birch']
    """
    return [line for line in text.split("\n") if line.strip() and not line.lstrip(" \t").startswith("#")]


def line_of(text: str, number: int) -> str:
    """Line `number` of a text, counted from 1; empty where there is none."""
    lines = text.split("\n")
    return lines[number - 1].rstrip("\r") if 0 < number <= len(lines) else ""


def parts(line: str) -> Tuple[List[str], List[str]]:
    """The numbers of a line, and the names of its elements, in their order.

    >>> parts("weight ash:-5 birch:2")
    (['-5', '2'], ['ash', 'birch'])
    >>> parts("rank 5 laminar : ash birch cedar ; 1 ash birch")
    (['5', '1'], ['ash', 'birch', 'cedar'])
    >>> parts("rank 1 graphic : ash=u-v*3 birch=v-w")
    (['1'], ['ash', 'birch'])
    """
    word, *rest = line.split()
    if word in ("weight", "size"):
        pairs = [pair.partition(":") for pair in rest]
        return [number for _, _, number in pairs], [name for name, _, _ in pairs]
    if word in ("cut", "cover"):
        return rest[:1], rest[1:]
    if word not in ("concave", "table", "rank") or ":" not in rest:
        return [], rest
    colon = rest.index(":")
    numbers, behind = rest[:colon], rest[colon + 1 :]
    if word == "rank":
        del numbers[1:2]
    numbers += [token for sign, token in zip(behind, behind[1:]) if sign == ";"]
    names = behind[: behind.index(";")] if ";" in behind else behind
    return numbers, [name.partition("*")[0].partition("=")[0] for name in names]


def weights(line: str) -> Optional[List[int]]:
    """The weights of the elements of a rank, in their order; None where no element of the line has one.

    >>> weights("rank 1 graphic : ash=u-v*3 birch=v-w")
    [3, 1]
    >>> weights("rank 1 uniform 1 : ash birch")
    """
    texts = _weight_texts(line)
    return [1 if text is None else int(text) for text in texts] if any(text is not None for text in texts) else None


def _weight_texts(line: str) -> List[Optional[str]]:
    """What stands behind the star of each element of a rank; None where an element has no star. No other line has such elements."""
    word, *rest = line.split()
    if word != "rank" or ":" not in rest:
        return []
    behind = rest[rest.index(":") + 1 :]
    marked = behind[: behind.index(";")] if ";" in behind else behind
    return [token.partition("*")[2] if "*" in token else None for token in marked]


def members_of_bases(line: str) -> List[List[str]]:
    """The names of the elements of each base that proves a term line: all of them, or, where elements have weights, for each weight
    those of that weight or more, from the greatest down.

    >>> members_of_bases("rank 1 graphic : ash=u-v*3 birch=v-w")
    [['ash'], ['ash', 'birch']]
    """
    names, worths = parts(line)[1], weights(line)
    if worths is None:
        return [names]
    return [[name for name, worth in zip(names, worths) if worth >= level] for level in sorted(set(worths), reverse=True)]


def _no_numbers(word: str, numbers: Iterable[str], most: int) -> List[str]:
    """Those that are no numbers of the line of a word in which `most` is the greatest."""
    least = {"size": 1, "weight": -most, "concave": -most, "table": -most}.get(word, 0)
    return [number for number in numbers if not _is_number(number, least, most)]


def _is_number(text: str, least: int, most: int) -> bool:
    return NUMBER.fullmatch(text) is not None and least <= int(text) <= most


def blamed(reason: str, line: str, names: Container[str]) -> Optional[str]:
    """The token of a line by which it is refused, where the line and the names of the ground tell it; else None.

    >>> blamed("name", "cover 7 ash elm", ["ash", "birch"])
    'elm'
    >>> blamed("twice", "cover 7 ash ash", ["ash", "birch"])
    'ash'
    >>> blamed("number", "weight ash:1.5 birch:2", ["ash", "birch"])
    '1.5'
    >>> blamed("number", "weight ash:10000000000000 birch:10000000000000000", ["ash", "birch"])
    '10000000000000000'
    >>> blamed("number", "rank 1 uniform 1 : ash*0 birch", ["ash", "birch"])
    '0'
    >>> blamed("name", "rank 1 laminar : ash*2 birch ; 1 ash*2", ["ash", "birch"])
    'ash*2'
    """
    tokens = line.split()
    if not tokens:
        return None
    numbers, found = parts(line)
    if reason == "word":
        wrong = tokens[:1]
    elif reason == "number":
        wrong = next(filter(None, (_no_numbers(tokens[0], numbers, most) for most in MOST)), [])
        wrong = wrong or [text for text in _weight_texts(line) if text is not None and not _is_number(text, 1, MOST[0])]
    elif reason == "name" and tokens[0] == "ground":
        wrong = [name for name in found if not NAME.fullmatch(name)]
    elif reason == "name":
        # stars that are no weights: the last one, as that of an element is one in version 2
        wrong = [name for name in found if name and name not in names] or [token for token in tokens if "*" in token][-1:]
    elif reason == "twice":
        wrong = [name for place, name in enumerate(found) if name in found[:place]]
    else:
        wrong = []
    return wrong[0] if wrong else None


def sizes_text(sizes: Mapping[str, int]) -> str:
    """The text of these sizes, by names."""
    pairs = "".join(f" {name}:{size}" for name, size in sizes.items())
    return "sizes 1\n" + (f"size{pairs}\n" if pairs else "") + "end\n"


def pins_text(inside: Iterable[str], outside: Iterable[str]) -> str:
    """The text that holds these names in, and those out."""
    lines = [" ".join([word, *names]) + "\n" for word, names in (("in", inside), ("out", outside))]
    return "pins 1\n" + "".join(line for line in lines if " " in line) + "end\n"


def read_sizes(text: str) -> Dict[str, int]:
    """The sizes that a text of sizes gives, by names."""
    sizes = {}
    for number, line in enumerate(text.splitlines(), 1):
        word, *pairs = line.split() or ["#"]
        for pair in pairs if word == "size" else []:
            if not re.fullmatch(r"[A-Za-z0-9_]+:[1-9][0-9]*", pair):
                raise Unreadable(number, f"{pair!r} is no pair name:size")
            name, _, size = pair.partition(":")
            sizes[name] = int(size)
    return sizes


def read_pins(text: str) -> Tuple[List[str], List[str]]:
    """The names that a text of pins holds in, and those that it holds out."""
    pins: Dict[str, List[str]] = {"in": [], "out": []}
    for number, line in enumerate(text.splitlines(), 1):
        word, *names = line.split() or ["#"]
        for name in names if word in pins else []:
            if not NAME.fullmatch(name):
                raise Unreadable(number, f"{name!r} is no name: names have 1 to 32 of A-Z a-z 0-9 _")
            pins[word].append(name)
    return pins["in"], pins["out"]
