#!/usr/bin/env python3
"""Says why a text is refused: the line that `sfm solve` prints, and the place and the cause in a sentence.

    $ python3 why.py mistakes/decimal.sfm
    refused 3 number
    mistakes/decimal.sfm:3:10: -1.5 is no whole number: multiply all numbers by 10

With the name of a text of sizes behind it, it tells of that text in the same way, where the instance has no fault:

    $ python3 why.py jobs.sfm mistakes/zero.sizes
    sizes 2 number
    mistakes/zero.sizes:2:10: 0 is out of range: numbers here are 1 to 1,000,000

With --pins and the name of a text of pins, it tells of that one, and with --edits of a text of edits; --sizes does for one of sizes
what the name alone does:

    $ python3 why.py border.sfm --pins mistakes/both.pins
    pins 3 twice
    mistakes/both.pins:3:5: p1 is held in by a line before
    $ python3 why.py towns.sfm --edits mistakes/gone.edits
    edits 3 number
    mistakes/gone.edits:3:6: there is no term line 3: the list then has 2 term lines, without the header, the ground line and comments

It reads the texts itself, by the rules of docs/FORMATS.md, and does not run `sfm`. The place is FILE:LINE:COLUMN, columns counted
in bytes from 1. The code is 2 where there is a fault, 0 where there is none, and 3 where a file can't be read.
"""
import argparse
import difflib
import re
import sys
from collections import namedtuple

from faults import read_bytes, run_main

MOST_BYTES = 16_777_216
# by version
MOST_NUMBER, MOST_SIZE = {"1": 10**12, "2": 10**15}, {"1": 10**15, "2": 10**18}
MOST_WEIGHT = 10**15
MOST_NAMES, MOST_TERMS, MOST_PLACES = 256, 4096, 16_384
MOST_ELEMENT_SIZE = 1_000_000
NUMBER = re.compile(r"0|-?[1-9][0-9]*")
NAME = re.compile(r"[A-Za-z0-9_]{1,32}")
NAMES_HAVE = "names have 1 to 32 of A-Z a-z 0-9 _"
KINDS = ("uniform", "laminar", "graphic", "transversal")
WORDS = ("weight", "cut", "need", "cover", "concave", "table", "rank", "end")

# A piece of a line, with the column at which it begins.
Piece = namedtuple("Piece", "text column")
# What the shape of a term line tells: its word or kind of rank; its numbers; the names of its elements; other names (vertices and
# slots); for each entry its slots; for each group its cap and its names; and, where an element of a rank has a weight, the weight of
# each element, None for one without.
Parts = namedtuple("Parts", "kind numbers elements others entries groups weights", defaults=[None])


class Refused(Exception):
    """A fault: its reason, its column in the line (None for the whole line), and its cause in a sentence."""

    def __init__(self, reason, column, cause):
        super().__init__(cause)
        self.reason, self.column, self.cause = reason, column, cause


def shown(text):
    """A piece of the text in a sentence, cut where it is long."""
    return text if len(text) <= 40 else text[:37] + ".."


def counted(count, word):
    return f"{count:,} {word}" if count == 1 else f"{count:,} {word}s"


# The reasons `bytes` and `word`.


def test_bytes(line):
    """A content line has tabs, and bytes from 0x20 to 0x7E."""
    found = re.search(rb"[^\t\x20-\x7e]", line)
    if not found:
        return
    at, rest = found.start(), line[found.start() :]
    letter = next((rest[:n].decode("utf-8") for n in (1, 2, 3, 4) if is_utf8(rest[:n])), None)
    known = {
        "\ufeff": "a byte order mark stands here: save the file as UTF-8 without it",
        "\u00a0": "a no-break space stands here: write a plain one",
        "\r": "a carriage return stands within the line: lines end in a line feed",
        "\0": "a byte 0 stands here: is the file saved as UTF-16?",
    }
    if rest[:2] in (b"\xff\xfe", b"\xfe\xff"):
        raise Refused("bytes", at + 1, "the file is saved as UTF-16: save it as plain text")
    if letter in ("\u2212", "\u2013", "\u2014"):
        raise Refused("bytes", at + 1, f"{letter} is no minus sign: write -")
    if letter and letter.isprintable():
        raise Refused("bytes", at + 1, f"{letter} can stand in a comment line alone: {NAMES_HAVE}")
    raise Refused("bytes", at + 1, known.get(letter, f"the byte {rest[0]} can stand in a comment line alone: {NAMES_HAVE}"))


def is_utf8(data):
    try:
        data.decode("utf-8")
    except UnicodeDecodeError:
        return False
    return True


def test_word(stage, tokens, before):
    """The first token of a content line: `before` is the word of the content line before it."""
    word, column = tokens[0]
    if stage == "header" and word != "sfm":
        known = {"answer": "this is an answer", "refused": "this is a refusal", "ground": "the line 'sfm 1' is missing"}
        raise Refused("word", column, known.get(word, f"{shown(word)} stands here") + ": an instance begins with 'sfm 1' or 'sfm 2'")
    if stage == "ground" and word != "ground":
        raise Refused("word", column, f"{shown(word)} stands here, where 'ground' with the names of all elements is due")
    if stage == "behind":
        test_behind(word, column)
    if stage == "terms" and word in ("sfm", "ground"):
        raise Refused("word", column, f"a second line {word} stands here, and an instance has one")
    if stage == "terms" and word not in WORDS:
        if before == "ground" and all(NAME.fullmatch(token.text) for token in tokens) and word.lower() not in WORDS:
            raise Refused("word", column, f"{shown(word)} begins no line: all names of the ground stand in one line")
        hint = f", but {word.lower()} does" if word.lower() in WORDS else f": lines begin with {', '.join(WORDS)}"
        raise Refused("word", column, f"{shown(word)} begins no line" + hint)


# The reason `shape`: a line of each word is cut into its parts, or refused.


def not_here(token, due):
    """A refusal of a token that stands where something else is due."""
    if token.text.rstrip(":;") and token.text[-1] in ":;":
        return Refused("shape", token.column, f"{shown(token.text)} needs a space before the {token.text[-1]}, as {due}")
    return Refused("shape", token.column, f"{shown(token.text)} stands here, where {due}")


def words_of(tokens, end, due):
    """These tokens, none of which is `:` or `;`, and one or more; `end` is the column behind them."""
    if not tokens:
        raise Refused("shape", end, f"nothing stands here, where {due}")
    for token in tokens:
        if token.text in (":", ";"):
            raise not_here(token, due)
    return tokens


def parted(tokens, end, due):
    """What stands before the first `:` and behind it."""
    for place, token in enumerate(tokens):
        if token.text == ":":
            return tokens[:place], tokens[place + 1 :]
    joined = next((token for token in tokens if ":" in token.text), None)
    if joined:
        raise Refused("shape", joined.column, f"{shown(joined.text)} needs spaces round the ':', as {due}")
    raise Refused("shape", end, f"there is no ':' in the line, where {due}")


def cut_at(token, sign, due):
    """The two parts of a token round the one sign that it has."""
    if token.text.count(sign) != 1:
        raise not_here(token, due)
    at = token.text.index(sign)
    return Piece(token.text[:at], token.column), Piece(token.text[at + 1 :], token.column + at + 1)


def weight_parts(tokens, end):
    words = words_of(tokens, end, "pairs name:number are due")
    # a space within a pair leaves a token without a colon behind it, which is the one of the wrong shape
    for before, token in zip(words, words[1:]):
        if ":" not in token.text and before.text.endswith(":") and before.text.count(":") == 1:
            raise Refused(
                "shape", token.column, f"{shown(token.text)} stands alone: write {shown(before.text + token.text)}, without a space"
            )
    pairs = []
    for token in words:
        if "=" in token.text and ":" not in token.text:
            raise Refused("shape", token.column, f"{shown(token.text)} has = in place of a colon: a pair is name:number")
        pairs.append(cut_at(token, ":", "a pair name:number is due"))
    return Parts("weight", [number for _, number in pairs], [name for name, _ in pairs], [], [], [])


def fixed_parts(word, tokens, end, numbers, names):
    """A line of so many numbers and so many names."""
    due = f"{word} has " + " and ".join([*["a number"] * numbers, f"{'two' if names == 2 else 'some'} names"])
    words_of(tokens, end, due)
    if len(tokens) != numbers + names:
        extra = tokens[numbers + names].column if len(tokens) > numbers + names else end
        raise Refused("shape", extra, f"{due}, and {counted(len(tokens), 'token')} here")
    return Parts(word, tokens[:numbers], tokens[numbers:], [], [], [])


def cover_parts(tokens, end):
    due = "cover has a number and one or more names"
    words_of(tokens, end, due)
    if len(tokens) < 2:
        raise Refused("shape", end, f"{due}, and there is no name here")
    return Parts("cover", tokens[:1], tokens[1:], [], [], [])


def listed_parts(word, tokens, end):
    """A concave line or a table: numbers, a colon, names."""
    due = f"{word} has numbers, ':' and names"
    numbers, names = parted(tokens, end, due)
    words_of(numbers, tokens[0].column, due)
    words_of(names, end, due)
    said = f"{counted(len(numbers), 'number')} and {counted(len(names), 'name')} stand here"
    if word == "concave" and len(numbers) != len(names):
        raise Refused("shape", names[0].column, f"{said}: concave has as many numbers as names")
    if word == "table" and len(names) > 8:
        raise Refused("shape", names[8].column, f"{said}: a table has 1 to 8 names")
    if word == "table" and len(numbers) != 2 ** len(names):
        raise Refused("shape", names[0].column, f"{said}: a table over so many names has {2 ** len(names)} numbers")
    return Parts(word, numbers, names, [], [], [])


def laminar_parts(number, tokens, end):
    due = "elements are due, and groups behind ';', each with a cap and names"
    lists = [[]]
    for token in tokens:
        if token.text == ";":
            lists.append([])
        else:
            lists[-1].append(token)
    words_of(lists[0], end, due)
    groups = []
    for group in lists[1:]:
        words_of(group, end, "a group has a cap and names")
        if len(group) < 2:
            raise Refused("shape", group[0].column, f"{shown(group[0].text)} stands alone in its group, which has a cap and names")
        groups.append((group[0], group[1:]))
    return Parts("laminar", [number, *(cap for cap, _ in groups)], lists[0], [], [], groups)


def edge_parts(number, tokens, end):
    due = "an edge name=vertex-vertex is due"
    elements, others = [], []
    for token in words_of(tokens, end, due):
        name, ends = cut_at(token, "=", due)
        if ends.text.count("-") != 1:
            hyphens = counted(ends.text.count("-"), "hyphen")
            raise Refused("shape", ends.column, f"{shown(token.text)} has {hyphens} behind =, where {due}")
        elements.append(name)
        others += cut_at(Piece(ends.text + " ", ends.column), "-", due)
    others = [Piece(other.text.rstrip(" "), other.column) for other in others]
    return Parts("graphic", [number], elements, others, [], [])


def entry_parts(number, tokens, end):
    due = "an entry name=slot,slot,.. is due"
    elements, entries = [], []
    words_of(tokens, end, due)
    for before, token in zip([None, *tokens], tokens):
        if before and before.text.endswith(",") and "=" not in token.text:
            cause = f"{shown(token.text)} stands alone: write {shown(before.text + token.text)}, without a space"
            raise Refused("shape", token.column, cause)
        name, rest = cut_at(token, "=", due)
        slots, column = [], rest.column
        for slot in rest.text.split(","):
            slots.append(Piece(slot, column))
            column += len(slot) + 1
        elements.append(name)
        entries.append(slots)
    return Parts("transversal", [number], elements, [slot for slots in entries for slot in slots], entries, [])


def rank_parts(tokens, end):
    due = "rank has a number, one of uniform, laminar, graphic and transversal, and ':'"
    words_of(tokens[:2], end, due)
    if len(tokens) < 2 or tokens[1].text not in KINDS:
        place, said = (tokens[1].column, shown(tokens[1].text)) if len(tokens) > 1 else (end, "nothing")
        raise Refused("shape", place, f"{said} stands here, where one of {', '.join(KINDS)} is due")
    kind, rest = tokens[1].text, tokens[2:]
    before, behind = parted(rest, end, due)
    if len(before) != (1 if kind == "uniform" else 0) or before and before[0].text == ";":
        place = before[0].column if before else tokens[1].column
        raise Refused("shape", place, f"between {kind} and ':' stands {'one number' if kind == 'uniform' else 'nothing'}")
    if kind == "uniform":
        return Parts(kind, [tokens[0], before[0]], words_of(behind, end, "names are due"), [], [], [])
    return {"laminar": laminar_parts, "graphic": edge_parts, "transversal": entry_parts}[kind](tokens[0], behind, end)


def parts_of(tokens, end):
    """The parts of a term line, by its word; `end` is the column behind its last token."""
    word, rest = tokens[0].text, tokens[1:]
    if word == "weight":
        return weight_parts(rest, end)
    if word in ("cut", "need"):
        return fixed_parts(word, rest, end, 1 if word == "cut" else 0, 2)
    if word == "cover":
        return cover_parts(rest, end)
    return rank_parts(rest, end) if word == "rank" else listed_parts(word, rest, end)


def without_weights(tokens):
    """The tokens of a rank line without the weights of its elements, and for each element its weight, None where it has none. The
    elements stand behind the first colon and before the first semicolon behind that."""
    texts = [token.text for token in tokens]
    first = texts.index(":") if ":" in texts else len(texts)
    last = next((at for at in range(first + 1, len(texts)) if texts[at] == ";"), len(texts))
    plain, weights = list(tokens), []
    for at in range(first + 1, last):
        token = tokens[at]
        element, *behind = token.text.split("*")
        if len(behind) > 1:
            raise Refused("shape", token.column, f"{shown(token.text)} has {len(behind)} stars, and an element has one weight behind one star")
        if behind and element in (":", ";"):
            raise Refused("shape", token.column, f"{shown(token.text)} stands here, where an element with its weight is due")
        weights.append(Piece(behind[0], token.column + len(element) + 1) if behind else None)
        plain[at] = Piece(element or "*", token.column) if behind else token
    return plain, weights


def parts_in(version, tokens, end):
    """The parts of a term line in a text of that version."""
    if version == "1" or tokens[0].text != "rank" or not any("*" in token.text for token in tokens):
        return parts_of(tokens, end)
    plain, weights = without_weights(tokens)
    return parts_of(plain, end)._replace(weights=weights if any(weights) else None)


# The reasons `number`, `name` and `twice`.


def is_from(text, low, high):
    """Whether a number is from `low` to `high`. One of very many digits is not, and is not turned into one."""
    return len(text) <= 40 and low <= int(text) <= high


def without_zeros(text):
    """A number without a + or zeros before it."""
    digits = text.lstrip("+-0") or "0"
    return f"-{digits}" if text.startswith("-") and digits != "0" else digits


def test_number(piece, low, high):
    """A whole number from `low` to `high`."""
    text, range_ = piece.text, f"{low:,} to {high:,}"
    if NUMBER.fullmatch(text):
        if is_from(text, low, high):
            return
        raise Refused("number", piece.column, f"{shown(text)} is out of range: numbers here are {range_}")
    if re.fullmatch(r"-?[0-9]*\.[0-9]+", text):
        zeros = len(text.split(".")[1])
        unit = 10**zeros if zeros <= 20 else f"1 with {zeros} zeros"
        raise Refused("number", piece.column, f"{shown(text)} is no whole number: multiply all numbers by {unit}")
    if re.fullmatch(r"[+-]?[0-9]{1,3}(,[0-9]{3})+", text):
        raise Refused("number", piece.column, f"{shown(text)} has commas: write {shown(text.replace(',', '').lstrip('+'))}")
    if text.endswith((",", ";")) and NUMBER.fullmatch(text[:-1]):
        raise Refused("number", piece.column, f"{shown(text)} ends in {text[-1]!r}: nothing but spaces stands between tokens")
    if re.fullmatch(r"[+-]?[0-9]+", text):
        plain = without_zeros(text)
        raise Refused("number", piece.column, f"{shown(text)} has a + or zeros before it: write {shown(plain)}")
    if re.fullmatch(r"-?[0-9.]+[eE][+-]?[0-9]+", text):
        raise Refused("number", piece.column, f"{shown(text)} has an exponent: write all digits")
    raise Refused("number", piece.column, f"{shown(text) or 'nothing'} stands where a number is due, of the range {range_}")


def test_name(piece, what="a name"):
    if not NAME.fullmatch(piece.text):
        if piece.text[-1:] in (",", ";") and NAME.fullmatch(piece.text[:-1]):
            cause = "nothing but spaces stands between names" if piece.text[-1] == "," else "a space stands before it"
            raise Refused("name", piece.column, f"{shown(piece.text)} ends in {piece.text[-1]!r}: {cause}")
        long = f", and this one has {len(piece.text)}" if re.fullmatch(r"[A-Za-z0-9_]{33,}", piece.text) else ""
        said = f"{shown(piece.text)} is no name" if piece.text else f"nothing stands where {what} is due"
        raise Refused("name", piece.column, f"{said}: {NAMES_HAVE}{long}")


def test_element(piece, names):
    """A name of the ground."""
    test_name(piece)
    if piece.text not in names:
        near = [name for name in names if name.lower() == piece.text.lower()]
        near = near or difflib.get_close_matches(piece.text, names, 1, 0.8)
        hint = f"; {near[0]} is" if near else ""
        cause = f"{shown(piece.text)} is none of the {counted(len(names), 'name')} of the ground line{hint}"
        raise Refused("name", piece.column, cause)


def test_twice(pieces, where):
    first = {}
    for piece in pieces:
        if piece.text in first:
            raise Refused("twice", piece.column, f"{shown(piece.text)} stands twice {where}, first at column {first[piece.text]}")
        first[piece.text] = piece.column


def test_tokens(parts, names, most):
    """The numbers, the names and what stands twice, of a line of the right shape; `most` is the greatest number that may stand."""
    for piece in parts.numbers:
        test_number(piece, -most if parts.kind in ("weight", "concave", "table") else 0, most)
    for piece in parts.weights or []:
        if piece:
            test_number(piece, 1, MOST_WEIGHT)
    own = {piece.text for piece in parts.elements}
    for piece in parts.elements:
        test_element(piece, names)
    for piece in parts.others:
        test_name(piece, "the name of a slot" if parts.entries else "the name of a vertex")
    for _, members in parts.groups:
        for piece in members:
            test_name(piece)
            if piece.text not in own:
                cause = f"{shown(piece.text)} is in a group, and not among the elements before the first ';'"
                raise Refused("name", piece.column, cause)
    test_twice(parts.elements, "among the elements of the line")
    for _, members in parts.groups:
        test_twice(members, "in the group")
    for slots in parts.entries:
        test_twice(slots, "among the slots of one entry")


# The reason `law`.


def test_concave(numbers):
    values = [0, *(int(piece.text) for piece in numbers)]
    for at in range(2, len(values)):
        rise, before = values[at] - values[at - 1], values[at - 1] - values[at - 2]
        if rise > before:
            cause = f"number {at} is {values[at]} and rises by {rise}, where the one before rises by {before}: rises must not grow"
            raise Refused("law", numbers[at - 1].column, cause)


def set_of(bits, elements):
    names = [piece.text for place, piece in enumerate(elements) if bits >> place & 1]
    return " ".join(names) if names else "none"


def test_table(numbers, elements):
    values = [int(piece.text) for piece in numbers]
    if values[0] != 0:
        raise Refused("law", numbers[0].column, f"the first number is {values[0]}: it is the worth of no names, and that is 0")
    for bits in range(len(values)):
        for a in range(len(elements)):
            for b in range(a):
                if bits >> a & 1 or bits >> b & 1:
                    continue
                alone, beside = values[bits | 1 << b] - values[bits], values[bits | 1 << a | 1 << b] - values[bits | 1 << a]
                if beside > alone:
                    with_a = set_of(bits | 1 << a, elements)
                    cause = f"{elements[b].text} adds {alone} to {set_of(bits, elements)} and {beside} to {with_a}"
                    raise Refused("law", numbers[bits | 1 << a | 1 << b].column, cause + ": it must not add more beside others")


def test_groups(groups):
    sets = [{piece.text for piece in members} for _, members in groups]
    for second, (cap, members) in enumerate(groups):
        for first in range(second):
            both = sets[first] & sets[second]
            if both and not sets[first] <= sets[second] and not sets[second] <= sets[first]:
                shared = next(piece.text for piece in members if piece.text in both)
                cause = f"group {second + 1} shares {shown(shared)} with group {first + 1}, and neither holds the other"
                raise Refused("law", cap.column, cause)


# The reason `total`.


# Each gives the places of a best choice from these in order: a place is taken where the choice stays free with it.


def uniform_choice(parts, order):
    return order[: int(parts.numbers[1].text)]


def laminar_choice(parts, order):
    room = [[int(cap.text), {piece.text for piece in members}] for cap, members in parts.groups]
    chosen = []
    for place in order:
        mine = [group for group in room if parts.elements[place].text in group[1]]
        if all(group[0] > 0 for group in mine):
            chosen.append(place)
            for group in mine:
                group[0] -= 1
    return chosen


def graphic_choice(parts, order):
    label = {piece.text: piece.text for piece in parts.others}
    chosen = []
    for place in order:
        new, old = (label[parts.others[2 * place + end].text] for end in (0, 1))
        if new != old:
            chosen.append(place)
            label = {vertex: new if it == old else it for vertex, it in label.items()}
    return chosen


def transversal_choice(parts, order):
    """Elements that can have slots of their own: a matching that grows by ways through slots that are taken."""
    slots = [[piece.text for piece in entry] for entry in parts.entries]
    holder, slot_of, chosen = {}, {}, []
    for start in order:
        came, level, free = {}, [start], None
        while level and free is None:
            later = []
            for element in level:
                for slot in slots[element]:
                    if slot not in came and free is None:
                        came[slot] = element
                        if slot in holder:
                            later.append(holder[slot])
                        else:
                            free = slot
            level = later
        if free is not None:
            chosen.append(start)
        while free is not None:
            element = came[free]
            holder[free], slot_of[element], free = element, free, slot_of.get(element)
    return chosen


CHOICES = {"uniform": uniform_choice, "laminar": laminar_choice, "graphic": graphic_choice, "transversal": transversal_choice}


def places_of(parts):
    """How many names of elements a line has; a layered one has those of each of its layers."""
    if not parts.weights:
        return len(parts.elements)
    weights = weights_of(parts)
    return sum(weight >= level for level in set(weights) for weight in weights)


def weights_of(parts):
    return [int(piece.text) if piece else 1 for piece in parts.weights or [None] * len(parts.elements)]


def size_of(parts):
    """The size of a term, as docs/FORMATS.md has it."""
    numbers = [int(piece.text) for piece in parts.numbers]
    if parts.kind in CHOICES:
        weights = weights_of(parts)
        heaviest = sorted(range(len(weights)), key=lambda place: -weights[place])
        return numbers[0] * sum(weights[place] for place in CHOICES[parts.kind](parts, heaviest))
    if parts.kind == "weight":
        return sum(abs(number) for number in numbers)
    return max((abs(number) for number in numbers), default=0)


def test_header(tokens, end, *due):
    """The first line is one of some lines of a word and a number, with nothing behind it."""
    texts = [token.text for token in tokens]
    if texts not in [line.split() for line in due]:
        wrong = tokens[2:] if texts[:2] in [line.split() for line in due] else tokens[1:]
        place, said = (wrong[0].column, shown(wrong[0].text)) if wrong else (end, "nothing")
        lines = " or ".join(f"'{line}'" for line in due)
        raise Refused("shape", place, f"{said} stands here, and the first line is {lines}, with nothing behind it")


def test_end(tokens):
    if len(tokens) > 1:
        raise not_here(tokens[1], "nothing follows 'end' in its line")


def with_comment(tokens, take):
    """Takes tokens; where they are refused, a comment that stands behind a line is told as the cause."""
    try:
        take()
    except Refused as refused:
        comment = next((token.column for token in tokens if token.text.startswith("#")), None)
        if comment and (refused.reason == "shape" or refused.reason in ("number", "name") and refused.column >= comment):
            raise Refused(refused.reason, comment, "a comment has a line of its own, and begins it")
        raise


def tokens_of(line):
    return [Piece(found[0].decode("latin-1"), found.start() + 1) for found in re.finditer(rb"[^ \t]+", line)]


def test_behind(word, column):
    raise Refused("word", column, f"{shown(word)} stands behind 'end', where blank lines and comments alone may follow")


class Instance:
    """What is known of an instance behind the lines that were read."""

    def __init__(self):
        self.stage, self.before = "header", ""
        self.version, self.names = "1", {}
        # for each term line its places and its size, and all of these together
        self.terms = []
        self.places = self.sizes = 0

    def take(self, line):
        """Takes a content line, or refuses it for its first reason."""
        tokens = tokens_of(line)
        end = tokens[-1].column + len(tokens[-1].text)
        test_bytes(line)
        test_word(self.stage, tokens, self.before)
        self.before = tokens[0].text
        with_comment(tokens, lambda: self.take_tokens(tokens, end))

    def take_tokens(self, tokens, end):
        if self.stage == "header":
            test_header(tokens, end, "sfm 1", "sfm 2")
            self.version = tokens[1].text
            self.stage = "ground"
        elif self.stage == "ground":
            self.take_ground(tokens)
        elif self.before == "end":
            test_end(tokens)
            self.stage = "behind"
        else:
            self.take_term(parts_in(self.version, tokens, end), tokens[0].column)

    def due(self):
        known = {"header": "'sfm 1'", "ground": "the line 'ground ..'", "terms": "the line 'end'", "behind": None}
        return known[self.stage]

    def take_ground(self, tokens):
        for token in tokens[1:]:
            if token.text in (":", ";"):
                raise not_here(token, "a name is due")
        for token in tokens[1:]:
            test_name(token)
        test_twice(tokens[1:], "in the ground line")
        if len(tokens) > MOST_NAMES + 1:
            cause = f"there are {len(tokens) - 1:,} names, and {MOST_NAMES} are taken"
            raise Refused("total", tokens[MOST_NAMES + 1].column, cause)
        self.names = {token.text: None for token in tokens[1:]}
        self.stage = "terms"

    def take_term(self, parts, column):
        test_tokens(parts, self.names, MOST_NUMBER[self.version])
        if parts.kind == "concave":
            test_concave(parts.numbers)
        elif parts.kind == "table":
            test_table(parts.numbers, parts.elements)
        test_groups(parts.groups)
        self.terms.append((places_of(parts), size_of(parts)))
        self.places, self.sizes = self.places + self.terms[-1][0], self.sizes + self.terms[-1][1]
        if len(self.terms) > MOST_TERMS:
            raise Refused("total", column, f"this is term line {len(self.terms):,}, and {MOST_TERMS:,} are taken")
        if self.places > MOST_PLACES:
            raise Refused("total", column, f"with this line {self.places:,} names of elements stand, and {MOST_PLACES:,} are taken")
        most = MOST_SIZE[self.version]
        if self.sizes > most:
            cause = f"with this line sizes add to {self.sizes:,}, and {most:,} are taken: count in a greater unit"
            raise Refused("total", column, cause)

    def drop_term(self, place):
        """Takes the term line at a place out, counted from 0."""
        places, size = self.terms.pop(place)
        self.places, self.sizes = self.places - places, self.sizes - size


class Beside:
    """What is known of a text beside an instance behind the lines that were read. It begins with its word and 1, each line behind
    that begins with one of some words, which `take_line` takes, and the last is `end`."""

    word, words = "", ()

    def __init__(self):
        self.stage = "header"

    def take(self, line):
        """Takes a content line, or refuses it for its first reason."""
        tokens = tokens_of(line)
        end = tokens[-1].column + len(tokens[-1].text)
        test_bytes(line)
        self.test_word(tokens, end)
        with_comment(tokens, lambda: self.take_tokens(tokens, end))

    def test_word(self, tokens, _end):
        word, column = tokens[0]
        if self.stage == "header" and word != self.word:
            raise Refused("word", column, f"{shown(word)} stands here: a text of {self.word} begins with '{self.word} 1'")
        if self.stage == "lines" and word not in (*self.words, "end"):
            cause = f"{shown(word)} begins no line: lines of {self.word} begin with {', '.join(self.words)} or end"
            raise Refused("word", column, cause)
        if self.stage == "behind":
            test_behind(word, column)

    def take_tokens(self, tokens, end):
        if self.stage == "header":
            test_header(tokens, end, f"{self.word} 1")
            self.stage = "lines"
        elif tokens[0].text == "end":
            test_end(tokens)
            self.stage = "behind"
        else:
            self.take_line(tokens, end)

    def due(self):
        return {"header": f"'{self.word} 1'", "lines": "the line 'end'", "behind": None}[self.stage]


class Sizes(Beside):
    """What is known of a text of sizes behind the lines that were read, over the names of an instance."""

    word, words = "sizes", ("size",)

    def __init__(self, names):
        super().__init__()
        self.names, self.given = names, {}

    def take_line(self, tokens, end):
        parts = weight_parts(tokens[1:], end)
        for piece in parts.numbers:
            test_number(piece, 1, MOST_ELEMENT_SIZE)
        for piece in parts.elements:
            test_element(piece, self.names)
        test_twice(parts.elements, "in the line")
        for piece in parts.elements:
            if piece.text in self.given:
                raise Refused("twice", piece.column, f"{shown(piece.text)} has a size from a line before")
        self.given.update((name.text, int(size.text)) for name, size in zip(parts.elements, parts.numbers))
        total = sum(self.given.get(name, 1) for name in self.names)
        if total > MOST_ELEMENT_SIZE:
            cause = f"with this line the sizes of all elements add to {total:,}, and {MOST_ELEMENT_SIZE:,} are taken"
            raise Refused("total", parts.elements[0].column, cause)


class Pins(Beside):
    """What is known of a text of pins behind the lines that were read, over the names of an instance."""

    word, words = "pins", ("in", "out")

    def __init__(self, names):
        super().__init__()
        self.names, self.held = names, {}

    def take_line(self, tokens, end):
        word, pieces = tokens[0].text, words_of(tokens[1:], end, "a name is due")
        for piece in pieces:
            test_element(piece, self.names)
        test_twice(pieces, "in the line")
        for piece in pieces:
            if piece.text in self.held:
                raise Refused("twice", piece.column, f"{shown(piece.text)} is held {self.held[piece.text]} by a line before")
        self.held.update((piece.text, word) for piece in pieces)


class Edits(Beside):
    """What is known of a text of edits behind the lines that were read. They change the instance that was read before."""

    word, words = "edits", ("drop", "add")

    def __init__(self, instance):
        super().__init__()
        self.instance = instance

    def test_word(self, tokens, end):
        word, column = tokens[0]
        if self.stage == "lines" and word in WORDS[:-1]:
            raise Refused("word", column, f"{word} begins no line of edits: a term line stands behind 'add'")
        super().test_word(tokens, end)
        if self.stage == "lines" and word == "add":
            self.test_added(tokens[1:], end)

    def test_added(self, tokens, end):
        """The first token behind `add`."""
        if not tokens:
            raise Refused("word", end, "nothing stands here, where a term line is due behind 'add'")
        word, column = tokens[0]
        if word not in WORDS[:-1]:
            hint = f", but {word.lower()} does" if word.lower() in WORDS[:-1] else f": they begin with {', '.join(WORDS[:-1])}"
            raise Refused("word", column, f"{shown(word)} begins no term line" + hint)

    def take_line(self, tokens, end):
        if tokens[0].text == "drop":
            self.take_drop(tokens[1:], end)
        else:
            self.instance.take_term(parts_in(self.instance.version, tokens[1:], end), tokens[1].column)

    def take_drop(self, tokens, end):
        number, *others = words_of(tokens, end, "drop has the number of a term line")
        if others:
            raise not_here(others[0], "drop has one number: each line that is to go has a line of its own")
        count = len(self.instance.terms)
        if NUMBER.fullmatch(number.text) and not is_from(number.text, 1, count):
            cause = f"there is no term line {shown(number.text)}: the list then has {counted(count, 'term line')}"
            raise Refused("number", number.column, cause + ", without the header, the ground line and comments")
        test_number(number, 1, max(count, 1))
        self.instance.drop_term(int(number.text) - 1)


def first_fault(reading, data):
    """The first fault of a text as its line, reason, column and cause, or None. What reads it takes line by line."""
    if len(data) > MOST_BYTES:
        return 0, "long", None, f"the text has {len(data):,} bytes, and {MOST_BYTES:,} are taken"
    lines = data.split(b"\n")
    if not lines[-1]:
        lines.pop()
    for number, line in enumerate(lines, 1):
        line = line[:-1] if line.endswith(b"\r") else line
        first = line.lstrip(b" \t")
        if first and not first.startswith(b"#"):
            try:
                reading.take(line)
            except Refused as refused:
                return number, refused.reason, refused.column, refused.cause
    if reading.due():
        return len(lines) + 1, "short", None, f"the text ends here, and {reading.due()} is still due"
    return None


def main():
    parser = argparse.ArgumentParser(description=__doc__, formatter_class=argparse.RawDescriptionHelpFormatter)
    parser.add_argument("instance", help="an instance")
    parser.add_argument("sizes", nargs="?", help="a text of sizes")
    parser.add_argument("--sizes", dest="more_sizes", metavar="SIZES", help="the same")
    parser.add_argument("--pins", help="a text of pins")
    parser.add_argument("--edits", help="a text of edits")
    options = parser.parse_args()
    path, kind = options.instance, "refused"
    instance = Instance()
    found = first_fault(instance, read_bytes(path))
    # the edits come last, as they change the instance
    beside = [(options.sizes, Sizes), (options.more_sizes, Sizes), (options.pins, Pins), (options.edits, Edits)]
    for text, form in beside:
        if text and not found:
            path, kind = text, form.word
            found = first_fault(form(instance if form is Edits else instance.names), read_bytes(path))
    if not found:
        print(f"{path}: this text has no fault")
        return 0
    line, reason, column, cause = found
    print(f"{kind} {line} {reason}")
    print(f"{path}{f':{line}' if line else ''}{f':{column}' if column else ''}: {cause}")
    return 2


if __name__ == "__main__":
    sys.exit(run_main(main))
