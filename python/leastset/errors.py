"""What can go wrong, a class for each. All of them are an `Error`."""
from __future__ import annotations

from typing import Optional


class Error(Exception):
    """Whatever this package raises of its own, but for a ValueError or a TypeError where a line of an instance is built."""


class Verdict(Error, ValueError):
    """What a line `WORD LINE REASON` says: `word`, `line` (counted from 1, or 0 for a text as a whole) and `reason`."""

    def __init__(self, said: str) -> None:
        super().__init__(said.strip())
        self.said = said.strip()
        self.word, line, self.reason = self.said.split(" ")
        self.line = int(line)


class Refused(Verdict):
    """A text has a fault.

    `word` says which one: `refused` for the instance, `sizes` or `pins` for the text beside it, `left` or `right` for one of two
    instances. `source` is the line itself, and `token` what is wrong in it, as far as the line alone tells; else None.
    docs/FORMATS.md lists the reasons.

    >>> import leastset
    >>> towns = leastset.Instance(["ash", "birch"])
    >>> towns.concave([1, 3], ["ash", "birch"])
    >>> try:
    ...     leastset.solve(towns)
    ... except leastset.Refused as refused:
    ...     print(refused.line, refused.reason, refused.source)
    3 law concave 1 3 : ash birch
    """

    def __init__(self, said: str, source: str, token: Optional[str]) -> None:
        super().__init__(said)
        self.source = source
        self.token = token

    def __str__(self) -> str:
        at = "" if self.token is None else f" at {self.token!r}"
        source = self.source if len(self.source) <= 80 else self.source[:76] + " ..."
        return self.said + (f":{at} in {source!r}" if source else at)


class Invalid(Verdict):
    """An answer is not right. `line` is the first line of the answer that is not, and `reason` what it is not."""


class Unreadable(Error, ValueError):
    """A text is not of the form that it was read as: `line`, counted from 1, and `what` is wrong there."""

    def __init__(self, line: int, what: str) -> None:
        super().__init__(f"line {line}: {what}")
        self.line = line
        self.what = what


class OutOfMemory(Error, MemoryError):
    """There was too little memory for an answer."""


class TimedOut(Error, TimeoutError):
    """The time that was given is over."""


class NoEngine(Error, RuntimeError):
    """Neither the library nor the program is there, or none that can do what is asked."""


class Failed(Error, RuntimeError):
    """The program ended by a fault of the outside: `code`, and what it said."""

    def __init__(self, code: int, said: str) -> None:
        super().__init__(f"the program ended with {code}: {said.strip()}")
        self.code = code
