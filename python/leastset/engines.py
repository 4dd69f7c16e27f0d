"""Bytes to bytes: by the library, or by the program.

Both do what a word of the program does, such as `solve` or `check`: texts in, a text and a code out. The library is called in
this process, which is fast where instances are small; such a call can't be stopped. The program runs beside it.
"""
from __future__ import annotations

import ctypes
import os
import shutil
import subprocess
import tempfile
from pathlib import Path
from typing import Any, Dict, Iterator, Optional, Tuple, Union

from .errors import Failed, NoEngine, TimedOut

# The code, and the text: 0 done, 1 not right, 2 refused, 5 out of memory.
Ended = Tuple[int, bytes]


class _Text(ctypes.Structure):
    """`struct sfm_text` of sfm.h."""

    _fields_ = [("at", ctypes.c_void_p), ("len", ctypes.c_size_t)]


_EMPTY = ctypes.create_string_buffer(1)


class Library:
    """Calls of libsfm.so. Threads call side by side: no lock of Python's is held in a call."""

    def __init__(self, path: Union[str, Path]) -> None:
        self.path = str(path)
        self._library = ctypes.CDLL(self.path)
        self._free = ctypes.CDLL(None).free
        self._free.argtypes, self._free.restype = [ctypes.c_void_p], None
        self._functions: Dict[Tuple[str, int], Any] = {}

    def offers(self, word: str) -> bool:
        """Whether the library has this word of the program."""
        return hasattr(self._library, f"sfm_{word}")

    def call(self, word: str, *texts: bytes, timeout: Optional[float] = None) -> Ended:
        """What `sfm WORD` does with files that hold these texts. There is no limit of time for a call."""
        if timeout is not None:
            raise NoEngine("a call of the library can't be stopped: a timeout needs the program")
        function = self._functions.get((word, len(texts))) or self._function(word, len(texts))
        out = _Text(ctypes.addressof(_EMPTY), 0)
        code: int = function(*(part for text in texts for part in (text, len(text))), ctypes.byref(out))
        if out.len == 0:
            return code, b""
        try:
            return code, ctypes.string_at(out.at, out.len)
        finally:
            self._free(out.at)

    def _function(self, word: str, count: int) -> Any:
        # a copy of the function by itself, as texts of another number would be of another type
        function = self._library[f"sfm_{word}"]
        function.argtypes = [ctypes.c_char_p, ctypes.c_size_t] * count + [ctypes.POINTER(_Text)]
        function.restype = ctypes.c_uint32
        self._functions[word, count] = function
        return function

    def __repr__(self) -> str:
        return f"Library({self.path!r})"


class Program:
    """Runs of the program sfm. One is ended where its time is over, or by Ctrl-C."""

    def __init__(self, path: Union[str, Path]) -> None:
        self.path = str(path)

    def offers(self, word: str) -> bool:
        """Whether the program is asked for this word: for each, as it says itself that it does not know one."""
        return True

    def call(self, word: str, *texts: bytes, timeout: Optional[float] = None) -> Ended:
        """What `sfm WORD` does with files that hold these texts, within so many seconds."""
        with tempfile.TemporaryDirectory(prefix="leastset") as folder:
            files = []
            for number, text in enumerate(texts, 1):
                files.append(os.path.join(folder, str(number)))
                with open(files[-1], "wb") as file:
                    file.write(text)
            return self.run(word, *files, timeout=timeout)

    def run(self, *words: str, timeout: Optional[float] = None) -> Ended:
        """Runs the program with these words, and gives its code and what it printed."""
        try:
            done = subprocess.run([self.path, *words], stdin=subprocess.DEVNULL, capture_output=True, timeout=timeout)
        except subprocess.TimeoutExpired:
            raise TimedOut(f"{timeout:.3f} seconds were too few") from None
        except OSError as error:
            raise NoEngine(f"{self.path}: {error.strerror}") from error
        if done.returncode not in (0, 1, 2, 5):
            raise Failed(done.returncode, done.stderr.decode("utf-8", "replace"))
        return done.returncode, done.stdout

    def __repr__(self) -> str:
        return f"Program({self.path!r})"


Engine = Union[Library, Program]


def _checkout() -> Optional[Path]:
    """The top of the repository, where the package stands in it."""
    top = Path(__file__).resolve().parent.parent.parent
    return top if (top / "c" / "sfm.h").exists() else None


def _libraries() -> Iterator[str]:
    """Where a library may stand. The system knows it by the name that its Makefile gives it."""
    yield str(Path(__file__).resolve().with_name("libsfm.so"))
    yield "libsfm.so.1"
    top = _checkout()
    if top:
        yield str(top / "c" / "libsfm.so")


def find_library() -> Optional[Library]:
    """The library that LEASTSET_LIBRARY names; else one beside this package, on the system's paths, or in c/ of a checkout."""
    named = os.environ.get("LEASTSET_LIBRARY")
    if named:
        try:
            return Library(named)
        except OSError as error:
            raise NoEngine(f"LEASTSET_LIBRARY: {error}") from error
    for path in _libraries():
        try:
            found = Library(path)
        except OSError:
            continue
        # others call a library so, too
        if found.offers("solve") and found.offers("check"):
            return found
    return None


def find_program() -> Optional[Program]:
    """The program that LEASTSET_PROGRAM names; else `sfm` on the path, or that of a checkout."""
    named = os.environ.get("LEASTSET_PROGRAM")
    path, top = shutil.which(named or "sfm"), _checkout()
    if named and not path:
        raise NoEngine(f"LEASTSET_PROGRAM: there is no program {named!r}")
    if not path and top:
        path = shutil.which(str(top / "crates" / "sfm" / "out" / "sfm"))
    return Program(path) if path else None


class _Found:
    """What is used: what was set by `use`, or what was found at the first call."""

    chosen: Optional[Engine] = None
    library: Optional[Library] = None
    program: Optional[Program] = None


def use(chosen: Optional[Engine]) -> None:
    """Lets all calls go to this engine; with None they go again to what is found."""
    _Found.chosen = chosen


def engine(word: str = "solve", stoppable: bool = False) -> Engine:
    """The engine for a word of the program: the library where it has it, and else the program.

    Only the program can be stopped. Without either there is `NoEngine`.
    """
    if _Found.chosen is not None and _Found.chosen.offers(word) and not (stoppable and isinstance(_Found.chosen, Library)):
        return _Found.chosen
    if not stoppable:
        _Found.library = _Found.library or find_library()
        if _Found.library and _Found.library.offers(word):
            return _Found.library
    _Found.program = _Found.program or find_program()
    if _Found.program:
        return _Found.program
    if stoppable:
        raise NoEngine("a timeout needs the program sfm, as a call of the library can't be stopped: name it by LEASTSET_PROGRAM")
    raise NoEngine(
        f"nothing is found that can do {word!r}: neither the library libsfm.so, which LEASTSET_LIBRARY names, "
        "nor the program sfm, which LEASTSET_PROGRAM names"
    )
