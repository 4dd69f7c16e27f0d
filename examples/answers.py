"""What the scripts beside this file share over the package `leastset` of ../python: to solve by the program, to keep the texts that it
is given, and to say in one line what is wrong.

The program is `sfm` on the path, or the one that the environment variable SFM names.
"""
import os
import sys
from contextlib import contextmanager

from faults import Stop, fault, read_text, write_text

sys.path.insert(0, os.path.join(os.path.dirname(os.path.abspath(__file__)), "..", "python"))
import leastset  # noqa: E402
from leastset import texts  # noqa: E402
from leastset.answer import pinned  # noqa: E402

PROGRAM = leastset.Program(os.environ.get("SFM", "sfm"))
leastset.use(PROGRAM)


@contextmanager
def stopped(word):
    """What ends a call of the program for a word other than well ends the script, with the same code."""
    try:
        yield
    except leastset.NoEngine as error:
        raise Stop(3, f"{error}; put sfm on the path, or name it by SFM")
    except leastset.OutOfMemory:
        raise Stop(5, f"sfm {word} ends with 5: ")
    except leastset.Failed as error:
        raise Stop(error.code if error.code > 0 else 70, f"sfm {word} ends with {error.code}: ")
    except leastset.Invalid as error:
        raise Stop(1, f"sfm {word} ends with 1: {error.said}")
    except leastset.Refused as error:
        raise Stop(2, f"sfm {word} ends with 2: {error.said}")


@contextmanager
def read_of(path):
    """A text that is not of its form is a fault of the file."""
    try:
        yield
    except leastset.Unreadable as error:
        raise fault(path, error.line, error.what)


def read_sizes(path):
    """The sizes that a text of sizes gives, by names of elements."""
    with read_of(path):
        return texts.read_sizes(read_text(path))


def read_pins(path):
    """The names that a text of pins holds in, and those that it holds out."""
    with read_of(path):
        return texts.read_pins(read_text(path))


def read_answer(path, sizes=None):
    """The answer in a file. Where it is one to `sfm weigh`, what its sets are worth follows from the sizes."""
    with read_of(path):
        return leastset.Answer(read_text(path), sizes=sizes)


def run_well(*words):
    """Runs the program, and gives what it printed. It has to end with 0."""
    with stopped(words[0]):
        code, said = PROGRAM.run(*words)
        text = said.decode("ascii")
        if code != 0:
            raise Stop(code, f"sfm {words[0]} ends with {code}: {text.strip()}")
    return text


def solve(instance, keep=None, sizes=None):
    """The answer to an instance, which was judged. The instance is kept in the file `keep`. Where there are sizes of elements, slopes
    count by these; they are kept beside the instance."""
    if keep:
        write_text(keep, instance.text())
        if sizes:
            write_text(keep + ".sizes", texts.sizes_text(sizes))
    with stopped("weigh" if sizes else "solve"):
        return leastset.weigh(instance, sizes) if sizes else leastset.solve(instance)


def ask(instance, inside, outside, keep=None):
    """What is least among the sets that have the names of the one list and none of the other; None where there is no such set. The
    instance and its pins are kept in the files `keep` and `keep`.pins."""
    if keep:
        write_text(keep, instance.text())
        write_text(keep + ".pins", texts.pins_text(inside, outside))
    with stopped("ask"):
        return leastset.ask(instance, inside, outside)


def level(instance, keep=None):
    """The most level base of an instance, which is kept in the file `keep`."""
    if keep:
        write_text(keep, instance.text())
    with stopped("level"):
        return leastset.level(instance)


def asked_of(path, pins):
    """What is least for the instance in a file, among the sets that keep to the pins in another."""
    return pinned(run_well("ask", path, pins))


def in_lines(names, width=100, indent="    "):
    """Names in lines of at most so many letters, for people to read."""
    lines, line = [], indent
    for name in names:
        if len(line) + len(name) + 1 > width and line != indent:
            lines.append(line.rstrip())
            line = indent
        line += name + " "
    return "\n".join([*lines, line.rstrip()])
