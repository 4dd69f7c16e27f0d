"""What the scripts beside this file share about faults: one line on standard error and an exit code, never a traceback.

The line is `PATH:LINE: what is wrong`, and the codes are those of `sfm`: 2 where a text has a fault, 3 where a file or the
program can't be read, 4 where something can't be written. Where `sfm` itself ends with a code, the script ends with it too.
"""
import os
import re
import sys

NAME = re.compile(r"[A-Za-z0-9_]{1,32}")
WHOLE = re.compile(r"[+-]?[0-9]+")
MOST_NUMBER = 10**12
MOST_NAMES = 256


class Stop(Exception):
    """The line to be printed on standard error, and the code to end with."""

    def __init__(self, code, line):
        super().__init__(line)
        self.code, self.line = code, line


def fault(path, line, what):
    """A fault of a text, at a line counted from 1; or of the whole text, where the line is None."""
    return Stop(2, f"{path}: {what}" if line is None else f"{path}:{line}: {what}")


def run_main(main):
    """The exit code of a script: what `main` gives, 0 where it gives none, or that of what stopped it, which is told in one line."""
    sys.stdout.reconfigure(errors="backslashreplace")
    try:
        code = main() or 0
        sys.stdout.flush()
    except Stop as stop:
        print(stop.line, file=sys.stderr)
        return stop.code
    except BrokenPipeError:
        # whoever reads has enough; what is left to be printed goes nowhere
        os.dup2(os.open(os.devnull, os.O_WRONLY), sys.stdout.fileno())
        return 4
    return code


def read_bytes(path):
    try:
        with open(path, "rb") as file:
            return file.read()
    except OSError as error:
        raise Stop(3, f"{path}: {error.strerror}")


def read_text(path):
    """The text of a file in UTF-8, without the byte order mark that some editors write."""
    data = read_bytes(path)
    try:
        return data.decode("utf-8-sig")
    except UnicodeDecodeError as error:
        raise fault(path, data.count(b"\n", 0, error.start) + 1, "this line is not UTF-8; save the file as UTF-8")


def write_text(path, text):
    try:
        with open(path, "w", encoding="ascii", newline="\n") as file:
            file.write(text)
    except OSError as error:
        raise Stop(4, f"{path}: {error.strerror}")


def name_of(path, line, text):
    """A name as instances have them, or a fault."""
    if not NAME.fullmatch(text):
        raise fault(path, line, f"{text!r} is no name: names have 1 to 32 of A-Z a-z 0-9 _")
    return text


def whole_of(path, line, what, text):
    """A whole number within the limit, or a fault that says what it was to be."""
    if re.fullmatch(r"[+-]?[0-9]*[.,][0-9]+", text):
        places = len(re.split("[.,]", text)[1])
        raise fault(path, line, f"{what} is {text}: numbers are whole, so multiply all of them by {10**places}")
    if not WHOLE.fullmatch(text):
        raise fault(path, line, f"{what} is {text!r}, which is no whole number")
    if abs(int(text)) > MOST_NUMBER:
        raise fault(path, line, f"{what} is {text}: numbers go to {MOST_NUMBER:,} either way")
    return int(text)
