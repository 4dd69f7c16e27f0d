#!/usr/bin/env python3
"""Runs the commands that documents quote, and compares what they print with what the documents say.

In Markdown a command is a line of a fenced block that begins with `$ `, and what it prints are the lines behind it, up to the next
one; or it is a cell of a table, with what it prints and its exit code in the two cells behind it. In a man page the blocks stand
between .EX and .EE. Each document's commands run in order in a copy of FOLDER, by bash. Numbers of base lines are not compared,
since an answer may prove by other bases.

    python3 quoted.py FOLDER README.md docs/GUIDE.md
"""
import argparse
import os
import re
import shutil
import subprocess
import sys
import tempfile
from collections import namedtuple

# A command with the lines that it prints; its code where the document says it.
Quote = namedtuple("Quote", "line command printed code")
USAGE = (
    "usage: sfm solve FILE | check FILE ANSWER | demo SEED"
    " | weigh FILE SIZES | weighed FILE SIZES ANSWER | ask FILE PINS | level FILE | edit FILE EDITS"
    " | meet LEFT RIGHT | met LEFT RIGHT ANSWER"
)


def blocks_of(lines):
    """The lines of fenced blocks, or of blocks of a man page, each with its number; None behind each block."""
    inside = False
    for number, line in enumerate(lines, 1):
        if line.startswith("```") or line in (".EX", ".EE"):
            inside = not inside
            if not inside:
                yield number, None
        elif inside:
            yield number, line


def quotes_of_blocks(lines):
    found, command, printed, start = [], None, [], 0
    for number, line in blocks_of(lines):
        if line is None or line.startswith("$ "):
            if command is not None:
                found.append(Quote(start, command, printed, None))
            command, printed, start = line and line[2:], [], number
        elif command is not None:
            printed.append(line)
    return found


def quotes_of_tables(lines):
    found = []
    for number, line in enumerate(lines, 1):
        cells = [cell.strip() for cell in re.split(r"(?<!\\)\|", line)]
        for command, printed, code in zip(cells, cells[1:], cells[2:]):
            if re.fullmatch(r"`sfm .*`", command) and code.isdigit():
                said = USAGE if printed == "the usage line" else printed.strip("`")
                found.append(Quote(number, command.strip("`"), [said], int(code)))
    return found


def read_quotes(path):
    """The commands of a document in order. In a man page `\\-` is a minus sign and `\\e` a backslash."""
    with open(path, encoding="utf-8") as file:
        lines = file.read().splitlines()
    if not path.endswith(".md"):
        lines = [line.replace("\\-", "-").replace("\\e", "\\") for line in lines]
    return sorted(quotes_of_blocks(lines) + quotes_of_tables(lines))


def plain(lines):
    """Lines without the numbers of base lines."""
    return [re.sub(r"^(base \d+)\b.*", r"\1", line.rstrip()) for line in lines]


def differs(quote, folder):
    """What is wrong with a quote, or None."""
    done = subprocess.run(
        ["bash", "-c", quote.command], cwd=folder, stdout=subprocess.PIPE, stderr=subprocess.STDOUT, stdin=subprocess.DEVNULL
    )
    printed = done.stdout.decode("utf-8", "replace").splitlines()
    if plain(printed) != plain(quote.printed):
        return "prints\n" + "\n".join("    " + line for line in printed)
    if quote.code is not None and quote.code != done.returncode:
        return f"ends with {done.returncode}"
    return None


def run_document(folder, document):
    """Runs the commands of a document in a copy of the folder, and gives how many there are and how many differ."""
    quotes = read_quotes(os.path.join(folder, document))
    wrong = 0
    with tempfile.TemporaryDirectory() as copy:
        for name in ("README.md", "docs", "examples", "bench", "python"):
            source, target = os.path.join(folder, name), os.path.join(copy, name)
            (shutil.copytree if os.path.isdir(source) else shutil.copy)(source, target)
        for quote in quotes:
            why = differs(quote, copy)
            if why:
                wrong += 1
                print(f"{document}:{quote.line}: {quote.command}\n  {why}")
    print(f"{document}: {len(quotes)} commands, {wrong} differ", flush=True)
    return wrong


def main():
    parser = argparse.ArgumentParser(description=__doc__, formatter_class=argparse.RawDescriptionHelpFormatter)
    parser.add_argument("folder", help="the top of the repository")
    parser.add_argument("documents", nargs="+", help="names of documents in it")
    options = parser.parse_args()
    return 1 if sum(run_document(options.folder, document) for document in options.documents) else 0


if __name__ == "__main__":
    sys.exit(main())
