"""Solves an instance, has the answer judged, and prints what it says before its proof.

The code is 0, or 2 where the instance is refused, 3 where it can't be read, 5 out of memory, and 70 for what else ends a call.
"""
from __future__ import annotations

import argparse
import json
import signal
import sys
import time
from typing import Any, Dict, List

from . import __version__
from .answer import Answer
from .calls import check, solve
from .engines import Library, engine
from .errors import Error, OutOfMemory, Refused


def told(answer: Answer) -> Dict[str, Any]:
    """What an answer says, as JSON has it. A slope is a text `P/Q`; blocks are named by their places, from 0."""
    return {
        "minimum": answer.minimum,
        "least": answer.in_order(answer.least),
        "greatest": answer.in_order(answer.greatest),
        "blocks": [{"members": answer.in_order(it.members), "needs": sorted(it.needs)} for it in answer.blocks],
        "slopes": [{"slope": f"{it.slope.numerator}/{it.slope.denominator}", "members": list(it.members)} for it in answer.steps],
    }


def read(name: str) -> str:
    """The text of a file; that of standard input for `-`. Bytes that are no UTF-8 are kept as they are, for a refusal."""
    if name == "-":
        data = sys.stdin.buffer.read()
    else:
        with open(name, "rb") as file:
            data = file.read()
    return data.decode("utf-8", "surrogateescape")


def run(options: argparse.Namespace) -> None:
    text = read(options.file)
    if isinstance(engine(), Library):
        # a call of the library hears no Ctrl-C, so the process ends by it
        signal.signal(signal.SIGINT, signal.SIG_DFL)
    start = time.perf_counter()
    answer = solve(text, check=False)
    solved = time.perf_counter()
    check(text, answer)
    judged = time.perf_counter()
    print(json.dumps(told(answer)) if options.json else answer.text[: answer.text.index("\nat ")])
    if options.verbose:
        lines = f"{engine()}\nsolved in {solved - start:.3f} s and judged in {judged - solved:.3f} s\n"
        sys.stderr.write(lines + f"{len(answer.ground)} elements, a proof of {len(answer.text.encode()):,} bytes\n")


def main() -> int:
    parser = argparse.ArgumentParser(prog="python3 -m leastset", description=__doc__)
    parser.add_argument("file", help="an instance; - is standard input")
    parser.add_argument("--json", action="store_true", help="print what the answer says as JSON")
    parser.add_argument("-v", "--verbose", action="store_true", help="say on standard error what it took")
    parser.add_argument("--version", action="version", version=f"leastset {__version__}")
    options = parser.parse_args()
    try:
        run(options)
    except (Error, OSError) as error:
        print(f"leastset: {error}", file=sys.stderr)
        codes: List[Any] = [(Refused, 2), (OutOfMemory, 5), (Error, 70), (OSError, 3)]
        return next(code for kind, code in codes if isinstance(error, kind))
    except KeyboardInterrupt:
        return 130
    return 0


if __name__ == "__main__":
    sys.exit(main())
