"""Tests of what does the work: library and program say the same, they end as they should, and the library is quick enough."""
import glob
import os
import random
import signal
import subprocess
import sys
import tempfile
import time
from pathlib import Path

from common import LIBRARY, PROGRAM, TOP, Test, needs_library
import leastset


def cases():
    """The words and texts of calls: all instances of examples/, right and wrong, and random texts."""
    with tempfile.TemporaryDirectory() as folder:
        subprocess.run([sys.executable, str(TOP / "c" / "texts.py"), folder, "100"], check=True)
        Path(folder, "none.sfm").touch()
        sizes = Path(folder, "0.sizes").read_bytes()
        folders = (f"{TOP}/examples", f"{TOP}/examples/mistakes", folder)
        for name in sorted(file for part in folders for file in glob.glob(f"{part}/*.sfm")):
            text, beside = Path(name).read_bytes(), Path(name).with_suffix(".sizes")
            sizes = beside.read_bytes() if beside.exists() else sizes
            rights = [Path(name).with_suffix(ending) for ending in (".right.sfm", ".right")]
            right = next((file.read_bytes() for file in rights if file.exists()), text)
            yield "solve", text
            yield "weigh", text, sizes
            yield "check", text, PROGRAM.call("solve", text)[1]
            yield "weighed", text, sizes, PROGRAM.call("weigh", text, sizes)[1].replace(b"1", b"2", 1)
            yield "ask", text, b"pins 1\nend\n"
            yield "meet", text, right
            yield "met", text, right, PROGRAM.call("meet", text, right)[1].replace(b"value 1", b"value 2", 1)


def slow():
    """An instance that takes two seconds or more."""
    rng = random.Random(1)
    made = leastset.Instance(range(256))
    made.weight({element: rng.randint(-9_000_000, 1_000_000) for element in made.ground})
    for _ in range(60):
        made.rank_graphic(rng.randint(1, 50_000), {element: (rng.randrange(120), rng.randrange(120)) for element in made.ground})
    return made.text()


class Engines(Test):
    @needs_library
    def test_library_and_program_say_the_same(self):
        count = 0
        for word, *texts in cases():
            if LIBRARY.offers(word):
                self.assertEqual(LIBRARY.call(word, *texts), PROGRAM.call(word, *texts), (word, texts[0][:200]))
                count += 1
        print(f"python: {count} calls as the program's")

    @needs_library
    def test_what_the_library_lacks_and_limits_of_time_go_to_the_program(self):
        leastset.use(LIBRARY)
        self.assertEqual(type(leastset.engine("solve")), leastset.Library)
        self.assertEqual(type(leastset.engine("no_such_word")), leastset.Program)
        self.assertEqual(type(leastset.engine("solve", stoppable=True)), leastset.Program)
        self.assertRaises(leastset.NoEngine, LIBRARY.call, "solve", b"", timeout=1.0)

    @needs_library
    def test_the_mark_of_10000_solves(self):
        leastset.use(LIBRARY)
        rng = random.Random(3)
        for checked in (False, True):
            start, work = time.perf_counter(), time.process_time()
            for _ in range(10_000):
                made = leastset.Instance("abcdefgh")
                made.weight({element: rng.randint(-9, 3) for element in "abcdefgh"})
                made.cover(7, "abcd")
                made.border(3, "a", "e")
                made.cover(5, "efgh")
                leastset.solve(made, check=checked)
            took, work = time.perf_counter() - start, time.process_time() - work
            how = "solved and judged" if checked else "solved"
            print(f"python: 10,000 instances of 8 elements {how} in {took:.2f} s, {work:.2f} s of processor time; the mark is 5 s")
            self.assertLess(work, 10, "twice the mark, as machines are busy")

    def test_a_limit_of_time_ends_a_call(self):
        start = time.monotonic()
        self.assertRaises(leastset.TimedOut, leastset.solve, slow(), timeout=0.2)
        self.assertLess(time.monotonic() - start, 5)
        self.assertEqual(leastset.solve(leastset.Instance("a"), timeout=60).minimum, 0)
        self.assertRaises(leastset.TimedOut, leastset.solve, leastset.Instance("a"), timeout=0)

    def test_an_interrupt_ends_a_call(self):
        for name in ("LEASTSET_PROGRAM", "LEASTSET_LIBRARY"):
            if name in os.environ:
                alone = {key: value for key, value in os.environ.items() if key == name or not key.startswith("LEASTSET")}
                words = [sys.executable, "-m", "leastset", "-"]
                run = subprocess.Popen(words, stdin=subprocess.PIPE, stdout=subprocess.PIPE, start_new_session=True, env=alone)
                run.stdin.write(slow().encode())
                run.stdin.close()
                time.sleep(1)
                os.killpg(run.pid, signal.SIGINT)
                self.assertIn(run.wait(10), (130, -signal.SIGINT))
                run.stdout.close()

    def test_how_a_program_ends(self):
        with tempfile.TemporaryDirectory() as folder:
            for code, error in ((5, leastset.OutOfMemory), (3, leastset.Failed), (64, leastset.Failed)):
                path = Path(folder, f"ends{code}")
                path.write_text(f"#!/bin/sh\necho ended >&2\nexit {code}\n")
                path.chmod(0o755)
                leastset.use(leastset.Program(path))
                self.assertRaises(error, leastset.solve, leastset.Instance("a"))
            leastset.use(leastset.Program(Path(folder, "none")))
            self.assertRaises(leastset.NoEngine, leastset.solve, leastset.Instance("a"))
