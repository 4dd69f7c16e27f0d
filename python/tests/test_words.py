"""Tests of what is said: faults, refusals, names, the examples of docstrings and documents, and the module as a command."""
import doctest
import importlib
import json
import re
import subprocess
import sys
from fractions import Fraction
from itertools import permutations
from pathlib import Path

from common import ENGINES, TOP, Test
import leastset

WHOLE = " and numbers are whole: multiply all of them by the same"
# What a builder refuses: how it is called, and what is said.
FAULTS = [
    (lambda it: leastset.Instance("aba"), "'a' stands twice among the elements"),
    (lambda it: it.weight({"a": 1, "z": 2}), "'z' is no element of this instance"),
    (lambda it: it.weight({"a": 1.5}), f"the weight of 'a' is 1.5,{WHOLE}"),
    (lambda it: it.weight({"a": float("nan")}), f"the weight of 'a' is nan,{WHOLE}"),
    (lambda it: it.weight({"a": "1"}), "the weight of 'a' is '1', which is no number"),
    (lambda it: it.weight({}), "a term has one element or more"),
    (lambda it: it.cut(1, "a", "a"), "'a' stands twice in one term"),
    (lambda it: it.cover(Fraction(1, 2), "ab"), f"a number of cover is 1/2,{WHOLE}"),
    (lambda it: it.concave([1], "ab"), "1 numbers stand here for 2 elements"),
    (lambda it: it.table([0, 1, 1], "ab"), "3 numbers stand here, where 2 elements have 4 choices"),
    (lambda it: leastset.Instance(range(9)).table(len, range(9)), "a table has 1 to 8 elements, and here are 9"),
    (lambda it: it.rank_laminar(1, "ab", [(1, "c")]), "'c' stands in a group, and not among the elements of the term"),
    (lambda it: it.rank_transversal(1, {"a": []}), "'a' has no slot"),
    (lambda it: it.rank_uniform(1, 1, "a", {"b": 2}), "'b' has a weight, and does not stand among the elements of the term"),
    (lambda it: it.rank_graphic(1, {"a": "uv"}, {"a": 0}), "the weight of 'a' is 0, and weights in a rank are from 1"),
    (lambda it: it.rank_uniform(1, 1, "ab", {"b": 1.5}), f"the weight of 'b' is 1.5,{WHOLE}"),
]
# Lines of a text over the elements a and b, the reason of the refusal, and the token that is named.
REFUSALS = [
    ("cover 7 a elm", "name", "elm"),
    ("need a a", "twice", "a"),
    ("weight a:1 b:1.5", "number", "1.5"),
    ("weight a:1000000000001", "number", "1000000000001"),
    ("cut -1 a b", "number", "-1"),
    ("rank 2 laminar : a b ; 01 a", "number", "01"),
    ("rank 2 graphic : a=u-v c=u-v", "name", "c"),
    ("rank 2 uniform 1 : a*2 b", "name", "a*2"),
    ("wait a", "word", "wait"),
    ("concave 1 3 : a b", "law", None),
    ("cut 1 a", "shape", None),
]
# A left and a right text that meet refuses: the lines behind the ground, the line that is written, and the token.
NOT_MET = [
    ("ground a b", "ground b a", "right 2 ground", None),
    ("ground a b\nneed a b", "ground a b\nneed b a", "left 3 need", None),
    ("ground a b", "ground a b\n\nneed b a", "right 4 need", None),
    ("ground a b\ncover 1 c", "ground b a", "left 3 name", "c"),
    ("ground a b", "ground a c\ncover 1 a b", "right 3 name", "b"),
]


class Faults(Test):
    def test_a_builder_names_what_is_wrong(self):
        for call, said in FAULTS:
            with self.assertRaises((ValueError, TypeError)) as caught:
                call(leastset.Instance("abc"))
            self.assertEqual(str(caught.exception), said)

    def test_numbers_without_a_rest_are_whole(self):
        made = leastset.Instance("abc")
        made.weight({"a": 2.0, "b": Fraction(-4, 2), "c": True})
        self.assertEqual(made.lines, ["weight a:2 b:-2 c:1"])

    def test_a_refusal_names_its_token(self):
        for line, reason, token in REFUSALS:
            with self.assertRaises(leastset.Refused) as caught:
                leastset.solve(f"sfm 1\n\nground a b\n{line}\nend\n")
            it = caught.exception
            self.assertEqual((it.word, it.line, it.reason, it.source, it.token), ("refused", 4, reason, line, token))
        with self.assertRaises(leastset.Refused) as caught:
            leastset.weigh("sfm 1\nground a b\nend\n", {"a": 0})
        self.assertEqual((caught.exception.word, caught.exception.line, caught.exception.token), ("sizes", 2, "0"))

    def test_two_instances_that_do_not_go_together(self):
        for left, right, said, token in NOT_MET:
            with self.assertRaises(leastset.Refused) as caught:
                leastset.meet(f"sfm 1\n{left}\nend\n", f"sfm 1\n{right}\nend\n")
            self.assertEqual((caught.exception.said, caught.exception.token), (said, token))
        with self.assertRaises(ValueError):
            leastset.meet(leastset.Instance([7]), leastset.Instance(["7"]))

    def test_names_are_legal_and_all_different(self):
        for things in permutations(["a b", "a_b", ("a", "b"), "e0", "e1", "", 1.5, "x" * 40], 4):
            made = leastset.Instance(things)
            self.assertEqual(len(set(made.names.values())), 4)
            self.assertTrue(all(re.fullmatch("[A-Za-z0-9_]{1,32}", name) for name in made.names.values()))
            self.assertTrue(all(made.names[thing] == thing for thing in things if thing in ("a_b", "e0", "e1")))


class Documents(Test):
    def test_docstrings_by_both_engines(self):
        for engine in ENGINES:
            leastset.use(engine)
            tried = 0
            for file in sorted(Path(leastset.__file__).parent.glob("*.py")):
                if file.stem != "__main__":
                    name = "leastset" if file.stem == "__init__" else f"leastset.{file.stem}"
                    failed, count = doctest.testmod(importlib.import_module(name))
                    self.assertEqual(failed, 0)
                    tried += count
            print(f"python: {tried} lines of docstrings by {type(engine).__name__}")

    def test_what_the_documents_say_in_python(self):
        for name in ("README.md", "docs/LIBRARY.md", "docs/GUIDE.md"):
            text = (TOP / name).read_text(encoding="utf-8")
            for block in re.findall(r"```python\n(.*?)```", text, re.S):
                test = doctest.DocTestParser().get_doctest(block, {}, name, name, 0)
                self.assertEqual(doctest.DocTestRunner().run(test).failed, 0)

    def test_the_module_as_a_command(self):
        path = str(TOP / "examples" / "towns.sfm")
        for words, given in ((["--json", path], None), (["--json", "-"], Path(path).read_bytes())):
            done = subprocess.run([sys.executable, "-m", "leastset", *words], input=given, stdout=subprocess.PIPE)
            said = json.loads(done.stdout)
            self.assertEqual((said["minimum"], said["least"], said["slopes"][0]["slope"]), (-3, ["ash", "birch"], "-3/2"))
        done = subprocess.run([sys.executable, "-m", "leastset", "-v", "-"], input=b"sfm 1\nend\n", stderr=subprocess.PIPE)
        self.assertEqual((done.returncode, done.stderr), (2, b"leastset: refused 2 word: at 'end' in 'end'\n"))
