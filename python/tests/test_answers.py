"""Tests of what answers tell: it is what is found by trying every set."""
import random
import tempfile
from fractions import Fraction

from common import ENGINES, Test, every_set, random_ground, random_instance
import leastset


def of(instance, chosen):
    """The set that a number stands for in every_set.py."""
    return frozenset(element for place, element in enumerate(instance.ground) if every_set.has(chosen, place))


def values_of(instance):
    """What each set is worth; None where it is not allowed."""
    with tempfile.NamedTemporaryFile("w", suffix=".sfm") as file:
        file.write(instance.text())
        file.flush()
        return every_set.read_instance(file.name)[1]


def sums_of(bases, instance):
    """What the bases of terms add up to at each element."""
    return {element: sum(base.get(element, 0) for base in bases) for element in instance.ground}


class Answers(Test):
    def test_answers_are_as_found_by_every_set(self):
        rng = random.Random(2)
        for _ in range(60):
            made = random_instance(rng, random_ground(rng))
            values = values_of(made)
            sizes = {element: rng.randint(1, 5) for element in made.ground}
            for engine in ENGINES:
                leastset.use(engine)
                self.compare(made, values, leastset.solve(made), {})
                self.compare(made, values, leastset.weigh(made, sizes), sizes)
                self.compare_pins(made, values, rng.choice(made.ground), rng.choice(made.ground))
                by_text = leastset.solve(made.text())
                self.assertEqual([made.elements()[name] for name in by_text.ground], list(made.ground))
                self.assertEqual(len(by_text.bases()), len(made.lines))

    def compare(self, made, values, answer, sizes):
        least, best = every_set.least_of(values)
        self.assertEqual((answer.minimum, answer.ground), (least, made.ground))
        self.assertEqual((answer.least, answer.greatest), (of(made, every_set.all_of(best)), of(made, every_set.any_of(best))))
        found = list(answer.minimisers())
        self.assertEqual((set(found), len(found), found[0]), ({of(made, it) for it in best}, len(best), answer.least))
        weights = [sum(sizes.get(element, 1) for element in of(made, chosen)) for chosen in range(len(values))]
        self.assertEqual(answer.slopes, [(slope, of(made, it)) for slope, it in every_set.slopes_of(values, weights)])
        for slope in {at + shift for at, _ in answer.slopes for shift in (0, Fraction(1, 97), Fraction(-1, 97))}:
            _, best = every_set.least_of([None if it is None else it - slope * weights[i] for i, it in enumerate(values)])
            self.assertEqual(answer.greatest_at(slope), of(made, every_set.any_of(best)))
            self.assertEqual(answer.least_at(slope), of(made, every_set.all_of(best)))
        for slope in (0, *(at for at, _ in answer.slopes)):
            p, q = Fraction(slope).numerator, Fraction(slope).denominator
            sums = {e: sum(base.get(e, 0) for base in answer.bases(slope)) - p * sizes.get(e, 1) for e in made.ground}
            bound, _ = every_set.least_of([None if it is None else q * it - p * weights[i] for i, it in enumerate(values)])
            self.assertEqual(sum(min(0, it) for it in sums.values()), bound)
        for step in answer.steps:
            self.assertEqual(step.worth, min(it for i, it in enumerate(values) if of(made, i) == set(step.members)))
            self.assertTrue(all(answer.slope_of(element) == step.slope for element in step.new))

    def compare_pins(self, made, values, inside, outside):
        if inside == outside:
            self.assertRaises(ValueError, leastset.ask, made, [inside], [outside])
            return
        asked = leastset.ask(made, [inside], [outside])
        worths = [value if inside in of(made, i) and outside not in of(made, i) else None for i, value in enumerate(values)]
        if all(it is None for it in worths):
            self.assertIsNone(asked)
        else:
            least, best = every_set.least_of(worths)
            self.assertEqual(asked, (least, of(made, every_set.all_of(best)), of(made, every_set.any_of(best))))

    def test_common_vectors_are_as_found_by_every_set(self):
        rng = random.Random(4)
        for _ in range(60):
            ground = random_ground(rng)
            left, right = (random_instance(rng, ground, conditions=False) for _ in range(2))
            for engine in ENGINES:
                leastset.use(engine)
                for texts in ((left, right), (left.text(), right), (left, right.text())):
                    self.compare_common(left, right, leastset.meet(*texts))
                self.assertEqual(set(leastset.meet(left.text(), right.text()).common), set(left.names.values()))

    def compare_common(self, left, right, told):
        values, others = values_of(left), values_of(right)
        least, best = every_set.least_of([value + others[-1 - chosen] for chosen, value in enumerate(values)])
        self.assertEqual((told.total, told.members), (least, of(left, every_set.all_of(best))))
        for chosen, pair in enumerate(zip(values, others)):
            self.assertLessEqual(sum(told.common[element] for element in of(left, chosen)), min(pair))
        self.assertEqual(sum(told.common.values()), told.total)
        self.assertEqual((len(told.left), len(told.right)), (len(left.lines), len(right.lines)))
        sums, other_sums = sums_of(told.left, left), sums_of(told.right, right)
        self.assertEqual(told.common, {element: min(sums[element], other_sums[element]) for element in left.ground})

    def test_a_wrong_common_vector_is_invalid(self):
        left, right = leastset.Instance("ab"), leastset.Instance("ab")
        left.cover(5, "ab")
        right.weight({"a": 3, "b": 1})
        text = leastset.meet(left, right).text
        for engine in ENGINES:
            leastset.use(engine)
            leastset.met(left, right, text)
            for line, reason in ((2, "answer"), (4, "unproved"), (7, "grammar")):
                lines = text.splitlines(keepends=True)
                lines[line - 1] = {2: "value 5\n", 4: "common 3 2\n", 7: "end"}[line]
                with self.assertRaises(leastset.Invalid) as caught:
                    leastset.met(left, right, "".join(lines))
                self.assertEqual((caught.exception.line, caught.exception.reason), (line, reason))

    def test_a_wrong_answer_is_invalid(self):
        made = leastset.Instance("ab")
        made.weight({"a": -5, "b": 2})
        text = leastset.solve(made).text.replace("minimum -5", "minimum -6")
        for engine in ENGINES:
            leastset.use(engine)
            with self.assertRaises(leastset.Invalid) as caught:
                leastset.check(made, text)
            self.assertEqual((caught.exception.line, caught.exception.reason), (2, "answer"))

    def test_many_best_sets_come_one_after_another(self):
        best = leastset.solve(leastset.Instance(range(256))).minimisers()
        self.assertEqual([next(best), len(next(best)), len(next(best))], [frozenset(), 1, 1])
