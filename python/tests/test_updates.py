"""Tests of updated graphs: what is read off proved calls is the published update, as a reviewer's script makes it."""
import importlib.util
import os
import random
import unittest
from fractions import Fraction

import places
import welungad
from welungad import _case, _refusals, _updates
from welungad._calls import run, update

F = Fraction
SCRIPT = os.path.join(places.TOP, "tools", "make_evidence.py")


def reviewers():
    """Returns the reviewers' script, which makes the update in whole numbers of any size."""
    found = importlib.util.spec_from_file_location("make_evidence", SCRIPT)
    module = importlib.util.module_from_spec(found)
    found.loader.exec_module(module)
    return module


def made(chance, with_epsilon):
    """Returns the text of a case of random graphs."""
    size, count = chance.randrange(2, 6), chance.randrange(1, 4)
    names = [f"H{i}" for i in range(1, size + 1)]
    lines = ["alpha 1/40", " ".join(["hypotheses", *names]), "p" + " 0" * size]
    for _ in range(count):
        lines += [f"component 1/{count}"] if count > 1 else []
        cuts = sorted(chance.randrange(13) for _ in range(size))
        lines.append(" ".join(["weights", *(f"{b - a}/12" for a, b in zip([0, *cuts], cuts))]))
        for name in names:
            others = [it for it in names if it != name and chance.random() < 0.7]
            for n, end in enumerate(others):
                small = with_epsilon and chance.random() < 0.3
                lines.append(f"edge {name} {end} " + ("\\epsilon" if small else f"1/{len(others) + with_epsilon}"))
    return "\n".join([*lines, ""])


class Updates(unittest.TestCase):
    """Whether the weights and the edges are those of the published update."""

    def compare(self, case, order, calls, limits):
        """Compares the graph after each removal with that of the reviewers' script."""
        script = reviewers()
        updates, components = _updates.Updates(case, calls), script.Case(case.of_p(dict.fromkeys(case.names, "0"))).components
        for count in range(len(order) + 1):
            removed = order[:count]
            found = updates.after(removed)
            left = [k for k, name in enumerate(case.names) if name not in removed]
            self.assertEqual(found.weights, {case.names[k]: sum(part.share * part.weight(k) for part in components) for k in left})
            for one, part in zip(found.components, components):
                self.assertEqual({name: self.limit(weight) for name, weight in one.weights.items()}, {case.names[k]: part.weight(k) for k in left})
                self.assertEqual({pair: self.limit(edge) if limits else edge for pair, edge in one.edges.items() if self.limit(edge) or not limits},
                                 self.wanted(script, part, left, case.names, limits))
            if count < len(order):
                for part in components:
                    part.remove(case.names.index(order[count]))

    @staticmethod
    def limit(x):
        return x if isinstance(x, Fraction) else x.numerator[0] / x.denominator[0]

    def wanted(self, script, part, left, names, limits):
        """Returns the edges among the hypotheses that are left."""
        arriving, edges = {k: part.exits(k) for k in left}, {}
        for i in left:
            row = [part.edges[i][r] for r in part.passing]
            below = script.plus(script.times(part.determinant, [part.scales[i]]), script.dot(row, arriving[i]), -1)
            for j in left:
                above = script.plus(script.times(part.edges[i][j], part.determinant), script.dot(row, arriving[j]))
                if i != j and above and below:
                    above_text, below_text = script.lowest_terms(above, below)
                    text = script.quotient_text(above_text, below_text)
                    edge = Fraction(text) if text[0] != "[" else lowest(above_text, below_text)
                    if not limits:
                        edges[names[i], names[j]] = edge
                    elif self.limit(edge):
                        edges[names[i], names[j]] = self.limit(edge)
        return edges

    def try_all(self, calls, with_epsilon, limits, seed, count):
        chance, compared = random.Random(seed), 0
        for _ in range(count):
            text = made(chance, with_epsilon)
            status, canonical = run(["canon"], text)
            self.assertEqual(status, 0, text)
            case = _case.read_canonical(canonical.decode())
            order = [*case.names]
            chance.shuffle(order)
            # what has no weight in any component is removed last
            order.sort(key=lambda name: not any(weights[name] for weights in case.weights))
            try:
                self.compare(case, order, calls, limits)
                compared += 1
            except _refusals.Refused as refused:
                self.assertEqual(refused.status, 5)
            except _refusals.BadAnswer as error:
                # a hypothesis that has no weight when its turn comes is not rejected
                self.assertIn("and the p-values of", str(error))
        return compared

    def test_read_off_test(self):
        for with_epsilon in (False, True):
            self.assertGreater(self.try_all(_updates.Calls(run), with_epsilon, True, 11, 40), 15)

    def test_the_call(self):
        if update("alpha 1\nhypotheses A\nweights 1\n", []) is None:
            self.skipTest("the library is an older one")
        for with_epsilon in (False, True):
            self.assertGreater(self.try_all(_updates.Calls(run, update), with_epsilon, False, 12, 40), 15)


def lowest(above, below):
    """Returns a quotient of whole numbers in lowest terms, as the package has it: the lowest coefficient below that is not 0 is 1."""
    least = next(filter(None, below))
    return welungad.Quotient(tuple(Fraction(x, least) for x in above), tuple(Fraction(x, least) for x in below))


class Terms(unittest.TestCase):
    """Whether a quotient is brought into lowest terms."""

    def test_by_hand(self):
        for above, below, wanted in [([1, 1], [3, 0, -3], ([F(1, 3)], [1, -1])), ([0, 2], [4], ([0, F(1, 2)], [1])), ([2, -2], [4, -4], F(1, 2)), ([0, 0], [1, 1], F(0)),
                                     ([0, 1], [0, 2], F(1, 2)), ([1], [0, -1], ([-1], [0, 1])), ([1, 2, 1, 0], [1, 1, 0], ([1, 1], [1]))]:
            found = _case.lowest_terms(welungad.Quotient(tuple(map(F, above)), tuple(map(F, below))))
            with self.subTest((above, below)):
                self.assertEqual(found, wanted if isinstance(wanted, F) else welungad.Quotient(*(tuple(map(F, part)) for part in wanted)))
        self.assertEqual(_case.lowest_terms(F(2, 3)), F(2, 3))


class Texts(unittest.TestCase):
    """What the text of the call is read as, by hand, and which texts are refused."""

    CASE = "alpha 1/40\nhypotheses A B C\nweights 1/2 1/2 0\nedge A B 1-\\epsilon\nedge A C \\epsilon\nedge B A 1\n"
    TEXT = ("component 1\nweight B [1,-1/2]/[1]\nedge B C 1\nweight C [0,1/2]/[1]\nlevel B 1\nlevel C 0\nend\n")
    TEST = "alpha 1/2\nstep 1 A p 0 weight 1/2\nkept B p 1 weight 1\nkept C p 1 weight 0\nrejected A\nadjusted A 0\nadjusted B 1\nadjusted C 1\nend\n"

    def after(self, text, status=0):
        case = _case.read_canonical(self.CASE)
        return _updates.Updates(case, _updates.Calls(lambda *_: (0, self.TEST.encode()), lambda *_: (status, text.encode()))).after(["A"])

    def test_by_hand(self):
        found = self.after(self.TEXT)
        self.assertEqual(found.weights, {"B": 1, "C": 0})
        self.assertEqual(found.components[0].edges, {("B", "C"): 1})
        self.assertEqual(found.components[0].weights["B"].numerator, (1, Fraction(-1, 2)))

    def test_other_texts(self):
        for old, new in [("level B 1\n", "level B 1/2\n"), ("level C 0\n", ""), ("component 1", "component 2"), ("end\n", ""), ("edge B C 1", "edge B A 1"),
                         ("edge B C 1", "edge B B 1"), ("weight C [0,1/2]/[1]\n", ""), ("level B", "level A"), ("edge B C 1\n", "edge B C 1\nedge B C 1\n"),
                         ("component 1\n", "component 1\nweight B 1\nweight C 0\ncomponent 2\n"), (self.TEXT, ""),
                         ("edge B C 1\nweight C [0,1/2]/[1]\n", "weight C [0,1/2]/[1]\nedge B C 1\n"), ("edge B C 1", "edge B C 2/2")]:
            with self.subTest(new), self.assertRaises(_refusals.BadAnswer):
                self.assertIn(old, self.TEXT)
                self.after(self.TEXT.replace(old, new))
        with self.assertRaises(_refusals.BadAnswer):
            self.after("", 11)
        with self.assertRaises(_refusals.Refused):
            self.after("too wide: step 1: component 1 edge B C mul\n", 5)


if __name__ == "__main__":
    unittest.main()
