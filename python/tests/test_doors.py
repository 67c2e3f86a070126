"""Tests of what was decided and what was given: results at other levels, pictures of other decisions, labels that look alike, ties, and
errors that name a way out."""
import dataclasses
import math
import unittest
from decimal import Decimal
from fractions import Fraction

import welungad

try:
    import numpy
except ImportError:
    numpy = None
try:
    import pandas
except ImportError:
    pandas = None

HALF = Fraction(1, 2)


def pair(names=("A", "B")):
    return welungad.Graph(["1/2", "1/2"], [[0, 1], [1, 0]], names)


class Levels(unittest.TestCase):
    """Whether a decision at another level is that of the test at this level, also at equality."""

    def test_equality(self):
        # 0.015 is read as 3/200, and the double is below it
        graph = welungad.Graph({"A": 1}, {})
        decision = graph.test([0.015])
        self.assertFalse(decision.adjusted["A"].p <= 0.015)
        self.assertEqual((decision.rejected_at(0.015), graph.test([0.015], alpha=0.015).rejected), (("A",), ("A",)))

    def test_each_level(self):
        graph, p = welungad.Graph([0.5, 0.3, 0.2], [[0, 0.5, 0.5], [1, 0, 0], [0.25, 0.75, 0]]), [0.01, 0.004, 0.02]
        decision = graph.test(p)
        levels = [it.p for it in decision.adjusted.values()]
        for level in [*levels, *(it - Fraction(1, 10**6) for it in levels), 0.025, "0.05", Decimal("0.01"), 1]:
            exact = welungad.as_exact(level)
            if exact.denominator <= 10000:
                self.assertEqual(decision.rejected_at(level), graph.test(p, alpha=level).rejected, level)
        self.assertEqual(decision.rejected_at(0), ())
        self.assertEqual(decision.rejected_at(0.02281), decision.rejected_at(Fraction(2281, 100000)))
        for wrong, error in [(1.5, ValueError), (-1, ValueError), ("x", ValueError), (True, TypeError), (None, TypeError)]:
            with self.subTest(wrong), self.assertRaises(error):
                decision.rejected_at(wrong)

    def test_what_is_not_reached(self):
        self.assertEqual(welungad.Graph([0.5, 0], {}).test([0.5, 0.5]).rejected_at(1), ("H1",))


class Pictures(unittest.TestCase):
    """Whether a picture is drawn of what the graph decides, and of nothing else."""

    def test_another_decision(self):
        graph, other = pair(), welungad.Graph(["1/3", "2/3"], [[0, 1], [1, 0]], ["A", "B"])
        text = "alpha 1/40\nhypotheses A B\np 1/100 1/50\nweights 1/3 2/3\nedge A B 1\nedge B A 1\n"
        decision = graph.test([0.012, 0.9])
        for wrong in [other.test([0.01, 0.02]), welungad.test(text), dataclasses.replace(decision, rejected=("A", "B")),
                      dataclasses.replace(decision, alpha=Fraction(1, 100)), dataclasses.replace(decision, steps=()),
                      dataclasses.replace(decision, steps=(welungad.Tested("A", Fraction(3, 250), Fraction(1)),))]:
            with self.subTest(wrong), self.assertRaisesRegex(ValueError, "^decision is not a decision of this graph, or it was changed$"):
                graph.draw(wrong)
        for priority in ("first", "last", "ratio"):
            same = graph.test([0.012, 0.001], priority=priority)
            self.assertIn(">2</text>", graph.draw(same).svg)
            # what is not shown may go
            self.assertEqual(graph.draw(dataclasses.replace(same, report="", words=())), graph.draw(same))

    def test_a_replaced_result_keeps_its_texts(self):
        decision = pair().test([0.01, 0.02])
        changed = dataclasses.replace(decision, rejected=("A",))
        self.assertEqual((changed.case, changed.names, changed.report), (decision.case, decision.names, decision.report))


class Results(unittest.TestCase):
    """What results are: they can be hashed, shown as frames and in notebooks, and their truth is that of the whole decision."""

    def test_hashes(self):
        graph = pair()
        decision = graph.test([0.01, 0.02])
        results = [decision, graph.weights(), graph.bounds([0.01, 0.02]), graph.simes([0.01, 0.02]), graph.evidence([0.01, 0.02]), graph.steps([0.01, 0.02])[0],
                   graph.test_many([[0.1, 0.2]]), graph.components[0], graph.check([0.01, 0.02], "evidence 1\nend\n")]
        self.assertEqual(len(set(results)), len(results))
        self.assertEqual(hash(graph.test([0.01, 0.02])), hash(decision))

    def test_the_truth_of_a_check(self):
        graph = pair()
        for p in [[0.01, 0.02], [0.01, 0.9], [0.9, 0.9]]:
            self.assertTrue(graph.check(p, graph.evidence(p)))
            checked = graph.check(p, "evidence 1\nend\n")
            self.assertEqual((checked.holds, checked.is_whole, bool(checked)), (True, False, False))
        step = graph.check([0.01, 0.9], "evidence 1\nstep A\nend\n")
        self.assertEqual((step.holds, bool(step)), (True, False))
        self.assertTrue(graph.check([0.01, 0.02], "evidence 1\nstep A\nstep B\nflow 1 A 1/2\nend\n"))
        wrong = graph.check([0.9, 0.9], "evidence 1\nstep A\nend\n")
        self.assertFalse(wrong)
        self.assertEqual(welungad.explain(wrong.reason), "The p-value is above the weight that the flows prove, times alpha.")

    def test_evidence_made_by_hand(self):
        graph, other = pair(), pair(("B", "A"))
        evidence = graph.evidence([0.01, 0.9])
        self.assertTrue(graph.check([0.01, 0.9], dataclasses.replace(evidence)))
        for changed in [dataclasses.replace(evidence, names=()), dataclasses.replace(evidence, text="evidence 1\nend\n")]:
            with self.assertRaisesRegex(ValueError, "^proof is evidence that was made or changed by hand: give the text of the document$"):
                graph.check([0.01, 0.9], changed)
        with self.assertRaisesRegex(ValueError, "^proof is evidence about other hypotheses"):
            other.check([0.01, 0.9], dataclasses.replace(pair(("α", "β")).evidence([0.01, 0.9])))

    def test_sets_that_are_none(self):
        graph = pair()
        for result in [graph.weights(), graph.bounds([0.1, 0.1]), graph.simes([0.1, 0.1])]:
            for names, message in [(("A", "C"), "^of: 'C' is not the name of a hypothesis: they are 'A', 'B'$"),
                                   ((["A", "B"],), "^of: \\['A', 'B'\\] is not the name of a hypothesis"), ((), "^of: the set has no hypothesis")]:
                with self.subTest(names), self.assertRaisesRegex(ValueError, message):
                    result.of(*names)

    def test_notebooks(self):
        graph = pair(("<low>", "high"))
        decision = graph.test([0.01, 0.9])
        shown = decision._repr_html_()
        self.assertIn("the test rejects <strong>&lt;low&gt;</strong>", shown)
        self.assertIn("<td>1/100 ", shown)
        self.assertIn("<td>above 1</td>", welungad.Graph([0.5, 0], {}).test([0.5, 0.5])._repr_html_())
        self.assertEqual(graph._repr_html_(), graph.draw().svg)
        page = graph.report(decision)
        self.assertTrue(page._repr_html_().startswith("<iframe srcdoc=\"&lt;!DOCTYPE html&gt;"))

    @unittest.skipUnless(pandas, "pandas is missing")
    def test_frames(self):
        graph = pair()
        frame = graph.test([0.01, 0.9]).to_frame()
        self.assertEqual(frame.to_dict("list"), {
            "hypothesis": ["A", "B"], "rejected": [True, False], "step": [1, 0], "p": [Fraction(1, 100), Fraction(9, 10)], "weight": [HALF, Fraction(1)],
            "level": [Fraction(1, 80), Fraction(1, 40)], "adjusted": [Fraction(1, 50), Fraction(9, 10)], "reached": [True, True]})
        self.assertEqual((str(frame.dtypes["rejected"]), str(frame.dtypes["step"]), str(frame.dtypes["p"])), ("bool", "int64", "object"))
        self.assertEqual(graph.weights().to_frame().to_dict("list"), {"A": [HALF, None, Fraction(1)], "B": [HALF, Fraction(1), None]})
        self.assertEqual(graph.bounds([0.01, 0.9]).to_frame().to_dict("list"), {"A": [True, False, True], "B": [True, True, False], "bound": [1, 0, 1]})
        self.assertEqual(list(graph.simes([0.01, 0.9]).to_frame()["bound"]), [1, 0, 1])
        stages = graph.stages([[0.01, 0.015]] * 2, [("A", 1, 0.001), ("B", 1, 0.9)], at=1).to_frame()
        self.assertEqual(list(stages["rejected"]), ["A", None])
        self.assertEqual(list(stages["p"]), [Fraction(1, 1000), Fraction(9, 10)])
        self.assertEqual(graph.test_many([[0.001, 0.9], [0.9, 0.9]]).to_frame().to_dict("list"), {"A": [True, False], "B": [False, False]})


class Labels(unittest.TestCase):
    """Whether labels that look alike are refused, and a message shows what two equal texts do not."""

    def test_alike(self):
        for labels in [("H1", "H1 "), ("low dose", "low  dose"), ("low dose", "low\u00a0dose"), ("\u00dc", "U\u0308"), ("", " "), ("a\tb", "a b")]:
            with self.subTest(labels), self.assertRaisesRegex(ValueError, "^names: the labels .* look alike: at character "):
                pair(labels)
        self.assertEqual(pair(("H1", "H 1")).names, ("H1", "H 1"))

    def test_the_character_that_differs(self):
        for label, other, said in [("dose \u00fc", "dose u\u0308", "at character 6 the one has U[+]0075 LATIN SMALL LETTER U, and the other U[+]00FC LATIN SMALL LETTER U WITH"),
                                   ("low dose", "low\u00a0dose", "the one has U[+]00A0 NO-BREAK SPACE, and the other U[+]0020 SPACE"),
                                   ("H1", "H1 ", "the one has U[+]0020 SPACE, and the other its end")]:
            graph = pair((label, "B"))
            with self.subTest(other), self.assertRaisesRegex(ValueError, f"^p: .* is not the name of a hypothesis: .*; of .*{said}"):
                graph.test({other: 0.1, "B": 0.2})
            with self.subTest(other), self.assertRaisesRegex(ValueError, f"^look 1: .* is not the name of a hypothesis: .*; of .*{said}"):
                graph.stages([[0.01], [0.01]], [(other, 1, 0.1)], at=1)


class Ties(unittest.TestCase):
    """Whether a p-value just above its level is named, in each class and in each call, and one that is 0."""

    above = math.nextafter(0.0125, 1)

    def test_in_an_array_without_dimensions(self):
        values = [self.above] + ([numpy.float64(self.above), numpy.array(self.above)] if numpy else [])
        for value in values:
            with self.subTest(type(value)), self.assertWarnsRegex(welungad.BesideWarning, "^the p-value of 'A' is 0.0125[0-9]+, one unit in the last place above 1/80"):
                self.assertEqual(pair().test([value, 0.9]).rejected, ())

    def test_many_rows(self):
        with self.assertWarnsRegex(welungad.BesideWarning, "^row 2: the p-value of 'A' is 0.0125[0-9]+, one unit .* above 1/80, which is its level: if the fraction was "
                                                           "meant, it is rejected, and 1 more such p-values$"):
            pair().test_many([[0.5, 0.5], [self.above, 0.9], [0.9, self.above]])

    def test_zeros(self):
        with self.assertWarnsRegex(welungad.ZeroWarning, "^the p-value of 'B' is 0, as one below all doubles is: it rejects at every level above 0$"):
            pair().test([0.5, 0.0])


class Errors(unittest.TestCase):
    """Whether an error names the argument, the place, and a way that works."""

    def test_levels_that_are_too_fine(self):
        for alpha, said in [(1 - 0.975, "^alpha, which is beside 1/40: was 1/40 meant[?]: "), (0.02281, "compare the adjusted p-values")]:
            with self.subTest(alpha), self.assertRaisesRegex(welungad.Refused, said):
                pair().test([0.1, 0.1], alpha=alpha)

    def test_long_numbers(self):
        with self.assertRaises(welungad.Refused) as caught:
            pair().test([0.5, Decimal(0.1)])
        self.assertEqual((caught.exception.where, caught.exception.line), ("p of 'B'", "limit: line 3: digits"))
        with self.assertRaises(welungad.Refused) as caught:
            welungad.Graph([Decimal(0.1), HALF], {})
        self.assertEqual(caught.exception.where, "weights of 'H1'")

    def test_conditions_of_evidence(self):
        for line in ["no: step 1: above level", "no: keep H2: legal", "no: step 2: component 1 flow of H1 exceeds"]:
            self.assertTrue(welungad.explain(line), line)


if __name__ == "__main__":
    unittest.main()
