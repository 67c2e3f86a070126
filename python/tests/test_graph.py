"""Tests of graphs: what they take, what they return with the user's labels, and how they refuse. Values by hand."""
import collections
import functools
import math
import os
import pickle
import re
import subprocess
import sys
import tempfile
import unittest
import warnings
import xml.etree.ElementTree
from decimal import Decimal
from fractions import Fraction

import places
import welungad
from welungad import _places
from welungad._calls import update

try:
    import numpy
except ImportError:
    numpy = None
try:
    import pandas
except ImportError:
    pandas = None

HALF, THIRD = Fraction(1, 2), Fraction(1, 3)
HOLM = [[0, HALF, HALF], [HALF, 0, HALF], [HALF, HALF, 0]]
DOSES = ("dose ü", "low dose", "H2")


def has_update():
    """Whether the library has the call that updates a graph."""
    return update("alpha 1\nhypotheses A\nweights 1\n", []) is not None


def holm(names=None):
    return welungad.Graph([1 / 3, 1 / 3, 1 / 3], HOLM, names)


def pair(first=HALF):
    """Returns a graph of A and B that pass all their weight to each other."""
    return welungad.Graph({"A": first, "B": 1 - first}, [[0, 1], [1, 0]])


class Given(unittest.TestCase):
    """Whether every class of input gives the graph that was meant."""

    def test_edges(self):
        wanted = {("A", "B"): Fraction(1), ("B", "A"): HALF}
        weights = {"A": "1/2", "B": 0.5}
        for edges in [[[0, 1], [0.5, 0]], ((0, "1"), ("1/2", 0.0)), {"A": {"B": 1}, "B": {"A": HALF}}, {"B": {"A": 0.5}, "A": [0, 1]},
                      {("A", "B"): 1, ("B", "A"): Decimal("0.5")}, [{"B": 1}, {"A": 0.5}], [{"B": 1, "A": 0}, (0.5, 0)],
                      {"B": {"A": 0.5, "B": "0"}, "A": {"B": "1.0"}}]:
            with self.subTest(edges):
                (component,) = welungad.Graph(weights, edges).components
                self.assertEqual((component.edges, component.share), (wanted, 1))
                self.assertEqual(component.weights, {"A": HALF, "B": HALF})

    def test_named_tuples(self):
        graph, row = pair(), collections.namedtuple("Row", "B A")
        self.assertEqual(welungad.Graph(row(1, 0), {}).components[0].weights, {"B": 1, "A": 0})
        self.assertEqual(graph.test(row(B=0.9, A=0.001)).rejected, ("A",))
        self.assertEqual(graph.test_many([row(0.9, 0.001), row(0.001, 0.9)]).rejected, ((True, False), (False, True)))
        self.assertEqual(graph.stages(row([0.01], [0.02]), alpha=0.05, at=1).case, graph.stages({"A": [0.02], "B": [0.01]}, alpha=0.05, at=1).case)
        (component,) = welungad.Graph([0.5, 0.5], [row(1, 0), row(0, 0.5)], ["A", "B"]).components
        self.assertEqual(component.edges, {("A", "B"): Fraction(1), ("B", "A"): HALF})

    def test_no_edges(self):
        for edges in [{}, [[0, 0], [0, 0]]]:
            self.assertEqual(welungad.Graph([0.5, 0.5], edges).components[0].edges, {})

    def test_names(self):
        self.assertEqual(holm().names, ("H1", "H2", "H3"))
        self.assertEqual(holm(DOSES).names, DOSES)
        self.assertEqual(holm(list(DOSES)).program_names, {"dose ü": "dose", "low dose": "low_dose", "H2": "H2"})
        graph = welungad.Graph({"B": 0.25, "A": 0.75}, {"A": {"B": 1}}, names=["A", "B"])
        self.assertEqual((graph.names, graph.components[0].weights), (("A", "B"), {"A": Fraction(3, 4), "B": Fraction(1, 4)}))
        self.assertEqual((len(graph), repr(graph)), (2, "<Graph of 'A', 'B'>"))

    def test_epsilon(self):
        (component,) = welungad.Graph([1, 0, 0], [[0, "1-\\epsilon", "\\epsilon"], [0, 0, "1/2*\\epsilon^2"], [0, 0, 0]]).components
        one = (Fraction(1),)
        self.assertEqual(component.edges, {("H1", "H2"): welungad.Quotient((Fraction(1), Fraction(-1)), one),
                                           ("H1", "H3"): welungad.Quotient((Fraction(0), Fraction(1)), one),
                                           ("H2", "H3"): welungad.Quotient((Fraction(0), Fraction(0), HALF), one)})

    def test_wrong_types(self):
        graph = pair()
        for call, message in [
            (lambda: welungad.Graph(5, []), "^weights is a list"), (lambda: welungad.Graph([0.5, True], {}), "^the weight of 'H2' is a number"),
            (lambda: welungad.Graph({1: 0.5}, {}), "^weights: label 1 is a text"), (lambda: welungad.Graph([1], 5), "^edges is a list of rows"),
            (lambda: welungad.Graph([1], [5]), "^the edges from 'H1' is a list"), (lambda: welungad.Graph([1], {"H1": 5}), "the edges from 'H1'"),
            (lambda: welungad.Graph("1", {}), "^weights is a list"), (lambda: welungad.Graph([1], {}, names="A"), "^names is a list"),
            (lambda: welungad.Graph([1], {}, names={"A": "B"}), "^names is a list"),
            (lambda: welungad.Graph([1], {}, names=[5]), "^names: label 1 is a text"), (lambda: welungad.Graph({0.5}, {}), "^weights is a list"),
            (lambda: welungad.Graph([1], {("H1",): 1}), "^edges: .*is not a pair"), (lambda: graph.test(5), "^p is a list"),
            (lambda: graph.test("0.01 0.9"), "^p is a list"), (lambda: graph.test([0.1, None]), "^the p-value of 'B' is a number"),
            (lambda: graph.test([0.1, [0.1]]), "^the p-value of 'B' is a number"), (lambda: graph.test([0.1, 0.1], alpha=None), "^alpha is a number"),
            (lambda: graph.test([0.1, 0.1], alpha=[0.1]), "^alpha is a number"), (lambda: graph.test(x for x in [0.1, 0.1]), "^p is a list"),
            (lambda: graph.check([0.1, 0.1], 5), "^proof is a text"), (lambda: graph.draw(5), "^decision is a decision"),
            (lambda: graph.test_many(5), "^rows is a list"), (lambda: graph.test_many([0.1, 0.2]), "^row 1 is a list"),
            (lambda: graph.test_many([[0.1, 0.2], [True, 0.1]]), "^row 2: the p-value of 'A' is a number"),
            (lambda: welungad.Graph.entangled([graph, 5], [0.5, 0.5]), "^graphs is a list of graphs"),
            (lambda: welungad.Graph.entangled(graph, [1]), "^graphs is a list of graphs"),
            (lambda: welungad.Graph.entangled([graph], {"A": 1}), "^shares is a list in the order"),
            (lambda: graph.test([0.1, 0.1], priority=5), "^priority is a text"),
            (lambda: welungad.Graph.entangled([graph], 5), "^shares is a list"),
        ]:
            with self.subTest(message), self.assertRaisesRegex(TypeError, message):
                call()

    def test_what_cannot_be_matched(self):
        graph = pair()
        for call, message in [
            (lambda: welungad.Graph([0.5, 0.5], {}, names=["low dose", "low dose"]), "^names: the label 'low dose' occurs 2 times"),
            (lambda: welungad.Graph({"A": 1, "B": 0}, {}, names=["A", "C"]), "^weights: 'B' is not the name"),
            (lambda: welungad.Graph([1, 0], {}, names=["A"]), "^weights has 2 values, and there are 1 hyp"),
            (lambda: welungad.Graph([1, 0], [[0, 1]]), "^edges has 1 rows, and there are 2 hyp"),
            (lambda: welungad.Graph([1, 0], [[0, 1], [0]]), "^the edges from 'H2' has 1 values"),
            (lambda: welungad.Graph([1, 0], {"H1": {"H3": 1}}), "^the edges from 'H1': 'H3' is not the name"),
            (lambda: welungad.Graph([1, 0], {"H3": {"H1": 1}}), "^edges: 'H3' is not the name"),
            (lambda: welungad.Graph([1, 0], {("H1", "H3"): 1}), "^the edges from 'H1': 'H3' is not the name"),
            (lambda: welungad.Graph([0.5, float("nan")], {}), "^the weight of 'H2' is nan"),
            (lambda: welungad.Graph([0.5, 0.5], [[0, "1\nedge H2 H1 1"], [0, 0]]), "^the edge from 'H1' to 'H2' is '1"),
            (lambda: graph.test({"A": 0.1}), "^p: the hypothesis 'B' is missing"), (lambda: graph.test([0.1]), "^p has 1 values"),
            (lambda: graph.test({"A": 0.1, "B": 0.1, "C": 0.1}), "^p: 'C' is not the name of a hyp"),
            (lambda: graph.test(["0.01 0.9", ""]), "^the p-value of 'A' is '0.01 0.9', which is not a numeral"),
            (lambda: graph.test([0.1, 1.1]), "^the p-value of 'B' is 1.1, and not from 0 to 1"),
            (lambda: graph.test([0.1, -1e-9]), "^the p-value of 'B' is -1e-09"), (lambda: graph.test([0.1, 0.1], priority="none"), "^priority is one of"),
            (lambda: graph.test_many([[0.1, 0.2], [0.1]]), "^row 2 has 1 values"),
            (lambda: graph.draw(holm().test([1, 1, 1])), "^the decision is of other hypotheses"),
            (lambda: graph.draw(pair(THIRD).test([1, 1])), "^decision is not a decision of this graph, or it was changed$"),
            (lambda: welungad.Graph.entangled([graph, holm()], [0.5, 0.5]), "^graph 2 has other hypotheses"),
            (lambda: welungad.Graph.entangled([graph, graph], [0.5]), "^shares has 1 values"),
            (lambda: welungad.Graph.entangled([graph, welungad.Graph({"B": 1, "A": 0}, {})], [0.5, 0.5]), "^graph 2 has .*, or another order of them$"),
        ]:
            with self.subTest(message), self.assertRaisesRegex(ValueError, message):
                call()

    @unittest.skipUnless(numpy, "numpy is missing")
    def test_numpy(self):
        graph = welungad.Graph(numpy.ones(3) / 3, (1 - numpy.eye(3)) / 2)
        self.assertEqual(graph.components, holm().components)
        self.assertEqual(graph.test(numpy.array([0.01, 0.005, 0.02])).rejected, ("H1", "H2", "H3"))
        self.assertEqual(graph.test_many(numpy.array([[0.01, 0.005, 0.02], [0.9, 0.9, 0.9]])).counts(), {"H1": 1, "H2": 1, "H3": 1})
        with self.assertRaisesRegex(TypeError, "^weights is of type float32"):
            welungad.Graph(numpy.ones(3, dtype="float32") / 3, {})
        with self.assertRaisesRegex(TypeError, "^edges is a matrix"):
            welungad.Graph([1], numpy.zeros(1))

    @unittest.skipUnless(pandas, "pandas is missing")
    def test_pandas(self):
        weights = pandas.Series([1.0, 0.0], index=["B", "A"])
        frame = pandas.DataFrame({"A": [1, 0.0], "B": [0, "1/3"]}, index=["B", "A"])
        graph = welungad.Graph(weights, frame, names=["A", "B"])
        self.assertEqual(graph.components[0].weights, {"A": 0, "B": 1})
        self.assertEqual(graph.components[0].edges, {("B", "A"): 1, ("A", "B"): THIRD})
        self.assertEqual(welungad.Graph([0, 1], frame).names, ("B", "A"))
        self.assertEqual(welungad.Graph([1, 0], pandas.DataFrame([[0, 1], [1, 0]])).components[0].edges, {("H1", "H2"): 1, ("H2", "H1"): 1})
        self.assertEqual(graph.test(pandas.Series({"B": 0.01, "A": 0.02})).rejected, ("A", "B"))
        rows = pandas.DataFrame({"B": [0.9, 0.001], "A": [0.001, 0.9]})
        self.assertEqual(graph.test_many(rows).rejected, ((False, False), (False, True)))
        self.assertEqual(graph.test_many(pandas.DataFrame([[0.001, 0.001]], index=["trial"])).rejected, ((True, True),))
        self.assertEqual(welungad.Graph([1, 0], {}, names=pandas.Series(["A", "B"])).names, ("A", "B"))
        with self.assertRaisesRegex(TypeError, "^names is a list of labels in the order of the hypotheses, and has no labels itself$"):
            welungad.Graph([1, 0], {}, names=pandas.Series({"H2": "A", "H1": "B"}))
        self.assertEqual(graph.test_many(list(rows.itertuples(index=False))).rejected, ((False, False), (False, True)))
        with self.assertRaisesRegex(ValueError, "^rows: its rows have the labels of hypotheses"):
            graph.test_many(pandas.DataFrame([[0.9, 0.001], [0.001, 0.9]], index=["A", "B"]))
        for given, message in [(pandas.DataFrame({"A": [0, 1], "B": [1, 0]}), "the columns have labels, and the others have none"),
                               (frame.rename(columns={"A": "C"}), "'C' is not the name"),
                               (frame.rename(index={"A": "B"}), "occurs 2 times")]:
            with self.subTest(message), self.assertRaisesRegex(ValueError, message):
                welungad.Graph(weights, given, names=["A", "B"])


class Answers(unittest.TestCase):
    """What the methods return, by hand, with the user's labels."""

    def test_decision(self):
        graph = holm(DOSES)
        decision = graph.test({"H2": 0.02, "dose ü": 0.01, "low dose": 0.005})
        self.assertEqual(decision.alpha, Fraction(1, 40))
        self.assertEqual(decision.steps, (welungad.Tested("low dose", Fraction(1, 200), THIRD),
                                          welungad.Tested("dose ü", Fraction(1, 100), HALF),
                                          welungad.Tested("H2", Fraction(1, 50), Fraction(1))))
        self.assertEqual((decision.kept, decision.rejected), ((), DOSES))
        self.assertEqual({name: it.p for name, it in decision.adjusted.items()},
                         {"dose ü": Fraction(1, 50), "low dose": Fraction(3, 200), "H2": Fraction(1, 50)})
        self.assertIn("hypotheses dose low_dose H2\np 1/100 1/200 1/50\n", decision.case)
        self.assertEqual((0, decision.report.encode()), welungad.run(["test"], decision.case))
        self.assertEqual((decision.names, welungad.test(decision.case).names), (DOSES, ("dose", "low_dose", "H2")))
        self.assertEqual(pickle.loads(pickle.dumps(decision)), decision)

    def test_an_adjusted_p_value_that_is_not_reached(self):
        adjusted = welungad.Graph([1, 0], {}).test([0.01, 0.01]).adjusted
        self.assertEqual([(it.p, it.reached) for it in adjusted.values()], [(Fraction(1, 100), True), (1, False)])

    def test_labels_do_not_mix(self):
        for p, rejected in [([0.001, 0.9], ("a b",)), ([0.9, 0.001], ("a_b",)), ({"a_b": 0.001, "a b": 0.9}, ("a_b",))]:
            self.assertEqual(welungad.Graph([0.5, 0.5], {}, names=["a b", "a_b"]).test(p).rejected, rejected)

    def test_a_tie_that_a_double_decides(self):
        graph = pair()
        level = Fraction(3, 10) / 2
        with self.assertWarnsRegex(welungad.BesideWarning, "^the p-value of 'A' is 0.15000000000000002, one unit in the last place above 3/20, "
                                                           "which is its level: if 3/20 was meant, it is rejected$"):
            self.assertEqual(graph.test([0.1 + 0.05, 0.9], alpha="0.3").rejected, ())
        with warnings.catch_warnings():
            warnings.simplefilter("error")
            self.assertEqual(graph.test([level, 0.9], alpha="0.3").rejected, ("A",))
            self.assertEqual(graph.test(["0.15000000000000002", 0.9], alpha="0.3").rejected, ())
            self.assertEqual(graph.test([0.1500001, 0.9], alpha="0.3").rejected, ())

    def test_priority(self):
        graph = holm()
        order = [tuple(it.name for it in graph.test([0.001, 0.002, 0.0005], priority=it).steps) for it in ("first", "last", "ratio")]
        self.assertEqual(order, [("H1", "H2", "H3"), ("H3", "H2", "H1"), ("H3", "H1", "H2")])

    def test_weights(self):
        weights = welungad.Graph({"A": HALF, "B": "1/4"}, {"A": {"B": "1/2"}}).weights()
        self.assertEqual((weights.of("A", "B"), weights.of("B")), ({"A": HALF, "B": Fraction(1, 4)}, {"B": HALF}))

    def test_bounds_and_simes(self):
        graph = welungad.Graph([0.5, 0.5], {}, names=["a b", "B"])
        bounds, simes = graph.bounds([0.02, 0.9], alpha=0.05), graph.simes([0.02, 0.9], alpha=0.05)
        self.assertEqual((bounds.of("a b", "B"), bounds.of("a b"), bounds.of("B")), (1, 1, 0))
        self.assertEqual((simes.of("B", "a b"), simes.top, simes.rejected), (1, (1, 1), ("a b",)))

    def test_evidence(self):
        graph = welungad.Graph([0.5, 0.5, 0], {("a b", "B"): 1, ("B", "C"): 1}, names=["a b", "B", "C"])
        p = [0.01, 0.03, 0.9]
        evidence = graph.evidence(p, alpha=0.05)
        self.assertEqual(([it.name for it in evidence.steps], [it.name for it in evidence.keeps]), (["a b", "B"], ["C"]))
        self.assertEqual(evidence.steps[1].flows, (welungad.Flow(1, "a b", HALF),))
        for proof in [evidence, evidence.text, evidence.text.encode()]:
            checked = graph.check(p, proof, alpha=0.05)
            self.assertTrue(checked)
            self.assertEqual((checked.listed, checked.kept), (("a b", "B"), ("C",)))
        self.assertEqual(graph.check([0.9, 0.9, 0.9], evidence, alpha=0.05).reason, "no: step 1: above level")
        self.assertFalse(graph.check([0.9, 0.9, 0.9], evidence))

    def test_evidence_of_a_graph_with_other_labels(self):
        # the program's names are H1 and H2 in both graphs
        p = [0.001, 0.9]
        first, second = (welungad.Graph([0.5, 0.5], {}, names) for names in [("α", "β"), ("β", "α")])
        evidence = first.evidence(p)
        self.assertEqual(first.check(p, evidence).listed, ("α",))
        with self.assertRaisesRegex(ValueError, "^proof is evidence about other hypotheses: 'α', 'β'$"):
            second.check(p, evidence)
        for document in [evidence.text, welungad.evidence(evidence.case)]:
            self.assertEqual(second.check(p, document).listed, ("β",))
        with self.assertRaisesRegex(ValueError, "^proof is evidence about other hypotheses: 'H1', 'H2'$"):
            second.check(p, welungad.Graph([0.5, 0.5], {}).evidence(p))
        with self.assertRaisesRegex(ValueError, "^proof is evidence about other hypotheses: 'H1', 'H2'$"):
            pair().check(p, welungad.evidence(evidence.case))
        self.assertEqual(welungad.Graph({"B": 0.5, "A": 0.5}, {}).check({"A": 0.001, "B": 0.9}, welungad.Graph({"A": 0.5, "B": 0.5}, {}).evidence(p)).listed,
                         ("A",))

    def test_entangled(self):
        first, second = welungad.Graph([1, 0], {}), welungad.Graph([0, 1], {"H2": {"H1": 1}})
        graph = welungad.Graph.entangled([first, second], ["1/4", 0.75])
        self.assertEqual([it.share for it in graph.components], [Fraction(1, 4), Fraction(3, 4)])
        decision = graph.test([0.02, 0.01])
        self.assertEqual([(it.name, it.weight) for it in decision.steps], [("H2", Fraction(3, 4)), ("H1", Fraction(1))])
        with self.assertRaisesRegex(ValueError, "graph 1 is entangled already"):
            welungad.Graph.entangled([graph], [1])

    def test_many(self):
        trials = holm(DOSES).test_many([[0.01, 0.005, 0.02], {"H2": 0.001, "dose ü": 0.9, "low dose": 0.9}, ("1/2", 1, 0.9)])
        self.assertEqual(trials.rejected, ((True, True, True), (False, False, True), (False, False, False)))
        self.assertEqual((trials.statuses, trials.refused), ((0, 0, 0), {}))
        self.assertEqual(trials.counts(), {"dose ü": 1, "low dose": 1, "H2": 2})

    def test_many_with_rows_without_a_decision(self):
        trials = pair().test_many([[0.01, 0.9], [0.5, float("nan")], [2, 0.1], ["1/" + "1" * 31, 0.1], [0.9, 0.01]])
        self.assertEqual(trials.rejected, ((True, False), None, None, None, (False, True)))
        self.assertEqual(trials.statuses, (0, welungad.MALFORMED, welungad.MALFORMED, welungad.LIMIT, 0))
        self.assertEqual(trials.refused[2], "row 2: the p-value of 'B' is nan, and not from 0 to 1")
        self.assertEqual(sorted(trials.refused), [2, 3, 4])
        with self.assertRaisesRegex(ValueError, "^3 rows have no decision; the first is row 2: "):
            trials.counts()

    def test_a_row_that_is_too_wide(self):
        # (10^30 - 11) / 10^30 over this weight has a denominator above 2^127
        trials = welungad.Graph(["1/999999999989", 0.5], [[0, 1], [1, 0]]).test_many([[1, 0.001], ["0." + "9" * 28 + "89", 0.9], [0, 0.9]])
        self.assertEqual((trials.rejected, trials.statuses), (((False, True), None, (True, False)), (0, welungad.TOO_WIDE, 0)))
        self.assertTrue(trials.refused[2].startswith("too wide: adjusted step 1: "))

    def test_many_of_a_case_that_is_refused(self):
        with self.assertRaises(welungad.Refused) as caught:
            pair().test_many([[0.1, 0.1]], alpha=0)
        self.assertEqual(caught.exception.where, "alpha")

    def test_steps(self):
        steps = welungad.Graph([0.5, 0.5, 0], {("a b", "B"): HALF, ("a b", "C"): HALF, ("B", "C"): 1}, names=["a b", "B", "C"]).steps([0.01, 0.01, 0.9])
        self.assertEqual([it.rejected for it in steps], [(), ("a b",), ("a b", "B")])
        self.assertEqual([it.weights for it in steps], [{"a b": HALF, "B": HALF, "C": 0}, {"B": Fraction(3, 4), "C": Fraction(1, 4)}, {"C": 1}])
        self.assertEqual(steps[1].components[0].edges, {("B", "C"): 1})

    def test_steps_at_a_level_and_by_a_priority(self):
        self.assertEqual([it.rejected for it in pair().steps([0.02, 0.04], alpha=0.05)], [(), ("A",), ("A", "B")])
        self.assertEqual([it.rejected for it in pair().steps([0.02, 0.04])], [()])
        self.assertEqual(holm().steps([0.001, 0.002, 0.0005], priority="last")[-1].rejected, ("H3", "H2", "H1"))

    def test_evidence_by_a_priority(self):
        order = [[it.name for it in holm().evidence([0.001, 0.002, 0.0005], priority=it).steps] for it in ("first", "last", "ratio")]
        self.assertEqual(order, [["H1", "H2", "H3"], ["H3", "H2", "H1"], ["H3", "H1", "H2"]])

    def test_steps_with_epsilon(self):
        graph = welungad.Graph([HALF, HALF, 0], [[0, "1-\\epsilon", "\\epsilon"], ["1-\\epsilon", 0, "\\epsilon"], [HALF, HALF, 0]])
        steps = graph.steps([0.001, 0.001, 0.001])
        self.assertEqual(steps[1].components[0].edges[("H2", "H3")], 1)
        whole = welungad.Quotient((Fraction(1), Fraction(-1, 2)), (Fraction(1),))
        self.assertIn(steps[1].components[0].weights["H2"], [whole] if has_update() else [Fraction(1)])
        self.assertEqual(steps[2].weights, {"H3": 1})

    def test_draw(self):
        graph = welungad.Graph([0.5, 0.5, 0], [[0, "1-\\epsilon", "\\epsilon"], [0, 0, 1], [0, 0, 0]], names=["a < b", "B", "a label that is longer than that"])
        for decision in [None, graph.test([0.01, 0.9, 0.9])]:
            picture = graph.draw(decision)
            drawn = xml.etree.ElementTree.fromstring(picture.svg)
            texts = [it.text for it in drawn.iter("{http://www.w3.org/2000/svg}text")]
            self.assertEqual({"a < b", "B", "1−ε", "a label that is longer", "than that"} - set(texts), set())
            self.assertEqual("p 0.01" in texts, decision is not None)
        self.assertEqual(picture._repr_svg_(), picture.svg)
        with tempfile.TemporaryDirectory() as room:
            picture.save(os.path.join(room, "graph.svg"))
            with open(os.path.join(room, "graph.svg"), encoding="utf-8") as file:
                self.assertEqual(file.read(), picture.svg)
            self.assertEqual(os.listdir(room), ["graph.svg"])

    def test_a_picture_that_cannot_be_saved(self):
        """Whether a file has the whole picture, or stays as it was and is alone in its folder."""
        with tempfile.TemporaryDirectory() as room:
            path = os.path.join(room, "graph.svg")
            pair().draw().save(path)
            before = os.stat(path).st_size
            code = ("import resource, signal, sys, welungad\nsignal.signal(signal.SIGXFSZ, signal.SIG_IGN)\n"
                    "picture = welungad.Graph([0.5, 0.5], [[0, 1], [1, 0]]).draw()\nresource.setrlimit(resource.RLIMIT_FSIZE, (1000, 1000))\n"
                    "picture.save(sys.argv[1])")
            package = os.path.dirname(os.path.dirname(welungad.__file__))
            done = subprocess.run([sys.executable, "-c", code, path], env={**os.environ, "PYTHONPATH": package}, cwd="/", stderr=subprocess.PIPE, check=False)
            self.assertIn(f"OSError: {path} can't be written: File too large", done.stderr.decode())
            self.assertEqual((os.listdir(room), os.stat(path).st_size), (["graph.svg"], before))

    def test_draw_a_decision_on_a_text(self):
        self.assertIn("p 0.01<", holm().draw(welungad.test(places.example("holm.txt"))).svg)

    def test_draw_labels_with_any_character(self):
        labels = ["a\x01b", "\udcff", "\0", "\x7f \x85", "\ufffe", "\U0001f4a7", "line\nfeed", "<&>\"'"]
        picture = welungad.Graph([Fraction(1, 8)] * 8, {(labels[0], labels[1]): 1}, labels).draw()
        drawn = xml.etree.ElementTree.fromstring(picture.svg.encode())
        texts = [it.text for it in drawn.iter("{http://www.w3.org/2000/svg}text") if it.get("font-weight") == "bold"]
        self.assertEqual(texts, ["a\ufffdb", "\ufffd", "\ufffd", "\x7f \x85", "\ufffd", "\U0001f4a7", "line\nfeed", "<&>\"'"])

    def test_draw_each_at_its_place(self):
        """Whether each number is in the circle of its hypothesis, and each arrow goes from its hypothesis to the other."""
        graph = welungad.Graph({"A": "1/2", "B": "1/3", "C": "1/7"}, {("A", "B"): "1/4", ("C", "A"): "3/4"})
        drawn = xml.etree.ElementTree.fromstring(graph.draw(graph.test({"A": 0.9, "B": 0.002, "C": 0.001})).svg)
        found = [(it.get("x"), it.get("y"), it.text) for it in drawn.iter("{http://www.w3.org/2000/svg}text")]
        centres = [(float(it.get("cx")), float(it.get("cy")), it.get("fill")) for it in drawn.iter("{http://www.w3.org/2000/svg}circle")
                   if it.get("r") == "40"]

        def nearest(x, y):
            return min(range(3), key=lambda n: math.hypot(centres[n][0] - float(x), centres[n][1] - float(y)))

        at = {text: nearest(x, y) for x, y, text in found if text in "ABC"}
        self.assertEqual([centres[at[label]][2] for label in "ABC"], ["#fff", "#cfe3cf", "#cfe3cf"])
        for text, label in [("1/2", "A"), ("1/3", "B"), ("1/7", "C"), ("p 0.9", "A"), ("p 0.002", "B"), ("p 0.001", "C"), ("1", "B"), ("2", "C")]:
            self.assertEqual([nearest(x, y) for x, y, it in found if it == text], [at[label]], text)
        paths = [re.findall("[-0-9.]+,[-0-9.]+", it.get("d")) for it in drawn.iter("{http://www.w3.org/2000/svg}path") if it.get("marker-end")]
        ends = [(nearest(*points[0].split(",")), nearest(*points[-1].split(","))) for points in paths]
        self.assertEqual(ends, [(at["A"], at["B"]), (at["C"], at["A"])])

    def test_draw_legends(self):
        """Whether the components are named with their shares, and each edge has its text."""
        entangled = welungad.Graph.entangled([welungad.Graph([1, 0], {}), welungad.Graph([0, 1], {"H2": {"H1": 1}})], ["1/4", 0.75])
        full = welungad.Graph([Fraction(1, 9)] * 9, [[Fraction(1, 8) if i != j else 0 for j in range(9)] for i in range(9)])
        for graph, wanted, edges in [(entangled, {"component 1: share 1/4", "component 2: share 3/4"}, 1), (pair(), set(), 2), (full, set(), 72)]:
            drawn = xml.etree.ElementTree.fromstring(graph.draw().svg)
            texts = [it.text for it in drawn.iter("{http://www.w3.org/2000/svg}text")]
            self.assertEqual({it for it in texts if ": " in it}, wanted)
            self.assertEqual(len([it for it in texts if it in ("1", "1/8")]) - (graph is entangled) * 2, edges)

    def test_draw_each_size(self):
        for size in [1, 2, 3, 8, 16, 40]:
            graph = welungad.Graph([Fraction(1, size)] * size, {(f"H{i}", f"H{i + 1}"): 1 for i in range(1, size)})
            xml.etree.ElementTree.fromstring(graph.draw().svg)

    def test_each_example(self):
        for name in ("holm.txt", "fallback.txt", "gatekeeping.txt", "improved-gatekeeping.txt", "entangled.txt", "truncated-holm.txt"):
            with self.subTest(name):
                case = places.example(name)
                wanted = welungad.test(case)
                canonical = welungad.canon(case).split("\n")
                self.assertEqual(graph_of(canonical).test([it for it in canonical[2].split(" ")[1:]], wanted.alpha).report, wanted.report)


def graph_of(lines):
    """Returns the graph of a canonical text."""
    names = lines[1].split(" ")[1:]
    graphs, shares = [], []
    for line in lines:
        word, *words = line.split(" ")
        if word == "component":
            shares.append(words[0])
        elif word == "weights":
            graphs.append((words, {}))
        elif word == "edge":
            graphs[-1][1][words[0], words[1]] = words[2]
    made = [welungad.Graph(weights, edges, names) for weights, edges in graphs]
    return welungad.Graph.entangled(made, shares) if shares else made[0]


class Refusals(unittest.TestCase):
    """Whether what the proved call refuses is named as the user knows it."""

    def test_the_table_of_places(self):
        """Whether the places of lines are those of the table, in which R has its own beside them."""
        labels, count = {"low_dose": "low dose", "B": "B"}, 0
        for line, _, place in places.table("places_of_refusals.txt"):
            with self.subTest(line):
                self.assertEqual(_places.place_of(line, [], labels), place)
            count += 1
        self.assertGreater(count, 15)

    def test_places(self):
        graph = pair()
        one = functools.partial(welungad.Graph, names=["a b", "B"])
        for call, where, line in [
            (lambda: one([0.1 + 0.2, 0.7], {}), "weights, which sum to 1.00000000000000004 (3/10 + 7/10 by as_exact with a total of 1)", "malformed: case: weight sum component 1"),
            (lambda: one(["0.30000000000000004", 0.7], {}), "weights, which sum to 1.00000000000000004", "malformed: case: weight sum component 1"),
            (lambda: one([-1, 1], {}), "the weight of 'a b'", "malformed: case: weight of a_b component 1"),
            (lambda: one([1, 0], [[1, 0], [0, 0]]), "the edge from 'a b' to 'a b'", "malformed: case: self edge of a_b component 1"),
            (lambda: one([1, 0], [[0, 2], [0, 0]]), "the edge from 'a b' to 'B'", "malformed: case: edge a_b B component 1"),
            (lambda: one([1, 0], [[0, "1+"], [0, 0]]), "the edge from 'a b' to 'B'", "malformed: line 4: expression"),
            (lambda: one([1, 0], [[0, "\\epsilon^5"], [0, 0]]), "the edge from 'a b' to 'B'", "limit: line 4: degree"),
            (lambda: one([1, Fraction(1, 10**19)], {}), "the weight of 'B'", "limit: case: part weight of B component 1"),
            (lambda: one([1, Fraction(1, 10**39)], {}), "weights of 'B'", "limit: line 3: digits"),
            (lambda: graph.test([0.1, 2]), "the p-value of 'B'", "malformed: case: p of B"),
            (lambda: graph.test([0.1, Fraction(1, 10**31)]), "the p-value of 'B'", "limit: case: part p of B"),
            (lambda: graph.test([0.1, 0.1], alpha=0.00001), "alpha", "limit: case: part alpha"),
            (lambda: graph.test([0.1, 0.1], alpha=0), "alpha", "malformed: case: alpha"),
            (lambda: welungad.Graph.entangled([graph, graph], [1, 0.5]), "shares, which sum to 1.5", "malformed: case: share sum"),
            (lambda: welungad.Graph.entangled([graph, graph], [0.5, -1]), "share 2", "malformed: case: share component 2"),
            (lambda: welungad.Graph.entangled([graph] * 9, ["1/9"] * 9), "graphs", "limit: components 9"),
            (lambda: welungad.Graph([0] * 65, {}), "weights", "limit: hypotheses 65"), (lambda: welungad.Graph([], []), "", None),
        ]:
            with self.subTest(line), self.assertRaises(welungad.Refused) as caught:
                call()
            if line:
                self.assertEqual((caught.exception.where, caught.exception.line), (where, line))
                self.assertTrue(str(caught.exception).startswith(f"{where}: "))
                self.assertTrue(str(caught.exception).endswith(f" ({line})"))

    def test_sums(self):
        for weights, row, where in [([1, 0, 0], [0.7, 0, 0.4], "the edges from 'H2', which sum to 1.1"),
                                    ([1, 0, 0], [1, 0, "\\epsilon"], "the edges from 'H2'"), (["2/3", "2/3", 0], [0, 0, 0], "weights, which sum to 4/3")]:
            with self.subTest(where), self.assertRaises(welungad.Refused) as caught:
                welungad.Graph(weights, [[0, 0, 0], row, [0, 0, 0]])
            self.assertEqual(caught.exception.where, where)

    def test_pickle(self):
        with self.assertRaises(welungad.Refused) as caught:
            pair().test([0.1, 2])
        again = pickle.loads(pickle.dumps(caught.exception))
        self.assertEqual(str(again), str(caught.exception))


if __name__ == "__main__":
    unittest.main()
