"""Tests of staged trials: levels and looks of every class, and what is refused. Values by hand."""
import array
import datetime
import unittest
from fractions import Fraction

import places
import welungad

try:
    import numpy
except ImportError:
    numpy = None
try:
    import pandas
except ImportError:
    pandas = None

HALF = Fraction(1, 2)
LEVELS = {"overall survival": [0.01, 0.04], "PFS": [0.02, 0.03]}
LOOKS = [("PFS", 1, 0.009), ("overall survival", 1, 0.03), ("overall survival", 2, 0.019), ("PFS", 2, 0.9)]


def trial():
    return welungad.Graph({"PFS": 0.5, "overall survival": 0.5}, [[0, 1], [1, 0]])


class Stages(unittest.TestCase):
    """Whether levels are spent, and looks arrive, as was meant."""

    def test_levels_and_looks(self):
        # Of alpha 0.05 each has 0.025 at first. PFS spends 2/5 and 3/5 of its level, and overall survival 1/5 and 4/5.
        found = trial().stages(LEVELS, LOOKS, alpha=0.05, at=1)
        self.assertEqual(found.alpha, Fraction(1, 20))
        self.assertIn("spend PFS 2/5 3/5\nspend overall_survival 1/5 4/5\n", found.case)
        self.assertEqual([(it.name, it.stage, it.p) for it in found.arrivals],
                         [("PFS", 1, Fraction(9, 1000)), ("overall survival", 1, Fraction(3, 100)), ("overall survival", 2, Fraction(19, 1000)),
                          ("PFS", 2, Fraction(9, 10))])
        self.assertEqual(found.arrivals[0].rejections, (welungad.Settled("PFS", 1, HALF),))
        self.assertEqual(found.arrivals[2].rejections, (welungad.Settled("overall survival", 2, Fraction(1)),))
        self.assertEqual(found.rejected, ("PFS", "overall survival"))

    def test_the_weight_at_which_levels_count(self):
        half = trial().stages({"PFS": [0.01, 0.015], "overall survival": [0.005, 0.02]}, LOOKS, alpha=0.05, at=HALF)
        self.assertEqual(half.case, trial().stages(LEVELS, LOOKS, alpha=0.05, at=1).case)
        own = {"PFS": [0.01, 0.015], "overall survival": [0.01, 0.04]}
        for at in [{"overall survival": 1, "PFS": 0.5}, [0.5, 1], ("1/2", 1), array.array("d", [0.5, 1])]:
            self.assertEqual(trial().stages(own, LOOKS, alpha=0.05, at=at).case, half.case)
        for at, error, message in [([0.5], ValueError, "^at has 1 values, and there are 2 hypotheses$"), ({"PFS": 1}, ValueError, "^at: the hypothesis "),
                                   (0, ValueError, "^at of 'PFS' is 0, and not above 0 and at most 1$"), (None, ValueError, "^at is missing, the weight at which the levels count: 'PFS' begins with the weight 1/2$"),
                                   ([1, "1/0"], ValueError, "^at of 'overall survival' is 1/0, which has no value within reach$"),
                                   ([1, "5/4"], ValueError, "^at of 'overall survival' is 5/4, and not above 0 and at most 1$"), ("-1/2", ValueError, "^at of 'PFS' is -1/2,")]:
            with self.subTest(at), self.assertRaisesRegex(error, message):
                trial().stages(own, LOOKS, alpha=0.05, at=at)

    def test_tables(self):
        found = trial().stages({"PFS": {0.5: [0.01, 0.015], 1: [0.02, 0.03]}, "overall survival": [0.01, 0.04]}, LOOKS, alpha=0.05, at=1)
        self.assertIn("table PFS 1/2 1/100 3/200\ntable PFS 1 1/50 3/100\nspend overall_survival", found.case)
        self.assertEqual(found.rejected, ("PFS", "overall survival"))

    def test_lists(self):
        wanted = trial().stages(LEVELS, LOOKS, alpha=0.05, at=1).case
        for levels in [[[0.02, 0.03], [0.01, 0.04]], ((0.02, "0.03"), ["1/100", Fraction(1, 25)])]:
            self.assertEqual(trial().stages(levels, tuple(map(list, LOOKS)), alpha=0.05, at=1).case, wanted)

    def test_stages_are_whole_numbers(self):
        for stage in [1.9, 1.0, "1", True, None, Fraction(1)]:
            with self.subTest(stage), self.assertRaisesRegex(TypeError, "^the stage of look 1 is a whole number, and not "):
                trial().stages(LEVELS, [("PFS", stage, 0.01)], alpha=0.05, at=1)
        with self.assertRaisesRegex(ValueError, "^the stage of look 2 is 0, and stages count from 1$"):
            trial().stages(LEVELS, [LOOKS[0], ("PFS", 0, 0.01)], alpha=0.05, at=1)

    def test_what_cannot_be_matched(self):
        for levels, looks, message in [
            ({"PFS": [0.02, 0.03]}, (), "^levels: the hypothesis 'overall survival' is missing"),
            ([[0.02, 0.03]], (), "^levels has 1 values"), ([[0.02, 0.03], [0.05]], (), "^levels: the hypotheses have different"),
            (LEVELS, [("OS", 1, 0.1)], "^look 1: 'OS' is not the name of a hypothesis"),
            (LEVELS, [(["PFS"], 1, 0.1)], "^look 1: \\['PFS'\\] is not the name of a hypothesis"),
            (LEVELS, [LOOKS[0], ("PFS", 2, float("nan"))], "^the p-value of look 2 is nan"), ([[0.02, -0.1], [0.1, 0.1]], (), "^level 2 of 'PFS' is -0.1"),
            ([[0.02, "1e-9000"], [0.1, 0.1]], (), "^level 2 of 'PFS' has too many digits$"),
            ([[0.02, 0.03], ["1/0", 0.1]], (), "^level 1 of 'overall survival' is 1/0, which has no value within reach$"),
        ]:
            with self.subTest(message), self.assertRaisesRegex(ValueError, message):
                trial().stages(levels, looks, alpha=0.05, at=1)
        for levels, looks, message in [(5, (), "^levels is a list"), ([5, 5], (), "^the levels of 'PFS' is a list"), (LEVELS, 5, "^looks is a list"),
                                       (LEVELS, [5], "^look 1 is a hypothesis, a stage"), (LEVELS, [("PFS", 1)], "^look 1 is a hypothesis")]:
            with self.subTest(message), self.assertRaisesRegex(TypeError, message):
                trial().stages(levels, looks, alpha=0.05, at=1)

    def test_refusals(self):
        for levels, looks, where, line in [
            ({**LEVELS, "overall survival": [0.02, 0.04]}, (), "the levels of 'overall survival'", "malformed: case: spend sum of overall_survival"),
            (LEVELS, [("PFS", 3, 0.1)], "look 1", "malformed: case: arrival 1 stage"),
            (LEVELS, [LOOKS[0], LOOKS[0]], "look 2", "malformed: case: arrival 2 repeated"),
            (LEVELS, [("PFS", 1, 2)], "look 1", "malformed: case: arrival 1 p"),
            ({**LEVELS, "PFS": {0.5: [0.01, 0.01], 0.25: [0, 0]}}, (), "the levels of 'PFS'", "malformed: case: step 2 of PFS"),
            ([[0.001] * 13] * 2, (), "levels", "limit: stages 13"),
        ]:
            with self.subTest(line), self.assertRaises(welungad.Refused) as caught:
                trial().stages(levels, looks, alpha=0.05, at=1)
            self.assertEqual((caught.exception.where, caught.exception.line), (where, line))
        for alpha in [0, "-0.05", 2]:
            with self.subTest(alpha), self.assertRaises(welungad.Refused) as caught:
                trial().stages(LEVELS, LOOKS, alpha=alpha, at=1)
            self.assertEqual((caught.exception.where, caught.exception.line), ("alpha", "malformed: case: alpha"))

    @unittest.skipUnless(numpy, "numpy is missing")
    def test_numpy(self):
        levels = numpy.array([[0.02, 0.03], [0.01, 0.04]])
        self.assertEqual(trial().stages(levels, LOOKS, alpha=0.05, at=1).case, trial().stages(LEVELS, LOOKS, alpha=0.05, at=1).case)
        for kind in ["f4", "f8"]:
            records = numpy.array([(0.03, 0.02), (0.04, 0.01)], dtype=[("final", kind), ("interim", kind)])
            with self.subTest(kind), self.assertRaisesRegex(TypeError, "^levels is of type .*, whose fields have names: give a frame"):
                trial().stages(records, LOOKS, alpha=0.05, at=1)

    @unittest.skipUnless(pandas, "pandas is missing")
    def test_frames(self):
        graph, wanted = trial(), trial().stages(LEVELS, LOOKS, alpha=0.05, at=1).case
        looks = pandas.DataFrame(LOOKS, columns=["hypothesis", "stage", "p"])[["p", "hypothesis", "stage"]]
        by_column = pandas.DataFrame(LEVELS)
        for levels in [by_column, by_column.transpose(), by_column[["PFS", "overall survival"]]]:
            self.assertEqual(graph.stages(levels, looks, alpha=0.05, at=1).case, wanted)
        for stages in [[1, 2], [1.0, 2.0], ["1", "2"], ["stage 1", "Stage2"]]:
            self.assertEqual(graph.stages(by_column.set_axis(stages), looks, alpha=0.05, at=1).case, wanted)
        for stages in [[2, 1], ["stage 2", "stage 1"], ["2", "1"], ["stage 1", "stage 3"]]:
            for levels in [by_column.set_axis(stages), by_column.set_axis(stages).transpose()]:
                with self.subTest(stages), self.assertRaisesRegex(ValueError, "^levels: the stages are .*, and levels are given from the first"):
                    graph.stages(levels, looks, alpha=0.05, at=1)
        with self.assertRaisesRegex(ValueError, "^levels: the label 'interim' occurs 2 times$"):
            graph.stages(by_column.set_axis(["interim", "interim"]), looks, alpha=0.05, at=1)
        both = by_column.rename(index={0: "PFS", 1: "overall survival"})
        with self.assertRaisesRegex(ValueError, "^levels: both the rows and the columns"):
            graph.stages(both, (), alpha=0.05, at=1)
        with self.assertRaisesRegex(ValueError, "^levels: neither the rows nor the columns"):
            graph.stages(pandas.DataFrame([[0.02, 0.03], [0.01, 0.04]]), (), alpha=0.05, at=1)
        with self.assertRaisesRegex(ValueError, "^the columns of looks: the hypothesis 'p' is missing|'q' is not the name"):
            graph.stages(LEVELS, looks.rename(columns={"p": "q"}), alpha=0.05, at=1)
        with self.assertRaisesRegex(TypeError, "^the stage of look 1 is a whole number, and not '1'"):
            graph.stages(LEVELS, looks.assign(stage=pandas.Categorical(["1", "1", "2", "2"])), alpha=0.05, at=1)
        with self.assertRaisesRegex(TypeError, "^the stage of look 1 is a whole number, and not 1.9"):
            graph.stages(LEVELS, looks.assign(stage=[1.9, 1, 2, 2]), alpha=0.05, at=1)
        with self.assertRaisesRegex(TypeError, "^the levels of 'PFS' are a list, one for each stage, and not of type Series$"):
            graph.stages({**LEVELS, "PFS": pandas.Series([0.02, 0.03], index=["stage 1", "stage 2"])}, looks, alpha=0.05, at=1)

    @unittest.skipUnless(pandas, "pandas is missing")
    def test_the_table_of_labels(self):
        """Whether labels of stages are taken as R takes them, by the table that both read."""
        rows = [[[it.strip() for it in part.split(",")] for part in row] for row in places.table("stage_labels.txt")]
        self.assertGreater(len(rows), 25)
        graph = welungad.Graph({"A": 1}, {})
        for labels, stages, wanted in rows:
            levels = [Fraction(number, 1000) for number in range(1, len(labels) + 1)]
            frame = pandas.DataFrame({"A": levels}, index=labels)
            with self.subTest(labels=labels, stages=stages):
                if wanted == ["refused"]:
                    with self.assertRaises(ValueError):
                        graph.stages(frame, stages=None if stages == [""] else stages)
                else:
                    ordered = [levels[labels.index(label)] for label in wanted]
                    found = graph.stages(frame, stages=None if stages == [""] else stages)
                    self.assertEqual(found.case, graph.stages({"A": ordered}).case)

    @unittest.skipUnless(pandas, "pandas is missing")
    def test_the_order_of_stages(self):
        """Whether labels of stages say their order, or a call says it: numbers and dates are compared as values."""
        graph, wanted = trial(), trial().stages(LEVELS, (), alpha=0.05, at=1).case
        by_column, dates = pandas.DataFrame(LEVELS), [datetime.date(2026, 1, 31), datetime.date(2026, 11, 2)]
        for labels, stages in [([0.5, 1.0], ["1/2", 1]), (["interim", "final"], ("interim", "final")), (["week 12", "week 104"], ["week 12", "week 104"]),
                               (pandas.to_datetime(dates), dates), (dates, ["2026-01-31", "2026-11-02"]), ([1, 2], [1, 2]), (["1", "2"], [1.0, 2.0]),
                               (["stage", "stage 2"], ["stage", "stage 2"])]:
            frame = by_column.set_axis(labels)
            for given in [frame, frame[::-1], frame.transpose(), frame[::-1].transpose()]:
                with self.subTest(labels):
                    self.assertEqual(graph.stages(given, (), alpha=0.05, at=1, stages=stages).case, wanted)
                    if set(map(str, labels)) - {"1", "2"}:
                        with self.assertRaisesRegex(ValueError, "^levels: the stages are .*, and nothing says which is the first: give them as stages="):
                            graph.stages(given, (), alpha=0.05, at=1)
                    with self.assertRaisesRegex(ValueError, "^stages are .*, and those of the levels are "):
                        graph.stages(given, (), alpha=0.05, at=1, stages=[stages[0], "another"])
                    with self.assertRaisesRegex(ValueError, "^stages: the label .* occurs 2 times$"):
                        graph.stages(given, (), alpha=0.05, at=1, stages=[stages[0], *stages])
        for levels in [LEVELS, [[0.02, 0.03], [0.01, 0.04]], by_column]:
            self.assertEqual(graph.stages(levels, (), alpha=0.05, at=1, stages=["interim", "final"]).case, wanted)
            with self.assertRaisesRegex(ValueError, "^stages: 3 are given, and the levels have 2$"):
                graph.stages(levels, (), alpha=0.05, at=1, stages=["interim", "later", "final"])

    def test_looks_at_stages_with_labels(self):
        """Whether a look may name its stage by the label that `stages` has, and a number that is the label of another stage is refused."""
        graph, wanted = trial(), trial().stages(LEVELS, LOOKS, alpha=0.05, at=1).case
        for stages in [["interim", "final"], [datetime.date(2026, 1, 31), datetime.date(2026, 11, 2)], [0.5, "0.75"]]:
            looks = [(label, stages[stage - 1], p) for label, stage, p in LOOKS]
            self.assertEqual(graph.stages(LEVELS, looks, alpha=0.05, at=1, stages=stages).case, wanted)
            self.assertEqual(graph.stages(LEVELS, LOOKS, alpha=0.05, at=1, stages=stages).case, wanted)
        for stages, stage, message in [([0.5, 1], 1, "is 1, which is the label of stage 2"), (["interim", "final"], "last", "is 'last', which is none of the stages"),
                                       (["interim", "final"], 1.5, "is 1.5, which is none of the stages")]:
            with self.subTest(stages), self.assertRaisesRegex(ValueError, f"^the stage of look 1 {message}"):
                graph.stages(LEVELS, [("PFS", stage, 0.1)], alpha=0.05, at=1, stages=stages)

    def test_the_weight_that_is_left_out(self):
        """Whether levels at a weight other than 1 or 0 are refused unless the weight is named, with the one that seems to be meant."""
        own = {"PFS": [0.01, 0.015], "overall survival": [0.005, 0.02]}
        with self.assertRaisesRegex(ValueError, "^at is missing, .*: 'PFS' begins with the weight 1/2: the levels sum to weight times alpha, so they seem to be "
                                                "meant at the weights of the beginning, at=\\{'PFS': '1/2', 'overall survival': '1/2'\\}$"):
            trial().stages(own, alpha=0.05)
        with self.assertRaisesRegex(ValueError, "^at is missing, .*: 'PFS' begins with the weight 1/2$"):
            trial().stages(LEVELS, alpha=0.05)
        sequence = welungad.Graph({"PFS": 1, "OS": 0}, {"PFS": {"OS": 1}})
        levels = {"PFS": [0.01, 0.015], "OS": [0.01, 0.015]}
        self.assertEqual(sequence.stages(levels).case, sequence.stages(levels, at=1).case)
        by_weight = {"PFS": {0.5: [0.01, 0.015]}, "overall survival": {0.5: [0.01, 0.015]}}
        self.assertEqual(trial().stages(by_weight, alpha=0.05).rejected, ())

    def test_what_misled(self):
        """Whether an error names the argument and a way that works."""
        for levels, message in [
            ({"PFS": [0.02, 0.03], "overall survival": [0.05]}, "'PFS' has 2 and 'overall survival' has 1\\): give 0 for a stage without a test$"),
            ({"PFS": [0.001525323, 0.023474677], "overall survival": [0.01, 0.015]},
             "^the levels of 'PFS', which are finer fractions of its level than a case has: give them by weight, as \\{weight: levels\\}: "),
        ]:
            with self.subTest(message), self.assertRaisesRegex((ValueError, welungad.Refused), message):
                trial().stages(levels, alpha=0.05, at=1)
        if pandas:
            frame = pandas.DataFrame({"stage": [1, 2], **LEVELS})
            with self.assertRaisesRegex(ValueError, "^levels: beside the hypotheses there is a column 'stage': drop it, or make it the labels of the stages$"):
                trial().stages(frame, alpha=0.05, at=1)
            self.assertEqual(trial().stages(frame.set_index("stage"), alpha=0.05, at=1).case, trial().stages(LEVELS, alpha=0.05, at=1).case)

    def test_ties(self):
        """Whether a look whose double is just above its level is named, and one that is 0."""
        above = 0.025 + 2**-58
        self.assertNotEqual(above, 0.025)
        with self.assertWarnsRegex(welungad.BesideWarning, "^the p-value of look 1 is 0.0250000000000000[0-9]*, [a-z]+ units? in the last place above 1/40, "
                                                           "which is the level of 'A' at stage 1: if 1/40 was meant, it is rejected$"):
            welungad.Graph({"A": 1}, {}).stages([[0.025, 0]], [("A", 1, above)])
        with self.assertWarnsRegex(welungad.ZeroWarning, "^the p-value of look 1 is 0,"):
            welungad.Graph({"A": 1}, {}).stages([[0.025, 0]], [("A", 1, 0.0)])


if __name__ == "__main__":
    unittest.main()
