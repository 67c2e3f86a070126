"""Tests of hypotheses: labels, the names that are made for them, and the one function that puts values in order."""
import array
import collections
import collections.abc
import contextlib
import enum
import sqlite3
import unittest
from fractions import Fraction

import places
from welungad import _hypotheses

try:
    import numpy
except ImportError:
    numpy = None
try:
    import pandas
except ImportError:
    pandas = None

AB = ("A", "B")


class Dose(str, enum.Enum):
    LOW = "low"
    HIGH = "high"


class Shown(str):
    """A text that is shown as another one."""

    def __str__(self):
        return "x"


class Turning(collections.abc.Mapping):
    """A mapping that is read forwards and backwards in turn, as a cache may be that moves what was read to its end."""

    def __init__(self, own):
        self.own, self.turn = own, -1

    def __len__(self):
        return len(self.own)

    def __getitem__(self, label):
        return self.own[label]

    def __iter__(self):
        self.turn = -self.turn
        return iter(list(self.own)[:: self.turn])


def row_of(select):
    """Returns a row of a database, which has names for its values."""
    with contextlib.closing(sqlite3.connect(":memory:")) as database:
        database.row_factory = sqlite3.Row
        return database.execute(select).fetchone()


class Names(unittest.TestCase):
    """Whether names are made for labels as R makes them."""

    def test_names(self):
        for labels, names in [
            (("H1", "x_1.y-2"), ("H1", "x_1.y-2")),
            (("low dose", "high dose"), ("low_dose", "high_dose")),
            (("dose ü", "dose ä"), ("dose", "dose_2")),
            (("α", "β"), ("H1", "H2")),
            (("", "  "), ("H1", "H2")),
            (("H2", "α"), ("H2", "H2_2")),
            (("__a__b__ ", "a_b"), ("a_b_2", "a_b")),
            (("H1\n",), ("H1",)),
            (("x" * 40, "x" * 41), ("x" * 32, "x" * 30 + "_2")),
            (("a b", "a  b", "a\tb"), ("a_b", "a_b_2", "a_b_3")),
        ]:
            with self.subTest(labels):
                self.assertEqual(_hypotheses.names_for(labels), names)

    def test_the_table_of_names(self):
        """Whether names are those of the table that R reads too."""
        count = 0
        for labels, names in places.table("label_names.txt"):
            texts = [label.replace("\\t", "\t").replace("\\n", "\n") for label in labels.split(", ")]
            with self.subTest(labels):
                self.assertEqual(_hypotheses.names_for(texts), tuple(names.split(", ")))
            count += 1
        self.assertGreater(count, 12)

    def test_labels_are_distinct_texts(self):
        with self.assertRaisesRegex(ValueError, "^weights: the label 'low dose' occurs 2 times$"):
            _hypotheses.hold_labels(["low dose", "low dose"], "weights")
        with self.assertRaisesRegex(TypeError, "^names: label 2 is a text, and not 2 of type int$"):
            _hypotheses.hold_labels(["A", 2], "names")

    def test_many_labels(self):
        """Whether labels are compared about once each, since a column of a large frame may be given by mistake."""
        compared = []

        class Compared(str):
            __hash__ = str.__hash__

            def __eq__(self, other):
                compared.append(None)
                return str.__eq__(self, other)

        labels = [Compared(f"patient {number}") for number in range(500)]
        with self.assertRaisesRegex(ValueError, "^p: 'patient 0' is not the name of a hypothesis"):
            _hypotheses.in_order(dict(zip(labels, labels)), AB, "p")
        self.assertLess(len(compared), 5000)

    def test_labels_of_other_classes_of_text(self):
        for labels, texts in [([Dose.LOW, Dose.HIGH], ("low", "high")), ([Shown("A"), Shown("B")], AB)]:
            with self.subTest(texts):
                held = _hypotheses.hold_labels(labels, "names")
                self.assertEqual([(type(it), it) for it in held], [(str, it) for it in texts])
                self.assertEqual(_hypotheses.in_order(dict(zip(labels, (1, 2))), held, "p"), [1, 2])
                self.assertEqual(_hypotheses.in_order({texts[1]: 2, texts[0]: 1}, held, "p"), [1, 2])


class Order(unittest.TestCase):
    """Whether values are put in the order of the hypotheses, or refused."""

    def test_in_order(self):
        dictionary = {"B": 2, "A": 1}
        for given in [[1, 2], (1, 2), dictionary, collections.OrderedDict(dictionary), range(1, 3), Turning(dictionary), Turning({"A": 1, "B": 2})]:
            with self.subTest(given):
                self.assertEqual(_hypotheses.in_order(given, AB, "p"), [1, 2])

    def test_sequences_with_names_of_their_own(self):
        """Whether the values of a named tuple and of a row of a database are matched by their names."""
        for given in [collections.namedtuple("P", "B A")(2, 1), row_of("select 2 as B, 1 as A"), row_of("select 1 as A, 2 as B")]:
            with self.subTest(given):
                self.assertEqual(_hypotheses.in_order(given, AB, "p"), [1, 2])
        for given, message in [(collections.namedtuple("P", "C A")(2, 1), "^p: 'C' is not the name"), (row_of("select 1 as A, 2 as A"), "^p: the label 'A' occurs 2"),
                               (collections.namedtuple("P", "A")(1), "^p: the hypothesis 'B' is missing$")]:
            with self.subTest(given), self.assertRaisesRegex(ValueError, message):
                _hypotheses.in_order(given, AB, "p")
        with self.assertRaisesRegex(TypeError, "^edges is a list of rows, and not of type E$"):
            _hypotheses.rows_of(collections.namedtuple("E", "B A")([0, 1], [1, 0]), "edges")

    def test_one_label_begins_another(self):
        for labels in [("A", "AB", "ABC"), ("H1", "H10", "H1 0"), ("", "a", "a b")]:
            given = dict(zip(labels, (1, 2, 3)))
            for order in [labels, labels[::-1], labels[1:] + labels[:1]]:
                self.assertEqual(_hypotheses.in_order({it: given[it] for it in order}, labels, "p"), [1, 2, 3])

    def test_what_cannot_be_matched(self):
        for given, message in [
            ([1], "^p has 1 values, and there are 2 hypotheses$"),
            ([1, 2, 3], "^p has 3 values"),
            ({"A": 1}, "^p: the hypothesis 'B' is missing$"),
            ({"A": 1, "b": 2}, "^p: 'b' is not the name of a hypothesis: they are 'A', 'B'$"),
            ({"A": 1, "B": 2, "C": 3}, "^p: 'C' is not the name"),
        ]:
            with self.subTest(given), self.assertRaisesRegex(ValueError, message):
                _hypotheses.in_order(given, AB, "p")

    def test_what_has_no_values_by_hypothesis(self):
        for given in [{1, 2}, iter([1, 2]), (x for x in (1, 2)), map(int, "12"), "12", b"12", 1, 0.5, None, Fraction(1), {1: 1, 2: 2},
                      {"A": 1, "B": 2}.values(), {"A", "B"}, object()]:
            with self.subTest(given), self.assertRaisesRegex(TypeError, "^p"):
                _hypotheses.in_order(given, AB, "p")

    def test_arrays_of_python(self):
        self.assertEqual(_hypotheses.in_order(array.array("d", [0.5, 0.25]), AB, "p"), [0.5, 0.25])
        self.assertEqual(_hypotheses.in_order(array.array("f", [0.5, 0.25]).tolist(), AB, "p"), [0.5, 0.25])
        self.assertEqual(_hypotheses.in_order(array.array("b", [0, 1]), AB, "p"), [0, 1])
        for given in [array.array("f", [0.1, 0.2]), memoryview(array.array("f", [0.1, 0.2])), memoryview(b"\0\1"), bytearray(b"\0\1")]:
            with self.subTest(given), self.assertRaisesRegex(TypeError, "^p is"):
                _hypotheses.in_order(given, AB, "p")
            with self.subTest(given), self.assertRaisesRegex(TypeError, "^edges is"):
                _hypotheses.rows_of(given, "edges")

    @unittest.skipUnless(numpy, "numpy is missing")
    def test_numpy(self):
        self.assertEqual(_hypotheses.in_order(numpy.array([0.5, 0.25]), AB, "p"), [0.5, 0.25])
        for given in [numpy.array([[0.5, 0.25]]), numpy.array(0.5), numpy.array([0.5, 0.25], dtype="float32"), numpy.array([0, 1], dtype="m8[ns]")]:
            with self.subTest(given), self.assertRaisesRegex(TypeError, "^p is"):
                _hypotheses.in_order(given, AB, "p")

    @unittest.skipUnless(pandas, "pandas is missing")
    def test_pandas(self):
        self.assertEqual(_hypotheses.in_order(pandas.Series([2.0, 1.0], index=["B", "A"]), AB, "p"), [1.0, 2.0])
        self.assertEqual(_hypotheses.in_order(pandas.Series([1.0, 2.0]), AB, "p"), [1.0, 2.0])
        self.assertEqual(_hypotheses.in_order(pandas.Series(["1/3", 0.5], index=["B", "A"]), AB, "p"), [0.5, "1/3"])
        for given in [pandas.Series([1.0, 2.0], index=["A", "A"]), pandas.Series([1.0, 2.0], index=["A", "C"]), pandas.Series([1.0])]:
            with self.subTest(given), self.assertRaisesRegex(ValueError, "^p"):
                _hypotheses.in_order(given, AB, "p")
        for given in [pandas.Series([1.0, 2.0]).sort_values(ascending=False), pandas.DataFrame({"A": [1.0], "B": [2.0]}),
                      pandas.Series([1.0, 2.0], index=AB, dtype="float32"), pandas.Series(pandas.to_timedelta([0, 1]))]:
            with self.subTest(given), self.assertRaisesRegex(TypeError, "^p"):
                _hypotheses.in_order(given, AB, "p")


if __name__ == "__main__":
    unittest.main()
