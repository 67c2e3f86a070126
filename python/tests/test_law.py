"""Test of the law of the package: what the user gave, and what was decided, are the same case, or the call is an error.

Random graphs are given in random classes of input. The p-value, weight and edges of each label are read back from the canonical text
of the case that was decided. Some inputs are spoiled, and some answers are cut; then the call has to be an error.
"""
import collections
import datetime
import io
import math
import os
import random
import unittest
import warnings
from decimal import Decimal
from fractions import Fraction
from unittest import mock

import welungad
from welungad import _graph

try:
    import numpy
except ImportError:
    numpy = None
try:
    import pandas
except ImportError:
    pandas = None

GRAPHS = 2000
# of each further form; the variable WELUNGAD_TEST_ALL has all of them tried
FORMS = 2000 if os.environ.get("WELUNGAD_TEST_ALL") else 300
ERRORS = (TypeError, ValueError, welungad.Refused, welungad.BadAnswer)

LABELS = ["A", "B", "H1", "H2", "H3", "low dose", "low_dose", "low  dose", "high dose", "dose ü", "dose ä", "α", "β", "", " ", "a\nb", "1", "2.5", "end",
          "x" * 33, "x" * 34, "alpha", "p", "weights", "edge", "'", '"', "#", "H1 ", "-", "_", "ends\n", "日本", "rejected A"]


# ---- numbers, each with the class that it is given in


def as_double(chance, value):
    """Returns a double that reads as the value, which has a denominator up to 10,000 or few decimals."""
    return value.numerator / value.denominator


def as_decimal(chance, value):
    places = next(places for places in range(40) if 10**places % value.denominator == 0)
    return Decimal(value.numerator * (10**places // value.denominator)).scaleb(-places)


def as_text(chance, value):
    factor = chance.choice([1, 1, 3])
    return chance.choice(["{}/{}", " {}/{}", "0{}/{} "]).format(value.numerator * factor, value.denominator * factor)


def as_fraction(chance, value):
    return value


def as_numpy_double(chance, value):
    return numpy.float64(as_double(chance, value))


NUMBERS = [as_double, as_decimal, as_text, as_fraction] + ([as_numpy_double] if numpy else [])


def in_class(chance, values):
    """Returns numbers in one class, or each in one of its own."""
    one = chance.choice([*NUMBERS, None, as_double])
    made = []
    for value in values:
        write = one or chance.choice(NUMBERS)
        is_decimal = set(factors(value.denominator)) <= {2, 5}
        write = as_fraction if write is as_decimal and not is_decimal else write
        made.append(int(value) if value.denominator == 1 and chance.random() < 0.2 else write(chance, value))
    return made


def factors(number):
    for factor in (2, 3, 5, 7):
        while number % factor == 0:
            number //= factor
            yield factor
    if number > 1:
        yield number


def random_p(chance):
    kind = chance.randrange(4)
    if kind == 0:
        return Fraction(chance.randrange(0, 1001), 1000)
    if kind == 1:
        denominator = chance.randrange(1, 10001)
        return Fraction(chance.randrange(0, denominator + 1), denominator)
    return Fraction(chance.randrange(0, 10**6), 10**chance.randrange(7, 13))


def random_parts(chance, count):
    """Returns numbers that sum to at most 1."""
    whole = chance.choice([2, 3, 4, 5, 6, 7, 10, 12, 100, 1000, 9973])
    cuts = sorted(chance.randrange(0, whole + 1) for _ in range(count))
    return [Fraction(b - a, whole) for a, b in zip([0, *cuts], cuts)]


# ---- vectors and matrices


def shuffled(chance, pairs):
    pairs = list(pairs)
    chance.shuffle(pairs)
    return pairs


def vector_classes():
    classes = {
        "list": lambda chance, labels, values: values,
        "tuple": lambda chance, labels, values: tuple(values),
        "dict": lambda chance, labels, values: dict(shuffled(chance, zip(labels, values))),
        "ordered": lambda chance, labels, values: collections.OrderedDict(shuffled(chance, zip(labels, values))),
        "generator": lambda chance, labels, values: (it for it in values),
        "values": lambda chance, labels, values: dict(zip(labels, values)).values(),
    }
    if numpy:
        classes["array"] = lambda chance, labels, values: numpy.array(values)
        classes["objects"] = lambda chance, labels, values: numpy.array(values, dtype=object)
    if pandas:
        classes["series"] = lambda chance, labels, values: series(dict(shuffled(chance, zip(labels, values))))
        classes["numbered series"] = lambda chance, labels, values: pandas.Series(values)
    return classes


def series(values):
    return pandas.Series(list(values.values()), index=list(values))


REFUSED_CLASSES = {"generator", "values"}
VECTORS = vector_classes()


def vector_class(chance):
    """Returns a class of vectors; those that are refused are rare."""
    return chance.choice(sorted(set(VECTORS) - REFUSED_CLASSES) * 4 + sorted(REFUSED_CLASSES))


def matrix(chance, labels, rows):
    """Returns a square matrix of numbers in a random class, and the name of the class."""
    kind = chance.choice(["rows", "dicts", "sparse", "pairs", "vectors"] + ["array"] * bool(numpy) + ["frame"] * 2 * bool(pandas))
    made = [in_class(chance, row) for row in rows]
    pairs = {(a, b): made[i][j] for i, a in enumerate(labels) for j, b in enumerate(labels)}
    if kind == "rows":
        return kind, tuple(map(tuple, made))
    if kind == "dicts":
        return kind, dict(shuffled(chance, ((a, dict(shuffled(chance, zip(labels, row)))) for a, row in zip(labels, made))))
    if kind == "pairs":
        return kind, dict(shuffled(chance, ((pair, it) for pair, it in pairs.items() if it != 0 or chance.random() < 0.5)))
    if kind == "sparse":
        own = ((a, {b: pairs[a, b] for j, b in enumerate(labels) if rows[i][j]}) for i, a in enumerate(labels))
        return kind, dict(shuffled(chance, ((a, row) for a, row in own if row)))
    if kind == "vectors":
        return kind, [VECTORS[chance.choice(sorted(set(VECTORS) - REFUSED_CLASSES))](chance, labels, row) for row in made]
    if kind == "array":
        return kind, numpy.array(made, dtype=object if chance.random() < 0.5 else None)
    order, across = shuffled(chance, labels), shuffled(chance, labels)
    return kind, pandas.DataFrame({b: [pairs[a, b] for a in order] for b in across}, index=order)


# ---- spoiled inputs and answers


def spoiled(chance, labels, given):
    """Returns p-values that are not one for each label, or of which one has no value."""
    values = list(given.values()) if isinstance(given, dict) else list(given)
    kind = chance.randrange(7)
    if kind == 0:
        return values[:-1]
    if kind == 1:
        return [*values, 0.5]
    if kind == 2:
        return dict(zip([*labels[:-1], "nobody"], values))
    if kind == 3:
        return {**dict(zip(labels, values)), "nobody": 0.5}
    if kind == 4:
        return values[:-1] + [chance.choice([float("nan"), -0.1, 1.5, True, None, "", "0.1 0.2", [0.1], float("inf"), "x"])]
    if kind == 5 and pandas:
        return pandas.Series(values, index=[labels[0]] * len(labels)) if len(labels) > 1 else pandas.Series(values, index=["nobody"])
    return {**dict(zip(labels, values)), labels[0]: None}


def rows_in(edges):
    """Returns the rows of a matrix that is a list, and nothing for any other."""
    return edges if isinstance(edges, list) else []


class Cut:
    """A library whose answers to `test` may be cut, or be those to another call."""

    def __init__(self):
        self.cut = None

    def run(self, words, case=b"", proof=b""):
        status, text = welungad.run(words, case, proof)
        return (status, self.cut(text)) if self.cut and words[0] == "test" else (status, text)


CUTS = [
    lambda text: b"",
    lambda text: text[: len(text) // 2],
    lambda text: text[: -len(b"end\n")],
    lambda text: text.replace(b"\nend\n", b"\n"),
    lambda text: b"".join(text.splitlines(True)[1:]),
    lambda text: text + text,
]


# ---- what was decided


def read_back(text):
    """Returns the level, p-values, weights and edges of a canonical text, by the positions of the hypotheses."""
    lines = [line.split(" ") for line in text.split("\n")[:-1]]
    names = next(line[1:] for line in lines if line[0] == "hypotheses")
    one = {line[0]: [Fraction(it) for it in line[1:]] for line in lines if line[0] in ("alpha", "p", "weights")}
    edges = {(names.index(line[1]), names.index(line[2])): Fraction(line[3]) for line in lines if line[0] == "edge"}
    return names, one, edges


class Law(unittest.TestCase):
    """Whether the case that was decided is the one that was given."""

    def test_random_graphs(self):
        welungad.run(["help"])  # without the library there is one error
        chance = random.Random(20261130)
        library, counts = Cut(), collections.Counter()
        with mock.patch.object(_graph, "run", library.run), warnings.catch_warnings():
            warnings.simplefilter("ignore", welungad.ZeroWarning)
            for number in range(GRAPHS):
                with self.subTest(number):
                    self.hold(chance, library, counts)
        self.assertGreater(counts["decided"], GRAPHS // 2)
        self.assertGreater(counts["refused"], GRAPHS // 10)
        for kind in VECTORS:
            self.assertGreater(counts[f"p {kind}"], GRAPHS // 100)

    def hold(self, chance, library, counts):
        size = chance.choice([1, 2, 2, 3, 3, 4, 5, 8])
        labels = chance.sample(LABELS, size)
        weights = random_parts(chance, size)
        rows = [random_parts(chance, size) for _ in labels]
        for i, row in enumerate(rows):
            row[i] = Fraction(0)
        p, alpha = [random_p(chance) for _ in labels], Fraction(chance.choice([1, 25, 50, 100, 333]), chance.choice([1000, 2000, 9999]))
        of_weights, of_p = vector_class(chance), vector_class(chance)
        counts[f"p {of_p}"] += 1
        given_weights = VECTORS[of_weights](chance, labels, in_class(chance, weights))
        names = chance.choice([labels, tuple(labels)])
        given_p = VECTORS[of_p](chance, labels, in_class(chance, p))
        kind, edges = matrix(chance, labels, rows)
        is_spoiled = chance.random() < 0.1
        if is_spoiled:
            given_p = spoiled(chance, labels, in_class(chance, p))
        repeats = size > 1 and chance.random() < 0.05
        if repeats:
            names = [labels[0], *labels[:-1]]
        library.cut = chance.choice(CUTS) if chance.random() < 0.1 else None
        look_alike = len({" ".join(label.split()) for label in labels}) < size
        due = is_spoiled or repeats or look_alike or library.cut or of_weights in REFUSED_CLASSES or (of_p in REFUSED_CLASSES and not is_spoiled)
        has_texts = any(getattr(getattr(it, "dtype", None), "kind", "") == "U" for it in [given_weights, given_p, edges, *rows_in(edges)])
        try:
            decision = welungad.Graph(given_weights, edges, names).test(given_p, in_class(chance, [alpha])[0])
        except ERRORS as error:
            self.assertTrue(due or has_texts, f"{type(error).__name__}: {error}; edges as {kind}, weights as {of_weights}, p as {of_p}")
            counts["refused"] += 1
            return
        self.assertFalse(due, f"decided: {decision}")
        counts["decided"] += 1
        self.hold_decision(decision, labels, weights, rows, p, alpha)

    def hold_decision(self, decision, labels, weights, rows, p, alpha):
        status, canonical = welungad.run(["canon"], decision.case)
        self.assertEqual(status, 0)
        names, one, edges = read_back(canonical.decode("ascii"))
        self.assertEqual(len(set(names)), len(labels))
        self.assertEqual(one, {"alpha": [alpha], "p": p, "weights": weights})
        size = range(len(labels))
        self.assertEqual(edges, {(i, j): rows[i][j] for i in size for j in size if rows[i][j]})
        self.assertEqual({it.name: it.p for it in decision.steps + decision.kept}, dict(zip(labels, p)))
        found = dict(zip(names, labels))
        _, report = welungad.run(["test"], canonical)
        (rejected,) = [line.split(" ")[1:] for line in report.decode("ascii").split("\n") if line.startswith("rejected")]
        self.assertEqual(decision.rejected, tuple(found[name] for name in rejected))


# ---- further forms: levels whose stages have labels, p-values near their level, sheets


def stage_labels(chance, count):
    """Returns labels of stages in their order, in a class of labels: numbers, texts of numbers, dates, times, or words."""
    days = sorted(chance.sample(range(700000, 740000), count))
    numbers = sorted(chance.sample([0.25, 0.5, 0.75, 1.0, 12.0, 104.0, 7.0], count))
    return chance.choice([
        numbers, [f"{it:g}" for it in numbers], [int(4 * it) for it in numbers], [datetime.date.fromordinal(it) for it in days],
        [datetime.datetime.fromordinal(it) for it in days], [datetime.date.fromordinal(it).isoformat() for it in days],
        chance.sample(["interim", "final", "week 12", "week 104", "IA 1", "IA2", "look", "end"], count), [f"stage {it}" for it in range(1, count + 1)],
        [*range(1, count + 1)], [str(it) for it in range(1, count + 1)],
    ])


def is_counted(labels):
    return [str(it).removeprefix("stage ") for it in labels] in ([str(it) for it in range(1, len(labels) + 1)], [f"{it:.1f}" for it in range(1, len(labels) + 1)])


class Forms(unittest.TestCase):
    """Whether the law holds for levels, near ties, and sheets."""

    def setUp(self):
        welungad.run(["help"])  # without the library there is one error

    @unittest.skipUnless(pandas, "pandas is missing")
    def test_stages(self):
        """Whether levels are taken in the order of their stages, in whatever order a frame has these, or the call is an error."""
        chance, counts = random.Random(20261201), collections.Counter()
        for number in range(FORMS):
            with self.subTest(number):
                self.hold_stages(chance, counts)
        self.assertGreater(min(counts["decided"], counts["refused"]), FORMS // 4)

    def hold_stages(self, chance, counts):
        names, size = ["A", "low dose"], chance.choice([2, 2, 3, 4])
        labels = stage_labels(chance, size)
        levels = {name: [Fraction(chance.randrange(1, 50), 40000) for _ in labels] for name in names}
        order = chance.sample(range(size), size)
        frame = pandas.DataFrame({name: [levels[name][at] for at in order] for name in names}, index=[labels[at] for at in order], dtype=object)
        frame = frame[chance.sample(names, 2)]
        frame = frame if chance.random() < 0.5 else frame.transpose()
        stages = chance.choice([None, labels, [str(it) if isinstance(it, (int, str)) else it for it in labels]])
        graph = welungad.Graph({"A": 1, "low dose": 0}, {"A": {"low dose": 1}}, names)
        looks = [(chance.choice(names), at, "0.001") for at in range(1, size + 1)]
        given = [(name, stages[at - 1] if stages else at, p) for name, at, p in looks]
        try:
            found = graph.stages(frame, given, stages=stages)
        except ValueError:
            # a look at stage 1 could mean the first stage, or another one whose label is 1
            is_unclear = any(str(it) in (str(at), f"{at:.1f}") for number, it in enumerate(labels, 1) for at in range(1, size + 1) if at != number)
            self.assertTrue(is_unclear or (stages is None and not (is_counted(labels) and order == sorted(order))), (labels, order, stages))
            counts["refused"] += 1
            return
        counts["decided"] += 1
        self.assertEqual(found.case, graph.stages(levels, looks).case, (labels, order, stages))

    def test_near_ties(self):
        """Whether a p-value a few units in the last place from its level is decided exactly, at the level of the call and by the adjusted
        p-values, and a warning says that it is just above."""
        chance, above = random.Random(20261202), 0
        for number in range(FORMS):
            with self.subTest(number):
                above += self.hold_near_tie(chance)
        self.assertGreater(above, FORMS // 10)

    def hold_near_tie(self, chance):
        weights = random_parts(chance, 2)
        alpha = chance.choice([0.025, 0.05, 0.1, 0.015, 0.0125, 1 / 30, 0.01])
        level = weights[0] * welungad.as_exact(alpha)
        p = float(level)
        for _ in range(chance.randrange(5)):
            p = math.nextafter(p, chance.choice([0.0, 1.0]))
        exact = welungad.as_exact(p)
        with warnings.catch_warnings(record=True) as caught:
            warnings.simplefilter("always")
            decision = welungad.Graph(weights, {}, ["A", "B"]).test([p, 1.0], alpha=alpha)
        rejected = 0 < level and exact <= level
        self.assertEqual(decision.rejected, ("A",) if rejected else ())
        self.assertEqual(decision.rejected_at(alpha), decision.rejected)
        is_just_above = p > 0 and not rejected and exact > level and level.denominator <= 10000
        self.assertEqual([it.category for it in caught if it.category is welungad.BesideWarning], [welungad.BesideWarning] * is_just_above, (p, level))
        return is_just_above

    @unittest.skipUnless(pandas, "pandas is missing")
    def test_sheets(self):
        """Whether a sheet whose names are numbers or texts, in any order of its rows and columns, gives the graph and the p-values that it
        has, or the call is an error."""
        chance, counts = random.Random(20261203), collections.Counter()
        for number in range(FORMS):
            with self.subTest(number):
                self.hold_sheet(chance, counts)
        self.assertGreater(min(counts["decided"], counts["refused"]), FORMS // 10)

    def hold_sheet(self, chance, counts):
        names = chance.choice([["10", "20", "30"], ["1", "2", "3"], ["0", "1", "2"], ["A", "B", "C"], ["low dose", "high dose", "H1"]])
        edges = {a: {b: Fraction(0) if a == b else Fraction(chance.randrange(0, 6), 10) for b in names} for a in names}
        p = {name: Fraction(chance.randrange(1, 1000), 10000) for name in names}
        rows, columns = chance.sample(names, 3), chance.sample(names, 3)
        text = "".join([",".join(["name", "p", *columns]), "\n",
                        *(",".join([a, f"{float(p[a]):.4f}", *(f"{float(edges[a][b]):.1f}" for b in columns)]) + "\n" for a in rows)])
        sheet = pandas.read_csv(io.StringIO(text), index_col=chance.choice([0, 0, None]))
        frame = sheet.drop(columns=[it for it in ("p", "name") if it in sheet])
        try:
            graph = welungad.Graph(["1/2", "1/2", 0], chance.choice([frame, frame.rename(index=str)]), names)
            decision = graph.test(chance.choice([sheet["p"], sheet["p"].rename(index=str)]))
        except ERRORS:
            counts["refused"] += 1
            return
        counts["decided"] += 1
        wanted = welungad.Graph(["1/2", "1/2", 0], edges, names).test(p)
        self.assertEqual((decision.case, decision.rejected), (wanted.case, wanted.rejected), text)


if __name__ == "__main__":
    unittest.main()
