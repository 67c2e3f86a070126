"""Tests of numbers: the table of readings, the rule by its definition, and what is a number."""
import array
import numbers
import os
import random
import struct
import types
import unittest
import warnings
from decimal import Decimal
from fractions import Fraction

import places
import welungad
from welungad import _beside, _calls, _numbers

try:
    import numpy
except ImportError:
    numpy = None
try:
    import pandas
except ImportError:
    pandas = None

TABLE = os.path.join(os.path.dirname(os.path.abspath(__file__)), "readings.txt")


def double_of(bits):
    return struct.unpack(">d", struct.pack(">Q", bits))[0]


def bits_of(double):
    return struct.unpack(">Q", struct.pack(">d", double))[0]


def rows():
    with open(TABLE, encoding="ascii") as file:
        for line in file:
            if not line.startswith("#"):
                digits, printed, reading, part = line.split()
                yield int(digits, 16), printed, reading, part


def exactly(bits):
    """Returns the value of a finite double that is not below 0, by its bits."""
    exponent, digits = bits >> 52, bits & (2**52 - 1)
    return Fraction(digits, 2**1074) if exponent == 0 else Fraction(2**52 + digits) * Fraction(2)**(exponent - 1075)


def multiples(bits, parts):
    """Returns the least and the greatest n for which n/parts rounds to a double, by the doubles beside it."""
    low = (exactly(bits - 1) + exactly(bits)) / 2 * parts if bits else Fraction(0)
    high = (exactly(bits) + exactly(bits + 1)) / 2 * parts
    least, most = -(-low.numerator // low.denominator), high.numerator // high.denominator
    if bits % 2:
        least, most = least + (least == low), most - (most == high)
    return least, most


def by_definition(bits, denominators):
    """Returns the reading of a double from 0 to 1, by trial of denominators and of places."""
    for parts in denominators:
        least, most = multiples(bits, parts)
        if least <= most:
            return Fraction(least, parts)
    for places in range(1, 31):
        least, most = multiples(bits, 10**places)
        if least <= most:
            scale = 10**places
            return Fraction(min(range(least, most + 1), key=lambda n: (abs(Fraction(n, scale) - exactly(bits)), n % 2)), scale)
    value = exactly(bits) * 10**30
    return Fraction(-(-value.numerator // value.denominator), 10**30)


class Readings(unittest.TestCase):
    """Whether doubles are read by the rule."""

    def test_the_table(self):
        count = 0
        for bits, printed, reading, part in rows():
            with self.subTest(printed):
                double = double_of(bits)
                count += 1
                if part == "refused":
                    with self.assertRaisesRegex(ValueError, "not from 0 to 1"):
                        welungad.as_exact(double)
                else:
                    self.assertEqual(repr(double), printed)
                    self.assertEqual(welungad.as_exact(double), Fraction(reading))
                    self.assertEqual(welungad.as_exact(double).denominator <= 10000, part == "small")
        self.assertGreater(count, 140)

    def test_by_hand(self):
        for double, reading in [(1 / 3, "1/3"), (0.025, "1/40"), (0.1 + 0.2, "0.30000000000000004"), (2.0**-24, "5.960464477539063e-8"),
                                (2.0**-44, "5.684341886080802e-14"), (-0.0, "0"), (5e-324, "1e-30"), (1.5e-30, "2e-30"),
                                (1 / 9999, "1/9999"), (1 / 10001, "0.00009999000099990002"), (1e-5, "1/100000"), (0.3333, "3333/10000")]:
            with self.subTest(double):
                self.assertEqual(welungad.as_exact(double), Fraction(reading))

    def test_the_definition(self):
        chance = random.Random(3)
        for _ in range(300):
            n, d = chance.randrange(1, 10000), 10000
            kind = chance.randrange(4)
            double = [n / d, chance.random(), chance.random()**9, round(chance.random(), chance.randrange(3, 14))][kind]
            bits = bits_of(double) + chance.choice([0, 0, 0, 1, -1])
            # a fraction of a denominator up to 10,000 is among those that Fraction finds next to the double
            near = Fraction(double_of(bits)).limit_denominator(10000).denominator
            with self.subTest(double_of(bits)):
                self.assertEqual(_numbers.read_double(double_of(bits)), by_definition(bits, [near]))

    def test_every_small_fraction_is_read_as_itself(self):
        chance = random.Random(4)
        for _ in range(3000):
            d = chance.randrange(1, 10001)
            n = chance.randrange(0, d + 1)
            self.assertEqual(welungad.as_exact(n / d), Fraction(n, d))

    def test_every_reading_of_30_places_rounds_to_its_double(self):
        chance = random.Random(5)
        for _ in range(1000):
            double = chance.random() ** chance.randrange(1, 5)
            self.assertEqual(float(welungad.as_exact(double)), double)


def doubles_of_each_kind(chance, count):
    """Yields doubles from 0 to 1: random bits, doubles less than normal, decimals, quotients, powers of ten and of two, and what is beside them."""
    one = bits_of(1.0)
    for _ in range(count):
        yield double_of(chance.randrange(one + 1))
        yield round(chance.random(), chance.randrange(1, 18))
        yield chance.randrange(301) / chance.choice([1, 3, 7, 60, 9999, 10000, 10007]) / 300
        yield 10 ** -chance.uniform(0, 32)
    for _ in range(count // 4):
        yield double_of(chance.randrange(2**52))
    for power in range(1075):
        for step in (-1, 0, 1):
            yield double_of(min(one, bits_of(2.0**-power) + step))


class Call(unittest.TestCase):
    """Whether the call of the library reads doubles by the rule."""

    def test_by_the_definition(self):
        doubles = [*doubles_of_each_kind(random.Random(6), 600)]
        self.assertGreater(len(doubles), 5000)
        found = _calls.readings(doubles)
        self.assertEqual(len(found), len(doubles))
        for double, (n, d) in zip(doubles, found):
            near = Fraction(double).limit_denominator(10000).denominator
            self.assertEqual(Fraction(n, d), by_definition(bits_of(double), [near]), double)

    def test_what_has_no_reading(self):
        none = [-5e-324, -0.5, 1 + 2**-52, 2.0, float("inf"), -float("inf"), float("nan")]
        self.assertEqual(_calls.readings(none), [(0, 0)] * 7)
        self.assertEqual(_calls.readings([-0.0, 0.0, 1.0]), [(0, 1), (0, 1), (1, 1)])
        self.assertEqual(_calls.readings([]), [])


class BesideFractions(unittest.TestCase):
    """Whether doubles beside small fractions are known, and a row is read to its total."""

    def test_the_table(self):
        """Whether what is beside a fraction is what the table says, which R reads too."""
        count = 0
        for (row,) in places.table("beside.txt"):
            digits, fraction, units = row.split()
            found = _beside.beside(double_of(int(digits, 16)))
            with self.subTest(row):
                self.assertEqual(found, None if fraction == "none" else (Fraction(fraction), int(units)))
            count += 1
        self.assertGreater(count, 12)

    def test_beside(self):
        for double, fraction, units in [(0.1 + 0.2, "3/10", 1), (0.05 / 7, "1/140", 1), (1 - 0.9, "1/10", -2), (0.1 + 0.05, "3/20", 1)]:
            with self.subTest(double):
                self.assertEqual(_beside.beside(double), (Fraction(fraction), units))
        for double in [0.0, 1.0, 0.5, 1 / 3, 0.123456789, 1e-300]:
            with self.subTest(double):
                self.assertIsNone(_beside.beside(double))
        self.assertEqual(str(_beside.beside(0.1 + 0.2)), "one unit in the last place above 3/10")

    def test_rows(self):
        self.assertEqual(welungad.as_exact([0.1 + 0.2, "0.7"]), [Fraction("0.30000000000000004"), Fraction(7, 10)])
        self.assertEqual(welungad.as_exact({"B": 0.5, "A": 1 / 3}), {"B": Fraction(1, 2), "A": Fraction(1, 3)})
        self.assertEqual(welungad.as_exact([0.1 + 0.2, 0.7], total=1), [Fraction(3, 10), Fraction(7, 10)])
        self.assertEqual(welungad.as_exact((0.1, 0.2, 0.1 + 0.2, 0.4), total="1"), [Fraction(k, 10) for k in (1, 2, 3, 4)])
        with self.assertRaisesRegex(ValueError, "^the row reads as 3/10 \\+ 3/5, which is 9/10, and not 1$"):
            welungad.as_exact([0.1 + 0.2, 0.6], total=1)
        with self.assertRaisesRegex(ValueError, ", and not 1$"):
            welungad.as_exact([0.5, "0.4999999999999999999"], total=1)
        exact = Fraction("0.30000000000000004")
        for given in [["0.30000000000000004", 0.7], [Decimal("0.30000000000000004"), 0.7], {"A": exact, "B": 0.7}]:
            with self.subTest(given), self.assertRaisesRegex(ValueError, "^the row reads as .*, which is .*, and not 1$"):
                welungad.as_exact(given, total=1)
        self.assertEqual(welungad.as_exact([exact, 0.1 + 0.2], total=exact + Fraction(3, 10)), [exact, Fraction(3, 10)])
        for given, total, message in [([0.5, "1e-9000"], 1, "1/2 \\+ a number of too many digits, which is a number of too many digits, and not 1"),
                                      ([0.5], "1e9000", "1/2, which is 1/2, and not a number of too many digits")]:
            with self.subTest(total), self.assertRaisesRegex(ValueError, f"^the row reads as {message}$"):
                welungad.as_exact(given, total=total)
        for given, total in [(0.5, 1), ([0.5, True], None), ([0.5, 0.5], True), ([[0.5], [0.5]], None)]:
            with self.subTest(given), self.assertRaises(TypeError):
                welungad.as_exact(given, total=total)


class Kinds(unittest.TestCase):
    """Whether exact numbers are taken as they are, and what is not a number is refused."""

    def test_exact(self):
        for given, value in [("1/40", "1/40"), ("2.5e-2", "1/40"), (" .5 ", "1/2"), ("5.", "5"), ("+1/2", "1/2"), (Decimal("0.10"), "1/10"),
                             (Decimal("1E-7"), "1e-7"), (Fraction(2, 7), "2/7"), (0, "0"), (1, "1"), ("1e-00001", "1/10"), ("0e99999", "0")]:
            with self.subTest(given):
                self.assertEqual(welungad.as_exact(given), Fraction(value.replace("0e99999", "0")))

    def test_arrays_of_python(self):
        self.assertEqual(welungad.as_exact(array.array("d", [0.1, 1 / 3])), [Fraction(1, 10), Fraction(1, 3)])
        with self.assertRaisesRegex(TypeError, "^numbers is of type array, whose numbers are not doubles"):
            welungad.as_exact(array.array("f", [0.1, 1 / 3]))

    def test_arrays_that_do_not_say_what_they_hold(self):
        class Column:
            """As an array of pyarrow, whose doubles may be short floats."""

            ndim = 1

            def __init__(self, values):
                self.values = values

            def tolist(self):
                return self.values

        class Itself:
            """A number of a class that Python has no other one for."""

            ndim = 0

            def tolist(self):
                return self

        with self.assertRaisesRegex(TypeError, "^number is a number, and not of type Itself$"):
            welungad.as_exact(Itself())
        self.assertEqual(welungad.as_exact(Column([0, "1/3"])), [0, Fraction(1, 3)])
        with self.assertRaisesRegex(TypeError, "^numbers is of type Column, whose numbers may not be doubles: give doubles"):
            welungad.as_exact(Column([0.10000000149011612]))

    def test_fields_with_names(self):
        class Records:
            """As an array of numpy with named fields, whose rows are tuples, here of short floats."""

            ndim = 1
            dtype = types.SimpleNamespace(kind="V", itemsize=8)

            def tolist(self):
                return [(0.029999999329447746, 0.019999999552965164)]

        for place in ("levels", "edges"):
            with self.subTest(place), self.assertRaisesRegex(TypeError, f"^{place} is of type .*, whose fields have names: give a frame, a dict or a list$"):
                _numbers.plain(Records(), place)

    def test_a_dictionary_of_pyarrow(self):
        class Dictionary:
            """As a column of pandas over a dictionary of pyarrow: its type has objects, which may be made of short floats."""

            ndim = 1
            dtype = types.SimpleNamespace(kind="O", itemsize=8, pyarrow_dtype="dictionary")

            def __init__(self, values):
                self.values = values

            def tolist(self):
                return self.values

        self.assertEqual(welungad.as_exact(Dictionary([0, "1/3"])), [0, Fraction(1, 3)])
        with self.assertRaisesRegex(TypeError, "^numbers is of type .*, whose numbers may not be doubles: give doubles"):
            welungad.as_exact(Dictionary([0.10000000149011612]))

    def test_numbers_with_a_unit(self):
        class Quantity:
            """As an array of astropy, or a number of it: its list has half a percent as 0.5."""

            unit = "%"
            dtype = types.SimpleNamespace(kind="f", itemsize=8)

            def __init__(self, values):
                self.values, self.ndim = values, int(isinstance(values, list))

            def tolist(self):
                return self.values

        for given in (Quantity(0.5), Quantity([0.5, 1.0]), [Quantity(0.5)], {"H1": Quantity(0.5)}):
            with self.assertRaisesRegex(TypeError, "is of type Quantity, whose numbers have a unit: give the numbers alone$"):
                welungad.as_exact(given)

    @unittest.skipUnless(pandas, "pandas is missing")
    def test_short_floats_in_pandas(self):
        short = pandas.Series([0.1, 0.2], dtype="float32")
        categories = short.astype("category")
        # before 2.0, pandas turns categories into doubles
        of_doubles = categories.dtype.categories.dtype == "float64"
        for given in [short, short.astype(pandas.SparseDtype("float32")), short.astype("Float32"), *([] if of_doubles else [categories])]:
            with self.subTest(given.dtype), self.assertRaisesRegex(TypeError, "^numbers is of type .*loat32.*, whose numbers are not doubles"):
                welungad.as_exact(given)
        whole = pandas.Series([0.1, 0.2])
        for given in [whole, whole.astype("category"), whole.astype(pandas.SparseDtype("float64")), whole.astype("Float64"), whole.astype(object)]:
            with self.subTest(given.dtype):
                self.assertEqual(welungad.as_exact(given), [Fraction(1, 10), Fraction(1, 5)])

    @unittest.skipUnless(pandas, "pandas is missing")
    def test_a_label_that_occurs_twice(self):
        self.assertEqual(welungad.as_exact(pandas.Series([0.1, 0.2], index=["A", "B"])), {"A": Fraction(1, 10), "B": Fraction(1, 5)})
        for label in ["A", 7, None]:
            with self.subTest(label), self.assertRaisesRegex(ValueError, f"^numbers: the label {label!r} occurs 2 times$"):
                welungad.as_exact(pandas.Series([0.1, 0.2], index=[label, label]))

    def test_no_numbers(self):
        for given in [True, False, None, b"0.5", 0.5j, object(), {0.5}, [None], iter([0.5])]:
            with self.subTest(given), self.assertRaises(TypeError):
                welungad.as_exact(given)

    def test_rationals_of_other_packages(self):
        class Third:
            """As a rational of gmpy2."""

            numerator, denominator = 1, 3

        class Methods:
            """As a rational of Sage, whose parts are methods."""

            def numerator(self):
                return 1

            denominator = numerator

        class NoParts:
            """As a rational of an early sympy, whose parts have other names."""

        for kind in (Third, Methods, NoParts):
            numbers.Rational.register(kind)
        self.assertEqual(welungad.as_exact(Third()), Fraction(1, 3))
        for given in [Methods(), NoParts()]:
            with self.subTest(given), self.assertRaisesRegex(TypeError, f"^number is a number, and not of type {type(given).__name__}$"):
                welungad.as_exact(given)

    def test_no_value(self):
        for given in ["", "x", "0.01 0.9", "0.5\n", "1/0", "1/2/3", "1_000", "٣", "nan", "inf", "0,5", "5%", "1e", "--1", Decimal("NaN"),
                      Decimal("Infinity"), Decimal("sNaN"), float("nan"), float("inf"), -0.1, 1.0000000000000002, "1e-999999999", "1" * 5000,
                      10**5000, Fraction(1, 10**5000), "0." + "3" * 5000]:
            with self.subTest(given), self.assertRaises(ValueError):
                welungad.as_exact(given)

    def test_one_function_writes_numbers(self):
        for given, text in [(1 / 3, "1/3"), (0.5, "1/2"), (1, "1"), (Fraction(4, 2), "2"), (" 0.50", "0.50"), (Decimal("0.50"), "0.50"),
                            (10**40, "1" + "0" * 40), (-0.0, "0")]:
            with self.subTest(given):
                self.assertEqual(_numbers.numeral(given, "it"), text)

    def test_the_place_is_named(self):
        with self.assertRaisesRegex(ValueError, "^p of 'H2' is nan, and not from 0 to 1$"):
            _numbers.numeral(float("nan"), "p of 'H2'")
        with self.assertRaisesRegex(TypeError, "^p of 'H2' is a number, and not True$"):
            _numbers.numeral(True, "p of 'H2'")

    def test_edges(self):
        for given in ["1-\\epsilon", " 1/2*\\epsilon^2 ", "(1-\\epsilon)/3", "2\\epsilon"]:
            self.assertEqual(_numbers.expression(given, "it"), given.strip())
        for given in ["", " ", "1\nedge A B 1", "1-e ps", "\\eps", "1;2", "1\r", "#"]:
            with self.subTest(given), self.assertRaises(ValueError):
                _numbers.expression(given, "it")

    def test_printed_doubles(self):
        for given in ["0.3333333333333333", Decimal("0.14285714285714285"), "0.00010001000100010001", "0.33333333333333331", "3.333333333333333148e-01"]:
            with self.subTest(given), self.assertWarnsRegex(welungad.PrintedDoubleWarning, "^number is the text '.*', which is taken as it is"):
                self.assertEqual(welungad.as_exact(given), Fraction(given))
        with warnings.catch_warnings():
            warnings.simplefilter("error")
            for given in ["0.333333333333333", "0.30000000000000004", "0.250000000000000", "1/3", 1 / 3, "0.33333333333333333333", "1e-300"]:
                welungad.as_exact(given)

    @unittest.skipUnless(numpy, "numpy is missing")
    def test_doubles_that_numpy_turned_into_texts(self):
        for given in [["1/3", 1 / 3], [["0.5", 1 / 7]]]:
            with self.subTest(given), self.assertRaisesRegex(TypeError, "^p has the text '0.(3+|142857.*)', which numpy made of the double 1/"):
                _numbers.plain(numpy.array(given), "p")
        self.assertEqual(_numbers.plain(numpy.array(["1/3", 0.25]), "p"), ["1/3", "0.25"])

    def test_whole_numbers(self):
        self.assertEqual(_numbers.whole(3, "it"), 3)
        for given in [True, 1.0, 1.9, "2", None, Fraction(2)]:
            with self.subTest(given), self.assertRaises(TypeError):
                _numbers.whole(given, "it")

    def test_numbers_that_print_as_others(self):
        class Whole(int):
            __str__ = __repr__ = lambda self: "7"

        class Double(float):
            __str__ = __repr__ = lambda self: "0.75"

        class Text(str):
            __str__ = __repr__ = lambda self: "0.75"

        class Exact(Fraction):
            __str__ = __repr__ = lambda self: "3/4"

        class Places(Decimal):
            __str__ = __repr__ = lambda self: "0.75"

        for given, text in [(Whole(1), "1"), (Double(0.5), "1/2"), (Text("0.5"), "0.5"), (Exact(1, 2), "1/2"), (Places("0.5"), "0.5")]:
            self.assertEqual(f"{_numbers.numeral(given, 'it')}", text)
        self.assertEqual(f"{_numbers.whole(Whole(2), 'it')}", "2")

    @unittest.skipUnless(numpy, "numpy is missing")
    def test_numpy(self):
        self.assertEqual(welungad.as_exact(numpy.float64(1) / 3), Fraction(1, 3))
        self.assertEqual(welungad.as_exact(numpy.array(0.025)), Fraction(1, 40))
        self.assertEqual(welungad.as_exact(numpy.int64(1)), 1)
        self.assertEqual(_numbers.whole(numpy.int32(2), "it"), 2)
        self.assertEqual(welungad.as_exact(numpy.str_("1/3")), Fraction(1, 3))
        for given in [numpy.float32(0.1), numpy.float16(0.1), numpy.longdouble(0.1), numpy.bool_(True), numpy.complex128(0.5),
                      numpy.array([[0.5]]), numpy.datetime64("2020-01-01")]:
            with self.subTest(repr(given)), self.assertRaises(TypeError):
                welungad.as_exact(given)
        # Python has these as whole numbers of nanoseconds
        for given in [numpy.timedelta64(1, "ns"), numpy.datetime64(0, "ns"), numpy.timedelta64(1), numpy.array(1, dtype="m8[ns]")]:
            for call in [_numbers.numeral, _numbers.whole]:
                with self.subTest(repr(given)), self.assertRaisesRegex(TypeError, "^it is of type (timedelta|datetime)64.*, and times are no numbers$"):
                    call(given, "it")
        for given in [numpy.float64("nan"), numpy.float64(-0.1)]:
            with self.subTest(given), self.assertRaises(ValueError):
                welungad.as_exact(given)


if __name__ == "__main__":
    unittest.main()
