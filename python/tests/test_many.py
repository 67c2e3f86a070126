"""Tests of many rows of p-values: by one call for a block of rows of doubles, and row by row."""
import random
import shutil
import subprocess
import unittest
from fractions import Fraction
from unittest import mock

import test_library
import welungad
from welungad import _calls, _graph, _trials

THIRD = Fraction(1, 3)


def holm(names=None):
    return welungad.Graph([THIRD] * 3, [[0, 0.5, 0.5], [0.5, 0, 0.5], [0.5, 0.5, 0]], names)


def row_by_row(graph, rows, **how):
    """Returns the decisions without the call for rows."""
    with mock.patch.object(_trials, "has_rows", return_value=False):
        return graph.test_many(rows, **how)


@unittest.skipUnless(_calls.has_rows(), "the library is an older one")
class Blocks(unittest.TestCase):
    """Whether the call for a block of rows decides as `test` does."""

    def test_as_row_by_row(self):
        random.seed(3)
        rows = [[random.random() ** 4 for _ in range(3)] for _ in range(1100)]
        rows[5], rows[600], rows[700] = [0, 1, 0.005], [THIRD / 40, 0.01, "1/40"], [0.025 / 3, 0.0125, 0.025]
        graph = holm(("a b", "a_b", "C"))
        for alpha in ("0.025", 0.05):
            found, wanted = graph.test_many(rows, alpha), row_by_row(graph, rows, alpha=alpha)
            self.assertEqual(found, wanted)
            self.assertTrue(0 < sum(found.counts().values()) < 3300)

    def test_how_often_it_calls(self):
        rows = [[0.001, 0.9, 0.9]] * 1025
        with mock.patch.object(_trials, "test_rows", wraps=_calls.test_rows) as call:
            self.assertEqual(holm().test_many(rows).counts(), {"H1": 1025, "H2": 0, "H3": 0})
            self.assertEqual([it.args[2] for it in call.call_args_list], [512, 512, 1])
            call.reset_mock()
            holm().test_many([])
            holm().test_many([["0.1", 0.1, 0.1]])
            call.assert_not_called()

    def test_rows_without_a_decision(self):
        rows = [[0.01, 0.9, 0.9], [0.5, float("nan"), 0.1], [-0.1, 0.1, 0.1], [0.1, 0.1, 1 + 2**-52], [-0.0, 0.9, 0.9], [float("inf"), 0, 0]]
        found = holm().test_many(rows * 300)
        self.assertEqual(found.statuses, (0, 3, 3, 3, 0, 3) * 300)
        self.assertEqual(found.rejected[:6], ((False,) * 3, None, None, None, (True, False, False), None))
        self.assertEqual(found.refused[2], "row 2: the p-value of 'H2' is nan, and not from 0 to 1")
        self.assertEqual(found.refused[1798], "row 1798: the p-value of 'H3' is 1.0000000000000002, and not from 0 to 1")
        self.assertEqual(found, row_by_row(holm(), rows * 300))
        for wrong in [[True, 0.1, 0.1], [None, 0.1, 0.1]]:
            with self.assertRaisesRegex(TypeError, "^row 2: the p-value of 'H1' is a number, and not"):
                holm().test_many([rows[0], wrong])

    def test_a_row_that_is_too_wide(self):
        edges = [[0, "1/1000000000000000000", 0, 0], [0, 0, "1/999999999999999999", 0], [0, 0, 0, "1/999999999999999997"], [0] * 4]
        found = welungad.Graph([1, 0, 0, 0], edges).test_many([[1.0] * 4, [0.0] * 4, [0.01, 1.0, 1.0, 1.0]], 0.05)
        self.assertEqual((found.statuses, found.rejected[1]), ((0, welungad.TOO_WIDE, 0), None))
        self.assertEqual(found.rejected[2], (True, False, False, False))
        self.assertRegex(found.refused[2], "^too wide: step [0-9]: ")

    def test_adjusted_values_that_are_too_wide(self):
        graph = welungad.Graph(["999999999999999967/999999999999999989", 0], [[0, 1], [1, 0]])
        rows = [[1.2345678901234567e-14, 0.9]]
        self.assertEqual(graph.test_many(rows).rejected, ((True, False),))
        self.assertEqual(row_by_row(graph, rows).statuses, (welungad.TOO_WIDE,))

    def test_out_of_memory_in_a_row(self):
        graph = holm()
        with mock.patch.object(_graph, "run", lambda words, *given: (8, b"no memory\n") if words[0] == "test" else _calls.run(words, *given)):
            with self.assertRaises(welungad.Refused) as caught:
                graph.test_many([["0.1", "0.1", "0.1"]])
        self.assertEqual((caught.exception.status, caught.exception.line), (welungad.NO_MEMORY, "no memory"))

    def test_what_is_no_answer(self):
        for status, marks, statuses in [(11, b"\0" * 3, b"\0"), (3, b"\0" * 3, b"\0"), (0, b"\2\0\0", b"\0"), (0, b"\0" * 3, b"\3"), (0, b"\0" * 3, b"\5")]:
            with mock.patch.object(_trials, "test_rows", return_value=(status, marks, statuses)), self.assertRaises(welungad.BadAnswer):
                holm().test_many([[0.1, 0.1, 0.1]])
        with mock.patch.object(_trials, "test_rows", return_value=(8, b"\0" * 3, b"\0")), self.assertRaises(welungad.Refused):
            holm().test_many([[0.1, 0.1, 0.1]])
        with mock.patch.object(_trials, "test_rows", return_value=(5, b"\0" * 3, b"\0")):
            self.assertEqual(holm().test_many([[0.001, 0.1, 0.1]]).rejected, ((True, False, False),))


class Older(test_library.Rooms):
    """Whether a library without the calls on numbers reads no doubles, and what answers otherwise is refused."""

    @unittest.skipUnless(shutil.which("cc"), "cc is missing")
    def test_an_older_library(self):
        folder, made = self.put_package("x"), self.room + "/libwelungad.so"
        code = test_library.SOURCE + test_library.INTERFACE % 1 + test_library.RUN
        reads = "uint8_t welungad_read(const uint64_t *b, uint64_t n, uint64_t *o, uint64_t k) { for (; k; k--) o[k - 1] = k % 2; return n == 9; }\n"
        statement = "import welungad; from welungad import _calls; print(_calls.has_rows(), welungad.as_exact(0.3))"
        for more, wanted in [("", f"OSError: {made} is an older library, which reads no doubles: give fractions, decimals or texts, or install a later one\n"),
                             (reads, "False 1\n"), (reads.replace("k % 2", "0"), "welungad._refusals.BadAnswer: what answered has no reading of 0.3\n"),
                             (reads.replace("n == 9", "11"), "welungad._refusals.BadAnswer: the call that reads doubles ended with status 11\n")]:
            subprocess.run(["cc", "-shared", "-fPIC", "-o", made, self.put("lib.c", (code + more).encode())], check=True)
            self.stamp(made)
            said = test_library.say(folder, statement, WELUNGAD_LIBRARY=made)
            self.assertTrue(said.endswith(wanted), (more, said))


if __name__ == "__main__":
    unittest.main()
