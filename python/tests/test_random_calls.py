"""Tests of random calls: against the program, and from several threads at once. random_calls.py makes more of them."""
import unittest

import random_calls
from welungad import _library

try:
    PROGRAM = _library.program_path()
except OSError:
    PROGRAM = ""


class Random(unittest.TestCase):
    """Whether random calls have the answers that they must have."""

    @unittest.skipUnless(PROGRAM, "the program welungad is missing")
    def test_the_program_answers_the_same(self):
        differences, decided = random_calls.compare(300, 7, PROGRAM)
        self.assertEqual(differences, [])
        self.assertGreater(decided, 200)

    def test_threads(self):
        made, wrong = random_calls.run_threads(8, 2, 3)
        self.assertEqual(wrong, 0)
        self.assertGreater(made, 100)


if __name__ == "__main__":
    unittest.main()
