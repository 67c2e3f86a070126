"""Tests of the examples in the page and in the docstrings: what they print is what they say."""
import doctest
import os
import unittest

import places
from welungad import _beside, _graph

PAGE = os.path.join(places.TOP, "python", "README.md")
FLAGS = doctest.ELLIPSIS


class Documents(unittest.TestCase):
    """Whether each example prints what is written below it."""

    def hold(self, result):
        self.assertGreater(result.attempted, 0)
        self.assertEqual(result.failed, 0)

    @unittest.skipUnless(os.path.isfile(PAGE), f"{PAGE} is missing")
    def test_the_page(self):
        self.hold(doctest.testfile(PAGE, module_relative=False, optionflags=FLAGS, encoding="utf-8"))

    def test_docstrings(self):
        for module in (_beside, _graph):
            self.hold(doctest.testmod(module, optionflags=FLAGS))


if __name__ == "__main__":
    unittest.main()
