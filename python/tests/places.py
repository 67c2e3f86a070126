"""Where the tests find what is beside the package: the checkout, or the folder of an installation that has the same order.

The environment variable WELUNGAD_TOP names it if the tests were copied away from there, to try a package that is installed.
"""
import os
import unittest

TOP = os.environ.get("WELUNGAD_TOP") or os.path.normpath(os.path.join(os.path.dirname(os.path.abspath(__file__)), "..", ".."))
EXAMPLES = os.path.join(TOP, "examples")
ROWS = os.path.join(TOP, "crates", "acceptance", "data")

needs_rows = unittest.skipUnless(os.path.isdir(ROWS), f"{ROWS} is missing")


def table(name):
    """Yields the rows of a table of this folder that R reads too: the parts of a line, which are parted by |."""
    with open(os.path.join(os.path.dirname(os.path.abspath(__file__)), name), encoding="utf-8") as file:
        for line in file:
            if not line.startswith("#"):
                yield [part.strip() for part in line.split("|")]


def example(name):
    """Returns the text of an example."""
    with open(os.path.join(EXAMPLES, name), encoding="utf-8") as file:
        return file.read()
