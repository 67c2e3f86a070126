#!/usr/bin/env python3
"""Compares rows of p-values that the C library decides in one call with `test` on the same fractions.

    bench/rows.py [--graphs N] [--rows N] [--seed S]

Draws N random graphs (200) of 1 to 6 hypotheses, some with several components or with epsilon, and N rows (500) of doubles for each:
typed numbers, values of a simulation, products of a weight and the level and the doubles next to them, and values that have no
reading. `welungad_test_rows` decides the rows of a graph in one call. Of each row it checks:

- its status is 3 exactly if a value is a NaN, below 0 or above 1, and then all of its marks are 0;
- else `test`, on the graph with the fractions that `welungad_read` gives, rejects the hypotheses with a 1 and no other. Status 5 is
  `too wide` in a step of the decision.

Prints each difference and a line of figures. Ends with status 1 if there is a difference. Needs the library, which c/build.sh makes
or the environment variable WELUNGAD_LIBRARY names, and Python 3.9.
"""
import argparse
import collections
import ctypes
import math
import os
import random
import sys
from fractions import Fraction

HERE = os.path.dirname(os.path.abspath(__file__))
sys.path[:0] = [HERE, os.path.join(os.path.dirname(HERE), "python")]
import hostile
import welungad
from welungad import _library

NO_READINGS = [math.nan, math.inf, -math.inf, -0.5, -5e-324, math.nextafter(1, 2), 2.0]


# ---- the calls


def library():
    """Loads the library."""
    loaded = ctypes.CDLL(_library.library_path() or _library.LIBRARY)
    loaded.welungad_read.restype = loaded.welungad_test_rows.restype = ctypes.c_uint8
    return loaded


def slices(*arrays):
    """Returns the arguments for arrays: each with its length."""
    return [it for array in arrays for it in (array, ctypes.c_size_t(len(array)))]


def bits_of(values):
    """Returns the bits of doubles."""
    doubles = (ctypes.c_double * len(values))(*values)
    return (ctypes.c_uint64 * len(values)).from_buffer(doubles)


def readings(loaded, values):
    """Returns the fractions that doubles are read as; nothing for one without a reading."""
    words = (ctypes.c_uint64 * (4 * len(values)))()
    assert loaded.welungad_read(*slices(bits_of(values), words)) == 0
    parts = [(words[k] + (words[k + 1] << 64), words[k + 2] + (words[k + 3] << 64)) for k in range(0, len(words), 4)]
    return [Fraction(num, den) if den else None for num, den in parts]


def decided(loaded, graph, rows):
    """Returns the marks and the status of each row."""
    size = len(rows[0])
    marks, statuses = (ctypes.c_uint8 * (size * len(rows)))(), (ctypes.c_uint8 * len(rows))()
    values = [value for row in rows for value in row]
    status = loaded.welungad_test_rows(*slices(graph.encode(), bits_of(values), marks, statuses))
    assert status == 0, f"status {status} of\n{graph}"
    return [(list(marks[k * size:(k + 1) * size]), statuses[k]) for k in range(len(rows))]


def tested(graph, fractions):
    """Returns the marks and the status that `test` gives a row: 5 if its decision is too wide, and no marks if only another number is."""
    level, names, *rest = graph.split("\n")
    given = "p " + " ".join(map(str, fractions))
    status, text = welungad.run(["test"], "\n".join([level, names, given, *rest]))
    lines = text.decode().split("\n")
    names = names.split(" ")[1:]
    if status == 0:
        rejected = next(line for line in lines if line.startswith("rejected")).split(" ")[1:]
        return [int(name in rejected) for name in names], 0
    if status == 5 and lines[0].startswith("too wide: adjusted"):
        return None, 0
    return [0] * len(names), status


# ---- random graphs and rows


def graph_of(rng):
    """Returns a random graph without p-values and without stages, which the program takes and can open."""
    while True:
        lines = [line for line in hostile.text_of(rng).split("\n") if not line.startswith("p ")]
        graph = "\n".join(lines)
        size = len(lines[1].split(" ")) - 1
        if "stages" not in graph and tested(graph, [Fraction(1)] * size)[1] == 0:
            return graph


def value_of(rng, level):
    """Returns a double."""
    near = float(level * Fraction(rng.randrange(0, 9), rng.randrange(1, 13)))
    kind = rng.random()
    if kind < 0.3:
        return float(hostile.p_value(rng))
    if kind < 0.5:
        return rng.random() ** 4
    if kind < 0.75:
        return min(near, 1.0)
    if kind < 0.97:
        return min(math.nextafter(near, rng.choice([-1, 2])), 1.0) if near else rng.choice([0.0, -0.0, 5e-324])
    return rng.choice(NO_READINGS)


def differences(loaded, graph, rows, counts):
    """Yields a line for each row that is decided in another way than by `test`."""
    for row, (marks, status) in zip(rows, decided(loaded, graph, rows)):
        fractions = readings(loaded, row)
        if None in fractions:
            has_reading = [0 <= value <= 1 for value in row] == [it is not None for it in fractions]
            wanted = ([0] * len(row), 3) if has_reading else (None, None)
        else:
            wanted = tested(graph, fractions)
        counts[f"status {status}"] += 1
        counts["rejections"] += sum(marks)
        if wanted[1] != status or (wanted[0] is not None and wanted[0] != marks):
            yield f"{row}: {marks} {status}, and by test {wanted[0]} {wanted[1]}, of\n{graph}"


def main(words):
    parser = argparse.ArgumentParser(description=__doc__.split("\n")[0])
    parser.add_argument("--graphs", type=int, default=200)
    parser.add_argument("--rows", type=int, default=500)
    parser.add_argument("--seed", type=int, default=1)
    asked = parser.parse_args(words)
    rng, loaded, counts, found = random.Random(asked.seed), library(), collections.Counter(), 0
    for _ in range(asked.graphs):
        graph = graph_of(rng)
        level = Fraction(graph.split("\n")[0].split(" ")[1])
        size = len(graph.split("\n")[1].split(" ")) - 1
        rows = [[value_of(rng, level) for _ in range(size)] for _ in range(asked.rows)]
        for line in differences(loaded, graph, rows, counts):
            found += 1
            print(line)
    figures = ", ".join(f"{number} {what}" for what, number in sorted(counts.items()))
    print(f"{asked.graphs} graphs of {asked.rows} rows: {figures}, {found} differences")
    return 1 if found else 0


if __name__ == "__main__":
    sys.exit(main(sys.argv[1:]))
