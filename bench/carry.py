#!/usr/bin/env python3
"""Measures how far numbers carry: of random graphs of each kind and size, how many the program refuses as too wide.

    bench/carry.py [--graphs N] [--seed S] [--sizes N,N,..] [--kinds WORD,WORD,..] [--program PATH]

A number of the program has parts below 2^127 and a degree in epsilon of at most 32. Each graph has weights of 1 over the number of
hypotheses, and all p-values are 0, so that everything is rejected and each number of the run is written. Prints a table in Markdown
with a row for each kind and a column for each size. A cell has three numbers with slashes between: of N (20) graphs, how many `test`
refuses, how many `evidence` refuses, and for how many of the latter `check` also refuses what tools/make_evidence.py makes. The last
is not tried for more than 16 hypotheses. Ends with status 1 if the program refuses a graph for another cause.
"""
import argparse
import os
import random
import re
import subprocess
import sys
import tempfile
from fractions import Fraction

HERE = os.path.dirname(os.path.abspath(__file__))
sys.path.insert(0, os.path.join(HERE, "..", "tools"))
import make_evidence  # noqa: E402

PROGRAM = os.path.join(HERE, "..", "crates", "welungad", "out", "welungad")
DONE, TOO_WIDE = 0, 5
MOST_CHECKED = 16  # hypotheses of a graph whose evidence is made and checked


# ---- graphs: the expression of each edge, by its two ends


def parts_of(rng, total, count):
    """Returns the requested number of random whole numbers above 0 with this total."""
    cuts = sorted(rng.sample(range(1, total), count - 1))
    return [b - a for a, b in zip([0, *cuts], [*cuts, total])]


def rows_of(rng, size, count, expressions):
    """Edges from each hypothesis to some others, with expressions that a function makes for each row."""
    edges = {}
    for i in range(size):
        ends = rng.sample([j for j in range(size) if j != i], min(count, size - 1))
        edges.update(zip([(i, j) for j in ends], expressions(rng, len(ends))))
    return edges


def holm(_, size):
    return {(i, j): f"1/{size - 1}" for i in range(size) for j in range(size) if i != j}


def fallback(_, size):
    return {(i, i + 1): "1" for i in range(size - 1)}


def multiples(count, denominator):
    """Rows of some edges that are multiples of 1 over a denominator; over a power of ten they are decimals."""
    def row(rng, ends):
        return [str(Fraction(part, denominator)) for part in parts_of(rng, denominator, ends)]
    return lambda rng, size: rows_of(rng, size, count, row)


def alike(count, expression):
    """Rows of some edges that are the same in each row."""
    return lambda rng, size: rows_of(rng, size, count, lambda _, ends: [expression] * ends)


def small(count):
    """Rows of some edges, the first of which is epsilon and the others of which are equal."""
    return lambda rng, size: rows_of(rng, size, count, lambda _, ends: ["\\epsilon", *[f"(1-\\epsilon)/{max(1, ends - 1)}"] * (ends - 1)])


def families(_, size):
    """Returns two Holm families, each hypothesis of which passes epsilon to the one at its place in the other family."""
    half = size // 2
    edges = {}
    for first in (0, half):
        for i in range(half):
            edges.update({(first + i, first + j): f"(1-\\epsilon)/{half - 1}" for j in range(half) if j != i})
            edges[first + i, half - first + i] = "\\epsilon"
    return edges


KINDS = {
    "holm": ("Holm", holm),
    "fallback": ("fallback", fallback),
    "two": ("three edges a row, two decimals", multiples(3, 100)),
    "three": ("three edges a row, three decimals", multiples(3, 1000)),
    "dense": ("all edges, two decimals", lambda rng, size: multiples(size - 1, 100)(rng, size)),
    "rounded": ("three edges a row, of 0.333 each", alike(3, "0.333")),
    "thirds": ("three edges a row, of 1/3 each", alike(3, "1/3")),
    "twelfths": ("three edges a row, twelfths", multiples(3, 12)),
    "tenths": ("three edges a row, tenths", multiples(3, 10)),
    "quarters": ("three edges a row, quarters", multiples(3, 4)),
    "epsilon": ("three edges a row, one of them epsilon", small(3)),
    "families": ("two Holm families joined by epsilon", families),
}


# ---- the program


def case_of(edges, size):
    lines = ["alpha 0.05", " ".join(["hypotheses", *(f"H{i}" for i in range(size))]), "p" + " 0" * size, f"weights{f' 1/{size}' * size}"]
    return "\n".join([*lines, *(f"edge H{i} H{j} {edge}" for (i, j), edge in sorted(edges.items())), ""])


def is_too_wide(program, command, case):
    """Whether a command is refused for the size of a number; `check` may find it in the document that it reads."""
    done = subprocess.run([program, *command], input=case.encode(), stdout=subprocess.PIPE, check=False, timeout=600)
    is_long = re.fullmatch(rb"malformed: proof line [0-9]+: number\n", done.stdout)
    if done.returncode not in (DONE, TOO_WIDE) and not is_long:
        sys.exit(f"carry.py: {command[0]} ended with status {done.returncode}: {done.stdout[:200].decode()}\n{case}")
    return done.returncode != DONE


def is_unchecked(program, case):
    """Whether `check` refuses the evidence of tools/make_evidence.py."""
    with tempfile.NamedTemporaryFile("w", suffix=".txt") as file:
        file.write("\n".join([*make_evidence.evidence(make_evidence.Case(case)), ""]))
        file.flush()
        return is_too_wide(program, ["check", file.name], case)


def cell(words, kind, size):
    """Returns how many graphs of a kind and a size are refused, by each command."""
    counts = [0, 0, 0]
    for n in range(words.graphs):
        case = case_of(KINDS[kind][1](random.Random(f"{words.seed}/{kind}/{size}/{n}"), size), size)
        counts[0] += is_too_wide(words.program, ["test"], case)
        if is_too_wide(words.program, ["evidence"], case):
            counts[1] += 1
            counts[2] += size <= MOST_CHECKED and is_unchecked(words.program, case)
    return "/".join(map(str, counts if size <= MOST_CHECKED else counts[:2]))


def main():
    parser = argparse.ArgumentParser(description=__doc__, formatter_class=argparse.RawDescriptionHelpFormatter)
    parser.add_argument("--graphs", type=int, default=20)
    parser.add_argument("--seed", default="1")
    parser.add_argument("--sizes", default="4,6,8,10,12,16,24,32,64")
    parser.add_argument("--kinds", default=",".join(KINDS))
    parser.add_argument("--program", default=PROGRAM)
    words = parser.parse_args()
    sizes = [int(size) for size in words.sizes.split(",")]
    print(" | ".join(["| Graph", *(f"{size}" for size in sizes)]) + " |")
    print("|---" * (len(sizes) + 1) + "|")
    for kind in words.kinds.split(","):
        print(" | ".join([f"| {KINDS[kind][0]}", *(cell(words, kind, size) for size in sizes)]) + " |", flush=True)


if __name__ == "__main__":
    main()
