#!/usr/bin/env python3
"""Compares `welungad_update` of the C library with two scripts of tools, on graphs that it makes from a seed.

    bench/updates.py [--graphs N] [--most M] [--seed S] [--jobs J] [--library PATH]

For each graph an order of all hypotheses is drawn, and the call is made on every beginning of it. The levels have to be the weights
of tools/closed_test.py, which removes nothing from a graph. The weights and edges of each component have to be those of
tools/make_evidence.py, in whole numbers of any size, and no other edge may be there. Numbers are compared as quotients, by their
cross products. A third of the graphs have epsilon, and there are 1 to 4 components.

Where the call answers that a number is too wide (status 5), nothing is compared; these calls are counted apart. Prints how many
calls were compared, and each disagreement with the number of its graph, and ends with status 1 if there is one.
"""
import argparse
import collections
import ctypes
import multiprocessing
import os
import random
import sys
from fractions import Fraction

HERE = os.path.dirname(os.path.abspath(__file__))
TOP = os.path.dirname(HERE)
sys.path[:0] = [os.path.join(TOP, "tools"), HERE]
import make_evidence  # noqa: E402
from check_evidence import case_of  # noqa: E402
from checkers import edges_of, shares  # noqa: E402
from closed_test import weights_in  # noqa: E402

DONE, TOO_WIDE, ROOM = 0, 5, 7


def loaded(path):
    """Returns the call of the library."""
    call = ctypes.CDLL(path).welungad_update
    call.restype = ctypes.c_uint8
    call.argtypes = [ctypes.c_char_p, ctypes.c_size_t, ctypes.POINTER(ctypes.c_size_t), ctypes.c_size_t, ctypes.c_char_p, ctypes.c_size_t,
                     ctypes.POINTER(ctypes.c_size_t)]
    return call


def updated(call, text, removed):
    """Returns the status and the text of a call."""
    room, needed = 4096, ctypes.c_size_t()
    while True:
        out = ctypes.create_string_buffer(room)
        status = call(text, len(text), (ctypes.c_size_t * len(removed))(*removed), len(removed), out, room, ctypes.byref(needed))
        if status != ROOM:
            return status, out.raw[: needed.value].decode()
        room = needed.value


def quotient(text):
    """Returns the numerator and the denominator of a number of a text, as polynomials."""
    parts = text.split("/") if "[" in text else [f"[{part}]" for part in (text.split("/") + ["1"])[:2]]
    return [make_evidence.cut([int(x) for x in part[1:-1].split(",")]) for part in parts]


def is_same(text, above, below):
    over, under = quotient(text)
    return make_evidence.times(over, below) == make_evidence.times(under, above)


def graph_text(rng, number, most):
    """Returns the text of a graph with p-values, all of which are 1."""
    size, count = rng.randrange(1, most + 1), rng.choice([1, 1, 2, 3, 4])
    names = [f"H{i + 1}" for i in range(size)]
    parts = shares(rng, count) if count > 1 else [Fraction(1)]
    lines = ["alpha 1/20", " ".join(["hypotheses", *names]), " ".join(["p", *["1"] * size])]
    for share in parts:
        lines += [f"component {share}"] if count > 1 else []
        lines.append(" ".join(["weights", *map(str, shares(rng, size))]))
        lines += [f"edge {names[i]} {names[j]} {edge}" for (i, j), edge in edges_of(rng, size, number % 3 == 0).items()]
    return "\n".join(lines) + "\n"


def edge_parts(part, left):
    """Returns the numerator and the denominator of each edge that is not 0 among the hypotheses that are left."""
    arriving, edges = {k: part.exits(k) for k in left}, {}
    for i in left:
        row = [part.edges[i][r] for r in part.passing]
        below = make_evidence.plus(make_evidence.times(part.determinant, [part.scales[i]]), make_evidence.dot(row, arriving[i]), -1)
        for j in left:
            above = make_evidence.plus(make_evidence.times(part.edges[i][j], part.determinant), make_evidence.dot(row, arriving[j]))
            if i != j and above and below:
                edges[i, j] = above, below
    return edges


def weight_parts(part, k):
    """Returns the numerator and the denominator of the weight of a hypothesis that is left."""
    above = make_evidence.dot([part.determinant, *part.arriving], [part.weights[k], *(part.edges[s][k] for s in part.passing)])
    return above, make_evidence.times(part.determinant, [part.whole])


def component_findings(part, names, left, lines):
    """Yields what is wrong with the lines of a component."""
    edges = edge_parts(part, left)
    expected = []
    for i in left:
        expected.append((["weight", names[i]], weight_parts(part, i)))
        expected += [(["edge", names[i], names[j]], edges[i, j]) for j in left if (i, j) in edges]
    if [line[:-1] for line in lines] != [words for words, _ in expected]:
        yield f"the lines {[line[:-1] for line in lines]} are not {[words for words, _ in expected]}"
        return
    for line, (_, number) in zip(lines, expected):
        if not is_same(line[-1], *number):
            yield f"{' '.join(line)}: not {number}"


def text_findings(text, case, closed, left):
    """Yields what is wrong with the text of a graph after removals."""
    names = closed.names
    blocks, levels, lines = [], [], [line.split(" ") for line in text.split("\n")]
    if lines[-2:] != [["end"], [""]]:
        yield "no end"
    for line in lines[:-2]:
        if line[0] == "component":
            blocks.append([])
            if line != ["component", str(len(blocks))]:
                yield f"the line {line}"
        elif line[0] == "level":
            levels.append(line[1:])
        else:
            (blocks[-1] if not levels else levels).append(line)
    if len(blocks) != len(case.components):
        yield f"{len(blocks)} components"
        return
    for part, block in zip(case.components, blocks):
        yield from component_findings(part, names, left, block)
    weights = weights_in(closed, left) if left else {}
    if levels != [[names[k], str(weights[k])] for k in left]:
        yield f"the levels {levels} are not {weights}"


def compared(job):
    """Compares the calls on a graph. Returns how they ended, and the disagreements."""
    seed, number, most, library = job
    rng = random.Random(f"{seed} {number}")
    text = graph_text(rng, number, most)
    closed, case, call = case_of(text.encode(), "text", None), make_evidence.Case(text), loaded(library)
    order, counts, findings = rng.sample(range(len(closed.names)), len(closed.names)), collections.Counter(), []
    for count in range(len(order) + 1):
        status, graph = updated(call, text.encode(), order[:count])
        left = [k for k in range(len(order)) if k not in order[:count]]
        if status == DONE:
            counts["compared"] += 1
            counts["edges"] += graph.count("\nedge ")
            findings += [f"graph {number}, removed {order[:count]}: {finding}" for finding in text_findings(graph, case, closed, left)]
        elif status == TOO_WIDE:
            counts["too wide"] += 1
        else:
            findings.append(f"graph {number}, removed {order[:count]}: status {status}")
        if count < len(order):
            for part in case.components:
                part.remove(order[count])
    return counts, findings


def main():
    parser = argparse.ArgumentParser(description=__doc__, formatter_class=argparse.RawDescriptionHelpFormatter)
    parser.add_argument("--graphs", type=int, default=2000)
    parser.add_argument("--most", type=int, default=6)
    parser.add_argument("--seed", type=int, default=1)
    parser.add_argument("--jobs", type=int, default=2)
    parser.add_argument("--library", default=os.path.join(TOP, "c", "out", "libwelungad.so"))
    words = parser.parse_args()
    total, findings = collections.Counter(), []
    with multiprocessing.Pool(words.jobs) as pool:
        jobs = [(words.seed, number, words.most, words.library) for number in range(words.graphs)]
        for counts, found in pool.imap(compared, jobs, 50):
            total += counts
            findings += found
    print("\n".join(findings[:50]) + "\n" if findings else "", end="")
    print(f"{words.graphs} graphs, {total['compared']} calls compared, {total['edges']} edges, {total['too wide']} too wide, "
          f"{len(findings)} disagreements")
    sys.exit(bool(findings))


if __name__ == "__main__":
    main()
