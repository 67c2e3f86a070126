#!/usr/bin/env python3
"""Measures calls of `test` from Python: in process through the package, and by the program, started for each call.

    calls.py PROGRAM FILE CALLS STARTS

prints, in microseconds: the processor time of a call of `run`; that of a call of `test`, which also reads the report; the time of a
started program; and the processor time of a call of `Graph.test` with doubles, which also writes the case. Each is the least of
five rounds. FILE is a case of one graph.
"""
import json
import os
import subprocess
import sys
import time
from fractions import Fraction

sys.path.insert(0, os.path.join(os.path.dirname(os.path.abspath(__file__)), "..", "python"))
import welungad

ROUNDS = 5


def least(make, count, clock):
    """Returns the least time of a call, over the rounds."""
    times = []
    for _ in range(ROUNDS):
        begin = clock()
        for _ in range(count):
            make()
        times.append((clock() - begin) / count * 1e6)
    return min(times)


def graph_of(text):
    """Returns the graph of a case, its p-values as doubles, and its level."""
    found = json.loads(welungad.canon(text, to="json"))
    (component,) = found["components"]
    edges = {(edge["from"], edge["to"]): edge["weight"] for edge in component["edges"]}
    graph = welungad.Graph(component["weights"], edges, found["hypotheses"])
    return graph, [float(Fraction(p)) for p in found["p"]], found["alpha"]


program, file, calls, starts = sys.argv[1], sys.argv[2], int(sys.argv[3]), int(sys.argv[4])
with open(file, "rb") as opened:
    case = opened.read()
graph, p, alpha = graph_of(case)


def start():
    return subprocess.run([program, "test"], input=case, stdout=subprocess.PIPE, check=True)


assert (0, start().stdout) == welungad.run(["test"], case)
assert graph.test(p, alpha).report.encode() == start().stdout
print(f"{least(lambda: welungad.run(['test'], case), calls, time.process_time):.1f}",
      f"{least(lambda: welungad.test(case), calls, time.process_time):.1f}",
      f"{least(start, starts, time.perf_counter):.0f}",
      f"{least(lambda: graph.test(p, alpha), calls, time.process_time):.1f}")
