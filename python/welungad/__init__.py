"""Welungad in Python: graphical multiple tests with exact results, by the proved library libwelungad.

    import welungad

    graph = welungad.Graph({"low dose": "1/2", "high dose": "1/2"}, [[0, 1], [1, 0]])
    decision = graph.test({"low dose": 0.01, "high dose": 0.02}, alpha=0.025)
    decision.rejected                   # ('low dose', 'high dose')
    decision.adjusted["low dose"].p     # Fraction(1, 50)

`Graph` is made of numbers of Python, and its methods decide with it. `Study` keeps the looks of a staged trial in a file. The
functions named as the commands (`test`, `weights`, `bounds`, `simes`, `evidence`, `check`, `stages`, `canon`) take a case as a
text, as `str` or `bytes`. `run` makes one call and returns its status and its text.

All results are exact fractions. The package decides nothing itself: it hands the proved call what it was given, or says why it
does not. It raises `Refused` if the proved call refuses, and `BadAnswer` if what answered is not Welungad.

The library is the file that the environment variable WELUNGAD_LIBRARY names; else libwelungad.so in this package; else the one of
the checkout or of the installation that the package lies in; else the one below Python's own prefix; else the one that the system's
loader finds.

Calls from several threads run side by side. A call that has begun cannot be stopped.
"""
from ._beside import BesideWarning, ZeroWarning, as_exact
from ._commands import Level, bounds, canon, check, evidence, simes, stages, test, weights
from ._graph import Graph
from ._library import INTERFACE
from ._calls import DONE, LIMIT, MALFORMED, NO, NO_MEMORY, TOO_WIDE, UNREADABLE_WORDS, USAGE, Text, run
from ._numbers import Given, PrintedDoubleWarning
from ._refusals import BadAnswer, Refused, explain
from ._results import (Adjusted, Answer, Arrival, Bounds, Checked, Component, Decision, Evidence, Flow, Listed, Look, Number, Page, Picture,
                       Quotient, RefusedLook, Settled, Shown, Simes, Stages, Step, Tested, Trials, Weights)
from ._study import RefusedLooks, Study

__version__ = "0.2.0"

__all__ = [
    "Adjusted", "Answer", "Arrival", "BadAnswer", "BesideWarning", "Bounds", "Checked", "Component", "DONE", "Decision", "Evidence",
    "Flow", "Given", "Graph", "INTERFACE", "LIMIT", "Level", "Listed", "Look", "MALFORMED", "NO", "NO_MEMORY", "Number", "Page", "Picture",
    "PrintedDoubleWarning", "Quotient", "Refused", "RefusedLook", "RefusedLooks", "Settled", "Shown", "Simes", "Stages", "Step", "Study", "TOO_WIDE",
    "Tested", "Text", "Trials", "UNREADABLE_WORDS", "USAGE", "Weights", "ZeroWarning", "as_exact", "bounds", "canon", "check", "evidence", "explain",
    "run", "simes", "stages", "test", "weights",
]
