"""Tests of closed_test.py and staged_case.py, on the rows of crates/acceptance/data, whose values were found by hand or by another
method, and on cases whose values are here by hand."""
import json
import os
import subprocess
import sys
import tempfile
import unittest

TOOLS = os.path.dirname(os.path.abspath(__file__))
TOP = os.path.dirname(TOOLS)
sys.path.append(os.path.join(TOP, "python", "tests"))

import acceptance_rows  # noqa: E402
import closed_test  # noqa: E402
from check_evidence import Stop  # noqa: E402
from staged_case import staged_case_of  # noqa: E402

SEQUENCE = "alpha 1/40\nhypotheses H1 H2 H3\np 1/100 3/100 1/50\nweights 1 0 0\nedge H1 H2 1\nedge H2 H3 1\n"
TWO = """alpha 0.05
hypotheses H1 H2
weights 1/2 1/2
edge H1 H2 1
edge H2 H1 1
stages 2
spend H1 1/2 1/2
spend H2 1/2 1/2
arrive H1 1 0.02
arrive H2 1 0.03
arrive H1 2 0.01
arrive H2 2 0.02
"""


def options_of(row):
    """The form and the level that a row's words give."""
    words = dict(zip(row.words[1::2], row.words[2::2]))
    return words.get("--form", "text"), words.get("--alpha")


def rows_of(word):
    """The rows of a command that print one whole text: the row, its text, and the case or how it is refused."""
    for row in acceptance_rows.all_rows():
        if row.words[:1] == [word] and row.case is not None and len(row.printed) == 1 and len(row.words) % 2 and not row.counts:
            form, alpha = options_of(row)
            if form in ("text", "csv", "json"):
                try:
                    yield row, row.printed[0].decode("latin-1"), staged_case_of(row.case, form, alpha), None
                except Stop as stop:
                    yield row, row.printed[0].decode("latin-1"), None, stop.args


def lines_of(text, *words):
    return [line for line in text.split("\n") if line.split(" ")[0] in words]


class Rows(unittest.TestCase):
    """Each text that a row prints is compared with what follows from the definitions."""

    def test_decisions(self):
        """Whether rejections and adjusted p-values are those of the rows of `test`."""
        done = 0
        for row, text, case, _ in rows_of("test"):
            if row.status == 0 and len(case.names) <= 9:
                with self.subTest(row.place):
                    lines = [*closed_test.report(case, with_adjusted=True)]
                    self.assertEqual([lines[0], *lines_of("\n".join(lines), "rejected", "adjusted")], lines_of(text, "alpha", "rejected", "adjusted"))
                    done += 1
        self.assertGreater(done, 60)

    def test_bounds(self):
        """Whether the bounds of all sets are those of the rows of `bounds`."""
        done = 0
        for row, text, case, _ in rows_of("bounds"):
            if row.status == 0 and len(case.names) <= 9:
                with self.subTest(row.place):
                    self.assertEqual(lines_of("\n".join(closed_test.report(case, with_bounds=True)), "bound"), lines_of(text, "bound"))
                    done += 1
        self.assertGreater(done, 4)

    def test_stages(self):
        """Whether the decisions after each arrival are those of the rows of `stages`."""
        done = looks = 0
        for row, text, case, _ in rows_of("stages"):
            if row.status == 0:
                with self.subTest(row.place):
                    self.assertEqual(lines_of("\n".join(closed_test.report(case)), "arrive"), looks_in(text, case.names))
                    done, looks = done + 1, looks + len(lines_of(text, "arrive"))
        self.assertGreater(min(done, looks), 15)

    def test_refusals(self):
        """Whether a case with stages is refused by the line of the row."""
        done = 0
        for row, text, case, stop in rows_of("stages"):
            if row.status == 3 and text != "malformed: kind\n":
                with self.subTest(row.place):
                    self.assertEqual(stop, (3, text))
                    done += 1
        self.assertGreater(done, 5)


def looks_in(report, names):
    """A report of `stages` as closed_test.py prints it: each arrival with all that is rejected after it."""
    rejected, lines = [], []
    for line in lines_of(report, "arrive", "reject"):
        words = line.split(" ")
        if words[0] == "arrive":
            lines.append(line)
        else:
            rejected.append(words[1])
        lines[-1] = " ".join([lines[-1].split(" rejected")[0], "rejected", *(name for name in names if name in rejected)])
    return lines


class Script(unittest.TestCase):
    def run_on(self, case, *words, safe=False):
        with tempfile.TemporaryDirectory() as room:
            path = os.path.join(room, "case")
            with open(path, "w", encoding="utf-8") as file:
                file.write(case)
            done = subprocess.run([sys.executable, os.path.join(TOOLS, "closed_test.py"), path, *words], capture_output=True, text=True,
                                  env={**os.environ, **({"PYTHONSAFEPATH": "1"} if safe else {})})
        return done.returncode, done.stdout.splitlines(), done.stderr

    def test_options(self):
        """Whether each option adds its lines. Of the fixed sequence, by hand: the set H2 H3 rests on H2 alone, at 3/100; it and no set
        of H2 is rejected, so one hypothesis of each set with H1 is false."""
        decision = ["alpha 1/40", "rejected H1", "kept H2 in H2 H3", "kept H3 in H2 H3"]
        adjusted = ["adjusted H1 1/100", "adjusted H2 3/100", "adjusted H3 3/100"]
        bounds = ["bound 1 of H1 H2 H3", "bound 0 of H2 H3", "bound 0 of H3", "bound 0 of H2", "bound 1 of H1 H3", "bound 1 of H1", "bound 1 of H1 H2"]
        for safe in (False, True):
            self.assertEqual(self.run_on(SEQUENCE, "--adjusted", "--bounds", safe=safe), (0, [*decision, *adjusted, *bounds, "end"], ""))
        self.assertEqual(self.run_on(SEQUENCE, "--adjusted"), (0, [*decision, *adjusted, "end"], ""))

    def test_not_reached(self):
        """Whether a value above 1 is not reached, and one whose set has no weight: of A 3/4 over 1/2, and of B in itself alone."""
        case = "alpha 1\nhypotheses A B\np 3/4 0\nweights 1/2 0\n"
        self.assertEqual(self.run_on(case, "--adjusted")[1][-3:-1], ["adjusted A 1 not reached", "adjusted B 1 not reached"])

    def test_stages(self):
        """Whether each arrival is printed with what is rejected after it, at 1/80 for half of the level and 1/40 for all of it."""
        lines = ["alpha 1/20", "arrive H1 1 1/50 rejected", "arrive H2 1 3/100 rejected", "arrive H1 2 1/100 rejected H1",
                 "arrive H2 2 1/50 rejected H1 H2", "rejected H1 H2", "end"]
        self.assertEqual(self.run_on(TWO), (0, lines, ""))
        kept = self.run_on(TWO.replace("arrive H2 2 0.02\n", ""))[1]
        self.assertEqual(kept[-3:], ["rejected H1", "kept H2 in H2", "end"])
        self.assertEqual(self.run_on(TWO, "--sets")[1][0], "set H1=1/2 H2=1/2 rejected by H1")
        status, lines, _ = self.run_on(TWO, "--bounds")
        self.assertEqual((status, lines), (2, ["usage: --adjusted and --bounds are of single p-values"]))

    def test_json(self):
        """Whether stages of JSON are read: a table, whole numbers and texts; and their refusals by path."""
        spend = [["1/2", "1/2"], {"steps": [{"from": "1/2", "levels": ["0.01", "0.015"]}, {"from": 1, "levels": ["0.02", "0.03"]}]}]
        stages = {"count": 2, "spend": spend, "arrivals": [{"hypothesis": "H2", "stage": 2, "p": "0.015"}]}
        edges = [{"from": "H2", "to": "H1", "weight": 1}]
        case = {"alpha": "0.05", "hypotheses": ["H1", "H2"], "components": [{"weights": ["1/2", "1/2"], "edges": edges}], "stages": stages}
        lines = ["alpha 1/20", "arrive H2 2 3/200 rejected H2", "rejected H2", "kept H1 in H1", "end"]
        self.assertEqual(self.run_on(json.dumps(case), "--form", "json"), (0, lines, ""))
        for key, value, line in [("count", 1.5, "/stages/count: not whole"), ("count", "2", "/stages/count: shape"), ("count", -1, "/stages/count: shape"),
                                 ("spend", [["1/2", "x"]], "/stages/spend/0/1: number"), ("spend", [{"step": []}], "/stages/spend/0: shape"),
                                 ("arrivals", [{"hypothesis": "H3", "stage": 1, "p": 0}], "/stages/arrivals/0/hypothesis: unknown name"),
                                 ("look", 1, "/stages: shape")]:
            with self.subTest(line):
                changed = json.dumps({**case, "stages": {**stages, key: value}})
                self.assertEqual(self.run_on(changed, "--form", "json")[:2], (3, [f"malformed: {line}"]))

    def test_no_values(self):
        """Whether a case without p-values and stages is of the wrong kind, and one with both is mixed."""
        self.assertEqual(self.run_on(SEQUENCE.replace("p 1/100 3/100 1/50\n", ""))[:2], (3, ["malformed: kind"]))
        self.assertEqual(self.run_on(TWO.replace("weights", "p 0 0\nweights", 1))[:2], (3, ["malformed: case: mixed"]))

    def test_progress(self):
        """Whether the progress of a case of more than 10 hypotheses is on standard error: without edges each set is quick."""
        names = [f"H{i}" for i in range(11)]
        case = "\n".join(["alpha 1", " ".join(["hypotheses", *names]), "p" + " 0" * 11, "weights" + " 1/11" * 11, ""])
        status, lines, error = self.run_on(case)
        self.assertEqual((status, lines, error.splitlines()[1]), (0, ["alpha 1", " ".join(["rejected", *names]), "end"], "closed_test.py: 500 of 2047 sets"))


if __name__ == "__main__":
    unittest.main()
