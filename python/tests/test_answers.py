"""Tests of the one function that takes an answer: only the whole text of this command for the hypotheses of this case."""
import contextlib
import random
import unittest
from fractions import Fraction
from unittest import mock

import welungad
from welungad import _case, _graph, _reports

DECISION = """\
alpha 1/40
step 1 A p 1/100 weight 1/2
kept B p 9/10 weight 1
rejected A
adjusted A 1/50
adjusted B 9/10
end
"""
WEIGHTS = "weights 2\nset A=1/2 B=1/2\nset B=1\nset A=1\nend\n"
BOUNDS = "bounds 2\nbound 1 of A B\nbound 0 of B\nbound 1 of A\nend\n"
SIMES = BOUNDS.replace("bounds 2", "simes 2").replace("end\n", "top 1 bound 1\ntop 2 bound 1\nrejected A\nend\n")
EVIDENCE = "evidence 2\nstep A\nkeep B\nexit 1 A 1\nend\n"
CHECKED = "yes\nlisted A\nkept B\nend\n"
STAGES = "alpha 1/40\narrive A 1 1/100\nreject A stage 1 weight 1/2\nrejected A\nend\n"

WHOLE = [("test", DECISION, _reports.read_decision), ("weights", WEIGHTS, _reports.read_weights), ("bounds", BOUNDS, _reports.read_bounds),
         ("simes", SIMES, _reports.read_simes), ("evidence", EVIDENCE, _reports.read_evidence), ("check", CHECKED, _reports.read_checked_whole),
         ("stages", STAGES, _reports.read_stages)]

AB = {"A": "A", "B": "B"}


def read(command, text, function, labels=AB):
    return _reports.read_whole(command, _reports.take_answer(command, 0, text.encode()), labels, function)


class Whole(unittest.TestCase):
    """Whether the whole answer is taken, and nothing less or else."""

    def test_the_whole_answer(self):
        for command, text, function in WHOLE:
            with self.subTest(command):
                read(command, text, function)

    def test_a_part_of_an_answer(self):
        for command, text, function in WHOLE:
            lines = text.splitlines(True)
            for begun in [text[:-4], text[:-1], text[: len(text) // 2], ""]:
                with self.subTest((command, begun)), self.assertRaises(welungad.BadAnswer):
                    _reports.take_answer(command, 0, begun.encode())
            for count in range(len(lines)):
                with self.subTest((command, count)), self.assertRaises(welungad.BadAnswer):
                    read(command, "".join(lines[:count]), function)
                if count:
                    with self.subTest((command, "without", count)), self.assertRaises(welungad.BadAnswer):
                        read(command, "".join(lines[:count - 1] + lines[count:]), function)
            for more in ["end\n", "x\n", " ", "\n"]:
                with self.subTest((command, more)), self.assertRaises(welungad.BadAnswer):
                    read(command, text + more, function)

    def test_an_answer_to_another_command(self):
        for command, _, function in WHOLE:
            for other, text, _ in WHOLE:
                if command != other:
                    with self.subTest((command, other)), self.assertRaises(welungad.BadAnswer):
                        read(command, text, function)

    def test_an_answer_for_another_case(self):
        for command, text, function in WHOLE:
            for labels in [{"A": "A"}, {"A": "A", "B": "B", "C": "C"}, {"A": "A", "C": "C"}]:
                if command != "stages" or "A" not in labels:
                    with self.subTest((command, labels)), self.assertRaises(welungad.BadAnswer):
                        read(command, text, function, labels)

    def test_cases(self):
        texts = {"canon": "alpha 1/40\nhypotheses A\nweights 1\n", "canon csv": "hypothesis,weight,p,A\nA,1,,0\n",
                 "canon json": "{\"alpha\":\"1/40\",\"components\":[]}\n"}
        for command, text in texts.items():
            self.assertEqual(_reports.take_answer(command, 0, text.encode()), text)
            for other in [*(it for it in texts.values() if it != text), "", text[:-1], "x" + text]:
                with self.subTest((command, other)), self.assertRaises(welungad.BadAnswer):
                    _reports.take_answer(command, 0, other.encode())

    def test_canonical_texts(self):
        text = "alpha 1/40\nhypotheses A B\np 1/100 9/10\nweights 1/2 1/2\nedge A B 1-2/3*\\epsilon^2\n"
        found = _case.read_canonical(text)
        self.assertEqual((found.p, found.shares), ({"A": Fraction(1, 100), "B": Fraction(9, 10)}, [1]))
        self.assertEqual(found.edges, [{("A", "B"): welungad.Quotient((Fraction(1), Fraction(0), Fraction(-2, 3)), (Fraction(1),))}])
        for old, new in [("1-2/3", "1-x"), ("edge", "edges"), ("weights 1/2", "weights 1/0"), ("edge A B", "edge A"), ("alpha 1/40", "alpha 1/40 1")]:
            with self.subTest(new), self.assertRaisesRegex(welungad.BadAnswer, "^what answered is not an answer to canon: "):
                _case.read_canonical(text.replace(old, new))

    def test_hypotheses_in_another_order(self):
        text = DECISION.replace("kept B p 9/10 weight 1\nrejected A\n", "step 2 B p 1/50 weight 1\nrejected B A\n")
        with self.assertRaises(welungad.BadAnswer):
            read("test", text, _reports.read_decision)

    def test_edited_answers(self):
        for old, new in [("step 1 A", "step 2 A"), ("step 1 A", "step 1 B"), ("rejected A", "rejected"), ("rejected A", "rejected A B"),
                         ("p 1/100", "q 1/100"), ("1/100", "x"), ("adjusted B 9/10", "adjusted B 9/10 not"), ("weight 1\n", "weight 1/0\n"),
                         ("adjusted A", "adjusted B"), ("adjusted A 1/50", "adjusted A"), ("adjusted A 1/50", "adjusted"), ("step 1 A p 1/100 weight 1/2", "step")]:
            with self.subTest((old, new)), self.assertRaises(welungad.BadAnswer):
                read("test", DECISION.replace(old, new), _reports.read_decision)

    def test_sets_in_another_order(self):
        """Whether the sets of an answer are in their order, each with its members in theirs."""
        for command, text, function in WHOLE[1:4]:
            lines = text.splitlines(True)
            for changed in [[lines[0], lines[2], lines[1], *lines[3:]], [*lines[:2], lines[3], lines[2], *lines[4:]]]:
                with self.subTest((command, changed)), self.assertRaises(welungad.BadAnswer):
                    read(command, "".join(changed), function)
            for old, new in [("A=1/2 B=1/2", "B=1/2 A=1/2"), ("of A B", "of B A"), ("bound 1 of A B", "bound 3 of A B")]:
                if old in text:
                    with self.subTest((command, new)), self.assertRaises(welungad.BadAnswer):
                        read(command, text.replace(old, new), function)

    def test_a_changed_line_raises_nothing_else(self):
        chance = random.Random(8)
        for command, text, function in WHOLE:
            lines = text.splitlines()
            for number, line in enumerate(lines):
                words = line.split(" ")
                for at in range(len(words)):
                    other = words[:at] + chance.choice([[], ["x"], ["-1"], ["1/0"], [""]]) + words[at + 1:]
                    changed = "".join(it + "\n" for it in [*lines[:number], " ".join(other), *lines[number + 1:]])
                    with contextlib.suppress(welungad.BadAnswer):
                        read(command, changed, function)

    def test_statuses(self):
        for status in [7, 11, 42, 126, 127, 137, 255, -9]:
            with self.subTest(status), self.assertRaises(welungad.BadAnswer):
                _reports.take_answer("test", status, DECISION.encode())
        with self.assertRaises(welungad.BadAnswer):
            _reports.take_answer("test", 1, b"no: step 1: negative\n")
        self.assertEqual(_reports.take_answer("check", 1, b"no: step 1: negative\n"), "no: step 1: negative\n")

    def test_refusals(self):
        for status, text in [(2, b"usage: word 1\n"), (3, b"malformed: kind\n"), (4, b"limit: bytes 4194305\n"), (8, b"no memory\n"),
                             (5, b"too wide: step 1: component 1 weight of A mul\n"), (9, b"keeper fault\n"), (6, b"read fault\n")]:
            with self.subTest(status), self.assertRaises(welungad.Refused) as caught:
                _reports.take_answer("test", status, text)
            self.assertEqual((caught.exception.status, caught.exception.line), (status, text.decode()[:-1]))
        for status, text in [(2, b""), (3, b"usage: word 1\n"), (3, b"malformed: kind"), (4, b"limit: a\nlimit: b\n"), (5, DECISION.encode()),
                             (3, "malformed: ü\n".encode())]:
            with self.subTest((status, text)), self.assertRaises(welungad.BadAnswer):
                _reports.take_answer("test", status, text)


class Law(unittest.TestCase):
    """Whether `Graph` refuses a decision on another case than it handed in."""

    def graph(self, answer):
        """Returns a graph of A and B that gets this answer to its next calls."""
        canonical = b"alpha 1/40\nhypotheses A B\nweights 1/2 1/2\nedge A B 1\nedge B A 1\n"
        with mock.patch.object(_graph, "run", return_value=(0, canonical)):
            graph = welungad.Graph({"A": 0.5, "B": 0.5}, [[0, 1], [1, 0]])
        patch = mock.patch.object(_graph, "run", return_value=(0, answer.encode()))
        patch.start()
        self.addCleanup(patch.stop)
        return graph

    def test_the_decision(self):
        self.assertEqual(self.graph(DECISION).test([0.01, 0.9]).rejected, ("A",))

    def test_other_p_values(self):
        with self.assertRaisesRegex(welungad.BadAnswer, "other p-values"):
            self.graph(DECISION).test([0.9, 0.01])

    def test_another_level(self):
        with self.assertRaisesRegex(welungad.BadAnswer, "at the level 1/40, and 1/20 was given"):
            self.graph(DECISION).test([0.01, 0.9], alpha=0.05)

    def test_other_looks(self):
        text = STAGES.replace("kept B\n", "")
        levels = [[0.01, 0.01], [0.01, 0.01]]
        self.assertEqual(self.graph(text).stages(levels, [("A", 1, 0.01)], at=1).rejected, ("A",))
        for looks in [[], [("A", 2, 0.01)], [("A", 1, 0.02)], [("B", 1, 0.01)]]:
            with self.subTest(looks), self.assertRaisesRegex(welungad.BadAnswer, "other looks"):
                self.graph(text).stages(levels, looks, at=1)

    def test_another_graph(self):
        for canonical in ["alpha 1/40\nhypotheses A B\nweights 1/2 1/2\nedge A B 1\n", "alpha 1/40\nhypotheses B A\nweights 1/2 1/2\n",
                          "alpha 1/40\nhypotheses A B\nweights 1/3 1/2\nedge A B 1\nedge B A 1\n", "", "alpha 1/40\n",
                          "alpha 1/40\nhypotheses A B\nweights 1/2\nedge A B 1\nedge B A 1\n",
                          "alpha 1/40\nhypotheses A B\ncomponent 1/2\nweights 1/2 1/2\nedge A B 1\nedge B A 1\n"]:
            with mock.patch.object(_graph, "run", return_value=(0, canonical.encode())):
                with self.subTest(canonical), self.assertRaises(welungad.BadAnswer):
                    welungad.Graph({"A": 0.5, "B": 0.5}, [[0, 1], [1, 0]])


if __name__ == "__main__":
    unittest.main()
