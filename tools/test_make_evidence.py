"""Tests of make_evidence.py. `tools/run_tests.sh` runs them. Expected documents are by hand, from the conditions in docs/REPORTS.md."""
import os
import random
import subprocess
import sys
import tempfile
import unittest
from fractions import Fraction

TOOLS = os.path.dirname(os.path.abspath(__file__))
TOP = os.path.dirname(TOOLS)
sys.path[:0] = [TOOLS, os.path.join(TOP, "bench")]

import carry  # noqa: E402
import check_evidence  # noqa: E402
import checkers  # noqa: E402
import closed_test  # noqa: E402
import make_evidence  # noqa: E402
import test_tools  # noqa: E402
from staged_case import staged_case_of  # noqa: E402


def document(case, report=None):
    return "".join(line + "\n" for line in make_evidence.evidence(make_evidence.Case(case), report))


def families(size):
    """Two Holm families, each hypothesis of which passes epsilon to its fellow in the other one. Everything is rejected."""
    names = [[f"{family}{i}" for i in range(size)] for family in "AB"]
    lines = ["alpha 0.05", " ".join(["hypotheses", *names[0], *names[1]]), "p" + " 0.001" * (2 * size), "weights" + f" 1/{2 * size}" * (2 * size)]
    for own, other in (names, names[::-1]):
        for i, name in enumerate(own):
            lines += [f"edge {name} {fellow} (1-\\epsilon)/{size - 1}" for fellow in own if fellow != name]
            lines.append(f"edge {name} {other[i]} \\epsilon")
    return "\n".join(lines) + "\n"


HOLM = """alpha 1/40
step 1 H2 p 1/200 weight 1/3
step 2 H1 p 1/100 weight 1/2
step 3 H3 p 1/50 weight 1
rejected H1 H2 H3
adjusted H1 1/50
adjusted H2 3/200
adjusted H3 1/50
end
"""


class Documents(unittest.TestCase):
    def test_by_hand(self):
        """Whether documents are those that were found by hand."""
        self.assertEqual(document(test_tools.SEQUENCE), test_tools.KEEP_PROOF)
        self.assertEqual(document(test_tools.GATEKEEPING), test_tools.EPSILON_PROOF)
        wanted = "evidence 2\nstep H2\nstep H1\nflow 1 H2 1/3\nstep H3\nflow 1 H2 2/3\nflow 1 H1 2/3\nend\n"
        self.assertEqual(document(test_tools.content("examples", "holm.txt")), wanted)

    def test_components(self):
        """Whether each component has flows and exits of its own: in the first one A gives all to C, and C to B."""
        wanted = """evidence 2
step A
step C
flow 1 A 1
flow 2 A 0
step B
flow 1 A 1
flow 1 C 1
flow 2 A 0
flow 2 C 0
keep D
exit 1 A 0
exit 1 C 0
exit 1 B 0
exit 2 A 0
exit 2 C 1
exit 2 B 1
end
"""
        self.assertEqual(document(test_tools.content("examples", "entangled.txt")), wanted)

    def test_closed_classes(self):
        """Whether weight that goes round for ever arrives nowhere: A and B pass all to each other, once both are rejected."""
        case = "alpha 1\nhypotheses A B C\np 0 0 1/2\nweights 1/2 1/4 1/4\nedge A B 1\nedge B A 1\n"
        wanted = "evidence 2\nstep A\nstep B\nflow 1 A 1/2\nkeep C\nexit 1 A 0\nexit 1 B 0\nend\n"
        self.assertEqual(document(case), wanted)
        self.assertEqual(check_evidence.answer(case.encode(), wanted.encode())[0], 0)

    def test_examples(self):
        """Whether the checker accepts evidence for each example, which lists what the rows reject."""
        for row in test_tools.DECIDED:
            if row.file.endswith(".txt"):
                with self.subTest(row.file):
                    case = row.text("case")
                    status, said = check_evidence.answer(case.encode(), document(case, row.text("ends")).encode())
                    self.assertEqual(status, 0, said)
                    self.assertEqual(sorted(said.split("\n")[1].split()[1:]), sorted(row.line("rejected")))

    def test_wide_numbers(self):
        """Whether numbers that are too wide for the program get evidence: two Holm families of four joined by epsilon, and weights
        whose denominators pass 10^54."""
        case = families(4)
        self.assertEqual(check_evidence.answer(case.encode(), document(case).encode())[1], "yes\nlisted A0 A1 A2 A3 B0 B1 B2 B3\nkept\nend\n")
        case = test_tools.content("examples", "too-wide.txt")
        self.assertEqual(check_evidence.answer(case.encode(), document(case).encode())[1], "yes\nlisted H1 H2 H3 H4\nkept\nend\n")

    def test_random_cases(self):
        """Whether the checker accepts evidence for random cases, which lists what the closed test over all sets rejects."""
        for number in range(150):
            made = checkers.Made(random.Random(f"evidence/{number}"), number, 5)
            with self.subTest(number, case=made.text()):
                status, said = check_evidence.answer(made.text().encode(), document(made.text()).encode())
                self.assertEqual(status, 0, said)
                decided = [line for line in closed_test.report(staged_case_of(made.text().encode())) if line.startswith("rejected")]
                self.assertEqual(sorted(said.split("\n")[1].split()[1:]), sorted(decided[0].split()[1:]))

    def test_expressions(self):
        """Whether an edge denotes what the checker reads, though the two share no code."""
        rng, tokens = random.Random(3), ["1", "2.5", ".25", "3e-1", "\\epsilon", "\\epsilon ^2", *"()()+-*/ "]
        accepted = 0
        for _ in range(20000):
            text = "".join(rng.choices(tokens, k=rng.randrange(1, 9)))
            try:
                wanted = check_evidence.expression(text, "")
                accepted += 1
            except check_evidence.Stop:
                wanted = None
            try:
                found = make_evidence.expression(text, 1)
            except ValueError:
                found = None
            self.assertEqual(found, wanted, text)
        self.assertGreater(accepted, 1000)


class Reports(unittest.TestCase):
    def test_order(self):
        """Whether the order of a report is taken."""
        case = test_tools.content("examples", "two-hypotheses.txt").replace("0.026", "0.02")
        report = (
            "alpha 1/20\nstep 1 H2 p 1/50 weight 1/2\nstep 2 H1 p 1/40 weight 1/2\nrejected H1 H2\n"
            "adjusted H1 1/20\nadjusted H2 1/25\nend\n"
        )
        self.assertEqual(document(case, report), "evidence 2\nstep H2\nstep H1\nflow 1 H2 1/2\nend\n")
        self.assertEqual(document(case), "evidence 2\nstep H1\nstep H2\nflow 1 H1 1/2\nend\n")

    def test_other_reports(self):
        """Whether a report that is not the decision on the case is refused."""
        case = test_tools.content("examples", "holm.txt")
        self.assertEqual(document(case, HOLM), document(case))
        for old, new in [
            ("alpha 1/40", "alpha 1/20"),
            ("H2 p 1/200", "H2 p 1/100"),
            ("weight 1/3", "weight 1/2"),
            ("step 1 H2", "step 1 H9"),
            ("step 1 H2", "step 1 H3"),
            ("step 3 H3 p 1/50 weight 1\n", ""),
            ("step 3 H3 p 1/50", "kept H3 p 1/50"),
            ("rejected H1 H2 H3", "rejected H1 H2"),
            ("adjusted H3 1/50\n", ""),
            ("adjusted H3", "adjusted H4"),
            ("end\n", ""),
            ("end\n", "end\nend\n"),
            (HOLM, ""),
            (HOLM, "too wide: evidence step 4: component 1 flow of H1 add\n"),
        ]:
            with self.subTest(new), self.assertRaises(ValueError):
                self.assertIn(old, HOLM)
                document(case, HOLM.replace(old, new))

    def test_script(self):
        """Whether the script prints a document, or nothing and one line on standard error."""
        with tempfile.TemporaryDirectory() as room:
            paths = [os.path.join(room, name) for name in ("case", "report", "bad")]
            for path, text in zip(paths, (test_tools.content("examples", "holm.txt"), HOLM, HOLM.replace("end\n", ""))):
                with open(path, "w", encoding="utf-8") as file:
                    file.write(text)
            script = [sys.executable, os.path.join(TOOLS, "make_evidence.py")]
            done = subprocess.run([*script, *paths[:2]], capture_output=True, text=True)
            self.assertEqual((done.returncode, done.stdout.count("step "), done.stderr), (0, 3, ""))
            for words in ([paths[0], paths[2]], [paths[1]]):
                done = subprocess.run([*script, *words], capture_output=True, text=True)
                self.assertEqual((done.returncode, done.stdout, done.stderr.count("\n")), (1, "", 1))


class Cases(unittest.TestCase):
    def test_refused_cases(self):
        """Whether a case that is not valid is refused, with the line where there is one."""
        for old, new, wanted in [
            ("alpha 0.025\n", "", "the lines are not alpha"),
            ("alpha 0.025", "alpha 2%", "line 2: '2%' is not a number"),
            ("alpha 0.025", "alpha 1 1", "line 2: there is not one number"),
            ("alpha 0.025", "alpha 0", "the level"),
            ("alpha 0.025", "alpha 2", "the level"),
            ("p 0.01 0.03 0.001", "p 0.01 0.03", "a p-value each"),
            ("p 0.01 0.03 0.001", "p 0.01 0.03 2", "p-value"),
            ("hypotheses H1 H2 H3", "hypotheses H1 H2 H2", "different names"),
            ("weights 1 0 0", "weights 1 0", "one weight for each"),
            ("weights 1 0 0", "weights 1 0 1/9", "a sum above 1"),
            ("weights 1 0 0", "weights 1 0 -1", "below 0"),
            ("edge H1 H2 1", "edge H1 H1 1", "a loop"),
            ("edge H1 H2 1", "edge H1 H2 1+\\epsilon", "a sum above 1"),
            ("edge H1 H2 1", "edge H1 H2 -\\epsilon", "below 0"),
            ("edge H1 H2 1", "edge H1 H9 1", "line 6: there are not two names"),
            ("edge H1 H2 1", "edge H1 H2", "line 6: there are not two names"),
            ("edge H1 H2 1", "edge H1 H2 1/0", "line 6: '1/0' divides"),
            ("edge H2 H3 1", "stages 2", "the case has stages or no p-values, and evidence is of single p-values"),
        ]:
            with self.subTest(new), self.assertRaisesRegex(ValueError, wanted.replace("(", "\\(")):
                self.assertIn(old, test_tools.SEQUENCE)
                document(test_tools.SEQUENCE.replace(old, new))

    def test_spelling(self):
        """Whether a case is read in any spelling."""
        case = "# a\r\n\r\n\talpha 1e-00001\r\nhypotheses A  B\np .5e-1 0 \nweights 1 0\nedge A B 1 - \\epsilon"
        self.assertEqual(document(case), "evidence 2\nstep A\nstep B\nflow 1 A 1\nend\n")
        self.assertEqual(make_evidence.Case(case).alpha, Fraction(1, 10))


@unittest.skipUnless(os.access(test_tools.PROGRAM, os.X_OK), "the program isn't built")
class Program(unittest.TestCase):
    def test_agreement(self):
        """Whether both checkers accept both documents of some cases, and judge damaged ones alike. bench/checkers.py compares many."""
        words = "--documents 0 --damaged 0 --closed 0 --own 150 --seed 11 --jobs 2".split()
        done = subprocess.run([sys.executable, os.path.join(TOP, "bench", "checkers.py"), *words], capture_output=True, text=True)
        self.assertEqual((done.returncode, done.stderr), (0, ""), done.stdout)
        self.assertIn("\n0 disagreements\n", done.stdout)
        self.assertRegex(done.stdout, "1[5-9][0-9] own document: both say yes")

    def test_undecided(self):
        """Whether the program checks the decision on a case on which its own decision is too wide: random edges of two decimals."""
        case = carry.case_of(carry.KINDS["two"][1](random.Random("1/two/16/0"), 16), 16)
        with tempfile.NamedTemporaryFile("w", suffix=".txt") as file:
            file.write(document(case))
            file.flush()
            for words, wanted in ([["test"], (5, "too wide:")], [["check", file.name], (0, "yes\nliste")]):
                done = subprocess.run([test_tools.PROGRAM, *words], input=case, capture_output=True, text=True)
                self.assertEqual((done.returncode, done.stdout[:9]), wanted)

    def test_two_families(self):
        """Whether the program decides on the two families and makes no evidence, and checks the document that is made here."""
        case = families(4)
        done = subprocess.run([test_tools.PROGRAM, "evidence"], input=case, capture_output=True, text=True)
        self.assertEqual((done.returncode, done.stdout[:9]), (5, "too wide:"))
        decided = subprocess.run([test_tools.PROGRAM, "test"], input=case, capture_output=True, text=True).stdout
        with tempfile.NamedTemporaryFile("w", suffix=".txt") as file:
            file.write(document(case, decided))
            file.flush()
            done = subprocess.run([test_tools.PROGRAM, "check", file.name], input=case, capture_output=True, text=True)
        self.assertEqual((done.returncode, done.stdout), (0, "yes\nlisted A0 A1 A2 A3 B0 B1 B2 B3\nkept\nend\n"))


if __name__ == "__main__":
    unittest.main()
