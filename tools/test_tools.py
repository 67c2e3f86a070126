"""Tests of the scripts in this folder, of the examples and of the manual page. `tools/run_tests.sh` runs them.

Expected values are those of the rows in crates/acceptance/data, which are by hand, or are here by hand.
"""
import hashlib
import os
import re
import shutil
import subprocess
import sys
import tempfile
import unittest
import xml.etree.ElementTree
from fractions import Fraction

TOOLS = os.path.dirname(os.path.abspath(__file__))
TOP = os.path.dirname(TOOLS)
sys.path += [os.path.join(TOP, "python", "tests"), os.path.join(TOP, "python"), os.path.join(TOP, "bench")]

import acceptance_rows  # noqa: E402
import check_evidence  # noqa: E402
import closed_test  # noqa: E402
import hostile  # noqa: E402
from staged_case import staged_case_of  # noqa: E402
from welungad import _picture  # noqa: E402
from welungad._case import edge_of, read_canonical  # noqa: E402

PROGRAM = os.path.join(TOP, "crates", "welungad", "out", "welungad")
SVG = "{http://www.w3.org/2000/svg}"


def content(*path):
    with open(os.path.join(TOP, *path), encoding="utf-8") as file:
        return file.read()


class Row:
    """A row of examples.rows: the file whose case it has, its words, and what is printed."""

    def __init__(self, file, words):
        self.file, self.words, self.blocks = file, words, {"case": [], "file": [], "ends": []}

    def text(self, block):
        return "".join(line + "\n" for line in self.blocks[block])

    def alpha(self):
        return Fraction(self.words[-1]) if "csv" in self.words else None

    def line(self, word):
        """The words after the first word of the printed line that begins with it."""
        return next(line.split()[1:] for line in self.blocks["ends"] if line.split()[0] == word)


def rows_of(text):
    rows, file, block = [], None, None
    for line in text.splitlines():
        if line.startswith("# ") and ": " in line:
            file = line[2:].split(": ")[0]
        elif line.startswith("run"):
            rows.append(Row(file, line.split()[1:]))
        elif line.split(" ")[0] in ("case", "file", "ends"):
            block = line.split(" ")[0]
        elif line.startswith("| ") and rows:
            rows[-1].blocks[block].append(line[2:])
    return rows


ROWS = rows_of(content("crates", "acceptance", "data", "examples.rows"))
HELP = next(row.blocks["ends"] for row in rows_of(content("crates", "acceptance", "data", "devices.rows")) if row.words == ["help"])
COMMANDS = {line.split()[0] for line in HELP} - {"help", "end"}
DECIDED = [row for row in ROWS if row.words[0] == "test" and "json" not in row.words and row.blocks["ends"][-1] == "end"]


class Examples(unittest.TestCase):
    def test_files(self):
        """Whether the gate runs each example as it is in its file, and the file of commands with it."""
        for row in ROWS:
            if row.words[0] != "catalogue":
                with self.subTest(row.file):
                    self.assertEqual(row.text("case"), content("examples", row.file))
        study = next(row for row in ROWS if row.words[0] == "study")
        self.assertEqual(study.text("file"), content("examples", "study-looks.txt"))
        tested = {row.file for row in ROWS} | {"README.md", "study-looks.txt"}
        self.assertEqual(set(os.listdir(os.path.join(TOP, "examples"))) - tested, set())

    def test_page(self):
        """Whether the page of the examples has what is printed for each."""
        page = content("examples", "README.md")
        for row in ROWS:
            with self.subTest(row.file, words=row.words):
                self.assertIn("\n" + "".join(f"    {line}\n" for line in row.blocks["ends"]), page)

    def test_closed_test(self):
        """Whether the closed test over all sets rejects what the rows say."""
        self.assertGreater(len(DECIDED), 14)
        for row in DECIDED:
            with self.subTest(row.file):
                case = staged_case_of(row.text("case").encode(), "csv" if row.alpha() else "text", row.alpha() and str(row.alpha()))
                lines = list(closed_test.report(case))
                self.assertEqual(lines[0], "alpha " + row.line("alpha")[0])
                self.assertEqual(lines[1].split()[1:], row.line("rejected"))


GATEKEEPING = content("examples", "improved-gatekeeping.txt")
SEQUENCE = content("examples", "fixed-sequence.txt")
# of the improved gatekeeping graph, by hand
EPSILON_PROOF = """evidence 2
step H1
step H3
flow 1 H1 1/2
step H4
flow 1 H1 [1]/[2,-1]
flow 1 H3 [1]/[4,-2]
step H2
flow 1 H1 1
flow 1 H3 [1]/[0,2]
flow 1 H4 [1]/[0,2]
end
"""
KEEP_PROOF = """evidence 2
step H1
keep H2
exit 1 H1 1
keep H3
exit 1 H1 0
end
"""


def answer(case, proof, *how):
    return check_evidence.answer(case.encode(), proof.encode(), *how)


def with_line(text, number, line):
    """A text with another line in the place of one, from 1; without it if the line is None."""
    lines = text.splitlines()
    lines[number - 1 : number] = [] if line is None else [line]
    return "".join(line + "\n" for line in lines)


class Checker(unittest.TestCase):
    def test_yes(self):
        """Whether good documents of both versions are found good."""
        yes = "yes\nlisted H1 H3 H4 H2\n"
        self.assertEqual(answer(GATEKEEPING, EPSILON_PROOF), (0, yes + "kept\nend\n"))
        self.assertEqual(answer(GATEKEEPING, with_line(EPSILON_PROOF, 1, "evidence 1")), (0, yes + "end\n"))
        self.assertEqual(answer(SEQUENCE, KEEP_PROOF), (0, "yes\nlisted H1\nkept H2 H3\nend\n"))
        self.assertEqual(answer(SEQUENCE, "evidence 1\nend\n"), (0, "yes\nlisted\nend\n"))
        self.assertEqual(answer(SEQUENCE, "# a\r\n\nevidence\t1 \r\n  # b\nend"), (0, "yes\nlisted\nend\n"))

    def test_broken_conditions(self):
        """Whether the first broken condition is named."""
        once = with_line(EPSILON_PROOF, 1, "evidence 1")
        for number, line, wanted in [
            (4, "flow 1 H1 501/1000", "no: step 2: component 1 flow of H1 exceeds"),
            (4, "flow 1 H1 -1", "no: step 2: component 1 flow of H1 negative"),
            (4, "flow 1 H1 0", "no: step 2: no level"),
            (4, "flow 1 H1 1/3", "no: step 2: above level"),
            (7, "flow 1 H3 -1", "no: step 3: component 1 flow of H1 exceeds"),
            (11, "flow 1 H4 -1", "no: step 4: component 1 flow of H3 exceeds"),
            (8, "step H1", "no: step 4: repeated"),
        ]:
            with self.subTest(line):
                self.assertEqual(answer(GATEKEEPING, with_line(once, number, line)), (1, wanted + "\n"))
        for number, line, wanted in [
            (4, "exit 1 H1 0", "no: keep H2: component 1 exit of H1 short"),
            (4, "exit 1 H1 -1", "no: keep H2: component 1 exit of H1 negative"),
            (4, "exit 1 H1 2", "no: keep H2: component 1 level above one"),
        ]:
            with self.subTest(line):
                self.assertEqual(answer(SEQUENCE, with_line(KEEP_PROOF, number, line)), (1, wanted + "\n"))
        legal = SEQUENCE.replace("0.03", "0.025")
        self.assertEqual(answer(legal, KEEP_PROOF), (1, "no: keep H2: legal\n"))

    def test_malformed_documents(self):
        """Whether the first line that is not allowed is named."""
        for number, line, wanted in [
            (1, "evidence 3", "line 1: version"),
            (1, "evidence", "line 1: words"),
            (1, "step H1", "line 1: unexpected"),
            (2, "step H9", "line 2: unknown name"),
            (4, "exit 2 H1 1", "line 4: exit"),
            (4, "exit 1 H2 1", "line 4: exit"),
            (4, "exit 1 H1", "line 4: words"),
            (4, "exit 1 H1 1/0", "line 4: number"),
            (4, "exit 1 H1 [1]/[1]", "line 4: number"),
            (3, "keep H3", "line 3: unexpected"),
            (7, None, "line 7: ended"),
            (7, "end end", "line 7: words"),
            (7, "end\nend", "line 8: unexpected"),
        ]:
            with self.subTest(line):
                self.assertEqual(answer(SEQUENCE, with_line(KEEP_PROOF, number, line)), (3, f"malformed: proof {wanted}\n"))
        self.assertEqual(answer(GATEKEEPING, with_line(EPSILON_PROOF, 4, "exit 1 H1 1/2")), (3, "malformed: proof line 4: unexpected\n"))
        self.assertEqual(answer(GATEKEEPING, with_line(EPSILON_PROOF, 4, "flow 2 H1 1/2")), (3, "malformed: proof line 4: flow\n"))

    def test_malformed_cases(self):
        """Whether a case that is not valid is refused."""
        for old, new, wanted in [
            ("weights 1 0 0", "weights 1 0 1/9", "case: weight sum component 1"),
            ("weights 1 0 0", "weights 1 0 -1/9", "case: weight of H3 component 1"),
            ("edge H1 H2 1", "edge H1 H2 1+\\epsilon", "case: edge H1 H2 component 1"),
            ("edge H1 H2 1", "edge H1 H2 -\\epsilon", "case: edge H1 H2 component 1"),
            ("edge H1 H2 1", "edge H1 H2 1\nedge H1 H3 \\epsilon", "case: row sum of H1 component 1"),
            ("edge H1 H2 1", "edge H1 H2 1/2\nedge H1 H2 1/2", "case: repeated edge H1 H2 component 1"),
            ("edge H1 H2 1", "edge H1 H1 1", "case: self edge of H1 component 1"),
            ("p 0.01 0.03 0.001", "p 0.01 0.03", "case: p count 2"),
            ("p 0.01 0.03 0.001", "p 0.01 0.03 2", "case: p of H3"),
            ("p 0.01 0.03 0.001\n", "", "kind"),
            ("alpha 0.025", "alpha 1.025", "case: alpha"),
            ("alpha 0.025", "alpha 0.0.25", "line 2: number"),
            ("alpha 0.025", "alpha 1/0", "line 2: zero denominator"),
            ("edge H1 H2 1", "edge H1 H2 1//2", "line 6: expression"),
            ("edge H1 H2 1", "edge H1 H2 1/\\epsilon", "line 6: divisor"),
            ("edge H1 H2 1", "edge H1 H2 1/(1-1)", "line 6: zero divisor"),
            ("edge H1 H2 1", "edge H1 H4 1", "line 6: unknown name"),
            ("edge H2 H3 1\n", "edge H2 H3 1\ncomponent 1\n", "line 8: unexpected"),
        ]:
            with self.subTest(new):
                self.assertEqual(answer(SEQUENCE.replace(old, new), KEEP_PROOF), (3, f"malformed: {wanted}\n"))

    def test_expressions(self):
        """Whether an expression has its value, as coefficients by ascending power."""
        for text, wanted in [
            ("1/2\\epsilon", ["0", "1/2"]),
            (" - ( 1 - 2 \\epsilon ) * -".rstrip(" *-"), ["-1", "2"]),
            ("(1-\\epsilon)/2", ["1/2", "-1/2"]),
            ("(1-\\epsilon)(1+\\epsilon)", ["1", "0", "-1"]),
            ("\\epsilon^2\\epsilon^0", ["0", "0", "1"]),
            ("2.5e-1-.25", []),
        ]:
            with self.subTest(text):
                self.assertEqual(check_evidence.expression(text, ""), [Fraction(x) for x in wanted])
        for text in ["", "1 2", "\\epsilon^12", "2*-1", "(1", "1)", "\\eps", "1e"]:
            with self.subTest(text), self.assertRaises(check_evidence.Stop):
                check_evidence.expression(text, "")

    def test_sheet(self):
        """Whether a sheet is read as the case that it is."""
        sheet = content("examples", "thirds.csv")
        proof = "evidence 1\nstep H2\nstep H1\nflow 1 H2 1/3\nend\n"
        self.assertEqual(answer(sheet, proof, "csv", "0.025"), (0, "yes\nlisted H2 H1\nend\n"))
        self.assertEqual(answer(sheet, proof, "csv"), (2, "usage: --alpha gives the level of a sheet\n"))
        self.assertEqual(answer(sheet, proof, "csv", ""), (3, "usage: --alpha: number\n"))
        self.assertEqual(answer(sheet.replace('"H2","1/3"', '"H9","1/3"'), proof, "csv", "1"), (3, "malformed: row 3 column 1: name\n"))
        self.assertEqual(answer(sheet.replace("0.005", "NA"), proof, "csv", "1"), (3, "malformed: case: p missing H2\n"))

    def test_numerals(self):
        """Whether a numeral has the value that its grammar gives it, in particular with zeros in its exponent."""
        for text, wanted in [("1e-00001", "1/10"), ("+.5E+0002", "50"), ("-1.", "-1"), ("010/4", "5/2"), ("0e99999999", "0"), ("0.0", "0")]:
            with self.subTest(text):
                self.assertEqual(check_evidence.numeral(text, "malformed: line 1"), Fraction(wanted))
        for text, wanted in [
            ("1e", (3, "malformed: line 1: number\n")),
            ("1e-1.5", (3, "malformed: line 1: number\n")),
            (".", (3, "malformed: line 1: number\n")),
            ("1_0", (3, "malformed: line 1: number\n")),
            ("1/00", (3, "malformed: line 1: zero denominator\n")),
            ("1e-99999", (4, "limit: line 1: digits\n")),
        ]:
            with self.subTest(text), self.assertRaises(check_evidence.Stop) as stop:
                check_evidence.numeral(text, "malformed: line 1")
            self.assertEqual(stop.exception.args, wanted)

    def test_parentheses(self):
        """Whether 32 parentheses may be open, and 33 are refused by each script in one line."""
        for count, wanted in [(32, 0), (33, 4)]:
            case = SEQUENCE.replace("edge H1 H2 1", "edge H1 H2 " + "(" * count + "1" + ")" * count)
            self.assertEqual(answer(case, KEEP_PROOF)[0], wanted)
        with tempfile.TemporaryDirectory() as room:
            path = os.path.join(room, "case")
            with open(path, "w", encoding="utf-8") as file:
                file.write(SEQUENCE.replace("edge H1 H2 1", "edge H1 H2 " + "(" * 4000 + "1" + ")" * 4000))
            for words in (["check_evidence.py", path, path], ["closed_test.py", path]):
                done = subprocess.run([sys.executable, os.path.join(TOOLS, words[0]), *words[1:]], capture_output=True, text=True)
                self.assertEqual((done.returncode, done.stdout + done.stderr), (4, "limit: line 6: depth\n"), words)

    def test_first_faults(self):
        """Whether a fault of the form of an expression comes before a divisor that is not a number, wherever it is."""
        for text, wanted in [("1/0+", "expression"), ("1/0*(1", "expression"), ("1/\\epsilon/0", "divisor"), ("1/0/\\epsilon", "zero divisor"),
                             (".", "expression"), ("1/.", "expression")]:
            with self.subTest(text), self.assertRaises(check_evidence.Stop) as stop:
                check_evidence.expression(text, "malformed: line 1")
            self.assertEqual(stop.exception.args, (3, f"malformed: line 1: {wanted}\n"))

    def test_forms(self):
        """Whether each case of the tables that is refused as malformed is refused by the same line, in all three forms, and each
        JSON case that is decided is read. Stages are left out: the script refuses them by their kind."""
        counts = dict.fromkeys(("text", "csv", "json"), 0)
        for row in acceptance_rows.all_rows():
            words = " ".join(row.words).replace("=", " ").split()
            given = dict(zip(words, words[1:]))
            form = given.get("--form", "text")
            if words[:1] != ["test"] or row.status not in (0, 3) or b"stages" in row.case or not row.printed:
                continue
            try:
                case = check_evidence.case_of(row.case, form, given.get("--alpha"))
                said = (0, b"") if case.p else (3, b"malformed: kind\n")
            except check_evidence.Stop as stop:
                said = (stop.args[0], stop.args[1].encode())
            counts[form] += 1
            with self.subTest(row.place):
                self.assertEqual(said, (row.status, row.printed[0] if row.status else b""))
        self.assertTrue(all(count > 20 for count in counts.values()), counts)

    def test_json_texts(self):
        """Whether JSON is read exactly: numbers as they are written, and nothing that is not JSON."""
        case = '{"alpha":"1/20","hypotheses":["A"],"p":["0.05"],"components":[{"weights":["1"],"edges":[]}]}'
        proof = "evidence 1\nstep A\nend\n"
        self.assertEqual(answer(case, proof, "json"), (0, "yes\nlisted A\nend\n"))
        self.assertEqual(answer(case.replace("0.05", "0." + "0" * 30 + "5"), proof, "json")[0], 0)
        self.assertEqual(answer(case.replace("0.05", "0.05" + "0" * 20 + "1"), proof, "json"), (1, "no: step 1: above level\n"))
        for old, new, wanted in [
            ('"0.05"', "0.05", "/p/0: not whole"),
            ('"0.05"', "1e999", "json: syntax"),
            ('"0.05"', "NaN", "json: syntax"),
            ('"0.05"', "-0", "/p/0: not whole"),
            ('"0.05"', "18446744073709551616", "/p/0: not whole"),
            ('"0.05"', "true", "/p/0: shape"),
            ('["A"]', '["\\ud800"]', "json: syntax"),
            ('["A"]', '["A\n"]', "json: syntax"),
            ('["A"]', "[1]", "/hypotheses/0: shape"),
            ("{", "\ufeff{", "json: syntax"),
            ("{", '{"stages":{"count":1,"spend":[[1]],"arrivals":[]},', "kind"),
        ]:
            with self.subTest(new):
                self.assertEqual(answer(case.replace(old, new, 1), proof, "json"), (3, f"malformed: {wanted}\n"))

    def test_wide_numbers(self):
        """Whether numbers of any size are decided, and a note says so."""
        wide = 10**60 + 7
        case = f"alpha 1\nhypotheses A B C\np 0 0 0\nweights 1 0 0\nedge A B 1/{wide}\nedge B C 1/{wide + 2}\n"
        proof = f"evidence 1\nstep A\nstep B\nflow 1 A 1\nstep C\nflow 1 A 1\nflow 1 B 1/{wide}\nend\n"
        self.assertEqual(answer(case, proof), (0, "yes\nlisted A B C\nend\n"))
        above = proof.replace(f"B 1/{wide}", f"B 1/{wide - 1}")
        self.assertEqual(answer(case, above), (1, "no: step 3: component 1 flow of B exceeds\n"))
        with tempfile.TemporaryDirectory() as room:
            paths = [os.path.join(room, name) for name in ("case", "proof")]
            for path, text in zip(paths, (case, proof)):
                with open(path, "w", encoding="utf-8") as file:
                    file.write(text)
            done = subprocess.run([sys.executable, os.path.join(TOOLS, "check_evidence.py"), *paths], capture_output=True, text=True)
        self.assertEqual((done.returncode, done.stdout), (0, "yes\nlisted A B C\nend\n"))
        self.assertRegex(done.stderr, "^note: [0-9]+ bits, 1 coefficients: ")

    def test_many_digits(self):
        """Whether the scripts read and print numbers of more digits than Python does by itself, of which each text has fewer."""
        one = "1" + 3990 * "0"
        case = SEQUENCE.replace("edge H1 H2 1", f"edge H1 H2 1/{one}/{one}").replace("edge H2 H3 1", f"edge H2 H3 1/{one}")
        proof = KEEP_PROOF.replace("exit 1 H1 1", f"exit 1 H1 {one}{one}/{one}{one}")
        with tempfile.TemporaryDirectory() as room:
            paths = [os.path.join(room, name) for name in ("case", "wide", "proof")]
            for path, text in zip(paths, (SEQUENCE, case, proof)):
                with open(path, "w", encoding="utf-8") as file:
                    file.write(text)
            for words, wanted in [(["check_evidence.py", paths[0], paths[2]], "yes\nlisted H1\n"), (["closed_test.py", paths[1], "--sets"], f"H2=1/{one}")]:
                done = subprocess.run([sys.executable, os.path.join(TOOLS, words[0]), *words[1:]], capture_output=True, text=True, encoding="utf-8")
                self.assertEqual((done.returncode, wanted in done.stdout), (0, True), done.stderr[-200:])

    def test_no_answer(self):
        """Whether what isn't decided ends with no status of a yes or a no."""
        deep = SEQUENCE.replace("edge H1 H2 1", "edge H1 H2 " + "(" * 4000 + "1" + ")" * 4000)
        self.assertEqual(answer(deep, KEEP_PROOF), (4, "limit: line 6: depth\n"))
        self.assertEqual(answer(SEQUENCE.replace("0.025", "0." + "1" * 9000), KEEP_PROOF)[0], 4)
        done = subprocess.run([sys.executable, os.path.join(TOOLS, "check_evidence.py"), "no such file", "nor this"], capture_output=True)
        self.assertEqual((done.returncode, done.stdout), (2, b""))

    @unittest.skipUnless(os.path.exists("/proc/self/mem"), "no file that cannot be read")
    def test_no_files(self):
        """Whether a file that cannot be read, and no memory, end with the statuses of the program, and a closed output with the answer's."""
        with tempfile.TemporaryDirectory() as room:
            paths = [os.path.join(room, name) for name in ("case", "proof", "many")]
            for path, text in zip(paths, (SEQUENCE, KEEP_PROOF, KEEP_PROOF + 2 * 10**6 * "#\n")):
                with open(path, "w", encoding="utf-8") as file:
                    file.write(text)
            for shell, words, wanted in [("", [paths[0], "/proc/self/mem"], (6, "read fault\n")), ("ulimit -v 300000; ", [paths[0], paths[2]], (8, "no memory\n")),
                                         ("exec >&-; ", paths[:2], (0, ""))]:
                script = [sys.executable, os.path.join(TOOLS, "check_evidence.py"), *words]
                done = subprocess.run(["sh", "-c", shell + 'exec "$@"', "sh", *script], capture_output=True, text=True)
                self.assertEqual((done.returncode, done.stdout), wanted, done.stderr)

    def test_help(self):
        """Whether each script for reviewers that is a command says what it is for, what it reads, and what it prints."""
        for name, purpose, reads in [("check_evidence", "Checks whether a document is evidence", "CASE and EVIDENCE are files"),
                                     ("closed_test", "Decides a graphical test by its definition", "CASE is a file"),
                                     ("make_evidence", "Makes evidence for the decision", "CASE is a text"),
                                     ("check_page", "Checks whether the page of a decision", "PAGE is a file")]:
            done = subprocess.run([sys.executable, os.path.join(TOOLS, f"{name}.py"), "--help"], capture_output=True, text=True)
            self.assertEqual((done.returncode, done.stderr), (0, ""))
            for text in (purpose, reads, "status", "shares no"):
                self.assertIn(text, " ".join(done.stdout.split()), name)

    def test_length(self):
        """Whether the scripts for reviewers are short."""
        self.assertLessEqual(content("tools", "check_evidence.py").count("\n"), 410)
        self.assertLessEqual(content("tools", "closed_test.py").count("\n"), 210)
        self.assertLessEqual(content("tools", "staged_case.py").count("\n"), 160)
        self.assertLessEqual(content("tools", "make_evidence.py").count("\n"), 252)


class ClosedTest(unittest.TestCase):
    def lines(self, case, *words):
        with tempfile.TemporaryDirectory() as room:
            path = os.path.join(room, "case")
            with open(path, "w", encoding="utf-8") as file:
                file.write(case)
            done = subprocess.run([sys.executable, os.path.join(TOOLS, "closed_test.py"), path, *words], capture_output=True, text=True)
        return done.returncode, done.stdout.splitlines()

    def test_sets(self):
        """Whether the sets, their weights and what rejects them are printed."""
        self.assertEqual(
            self.lines(SEQUENCE, "--sets"),
            (
                0,
                [
                    "set H1=1 H2=0 H3=0 rejected by H1",
                    "set H2=1 H3=0 not rejected",
                    "set H3=1 rejected by H3",
                    "set H2=1 not rejected",
                    "set H1=1 H3=0 rejected by H1",
                    "set H1=1 rejected by H1",
                    "set H1=1 H2=0 rejected by H1",
                    "alpha 1/40",
                    "rejected H1",
                    "kept H2 in H2 H3",
                    "kept H3 in H2 H3",
                    "end",
                ],
            ),
        )

    def test_least_solutions(self):
        """Whether weight that goes round for ever arrives nowhere: A and B pass all to each other."""
        case = "alpha 1\nhypotheses A B C\np 0 0 0\nweights 1/2 0 1/4\nedge A B 1\nedge B A 1\n"
        self.assertIn("set C=1/4 rejected by C", self.lines(case, "--sets")[1])
        case = "alpha 1\nhypotheses A B C\np 0 0 0\nweights 1/2 0 1/4\nedge A B 1\nedge B A 1-\\epsilon\nedge B C \\epsilon\n"
        self.assertIn("set C=3/4 rejected by C", self.lines(case, "--sets")[1])

    def test_no_weight(self):
        """Whether a p-value of 0 rejects nothing at a weight of 0."""
        case = "alpha 1\nhypotheses A B\np 1/2 0\nweights 1/4 0\n"
        sets = ["set A=1/4 B=0 not rejected", "set B=0 not rejected", "set A=1/4 not rejected"]
        self.assertEqual(self.lines(case, "--sets"), (0, [*sets, "alpha 1", "rejected", "kept A in A B", "kept B in A B", "end"]))

    def test_limits(self):
        """Whether more than 12 hypotheses are refused, and cases that check_evidence.py refuses."""
        names = " ".join(f"H{i}" for i in range(13))
        case = f"alpha 1\nhypotheses {names}\np{' 0' * 13}\nweights{' 0' * 13}\n"
        self.assertEqual(self.lines(case), (4, ["limit: hypotheses 13"]))
        self.assertEqual(self.lines("alpha 1\n"), (3, ["malformed: line 2: ended"]))


class Sixteen(unittest.TestCase):
    def test_digests(self):
        """Whether the digests of the reports on Holm's graph of sixteen are those of texts that two rules make: each weight is 1
        divided by the size of its set, and each bound is the size."""
        sets = [members for members in self.sets(list(range(1, 17)), 1) if members]
        self.assertEqual(len(sets), 65535)
        weights = ["set " + " ".join(f"H{k}={Fraction(1, len(members))}" for k in members) for members in sets]
        bounds = [f"bound {len(members)} of " + " ".join(f"H{k}" for k in members) for members in sets]
        tops = [f"top {k} bound {k}" for k in range(1, 17)] + [" ".join(["rejected", *(f"H{k}" for k in range(1, 17))])]
        rows = content("crates", "acceptance", "data", "sixteen.rows")
        for word, lines in {"weights": weights, "bounds": bounds, "simes": bounds + tops}.items():
            text = "".join(line + "\n" for line in [f"{word} 16", *lines, "end"])
            counts = re.search(rf"^run {word}$.*?^counts (.*?)$", rows, re.MULTILINE | re.DOTALL)
            self.assertEqual(counts.group(1), f"{len(lines) + 2} {self.digest(text.encode()):016x}")

    def sets(self, members, first):
        """A set, and those that leave out one more hypothesis, later than the ones left out so far."""
        yield members
        for k in range(first, 17):
            yield from self.sets([other for other in members if other != k], k + 1)

    def digest(self, text):
        """The FNV-1a digest, of 64 bits."""
        digest = 0xCBF29CE484222325
        for byte in text:
            digest = ((digest ^ byte) * 0x100000001B3) & 0xFFFFFFFFFFFFFFFF
        return digest


def drawn(text, **how):
    """The picture of a canonical text."""
    case = read_canonical(text)
    return _picture.picture_of(_picture.Drawn(case.names, case.alpha, case.p, case.components), **how)


needs_program = unittest.skipUnless(os.access(PROGRAM, os.X_OK), "the program isn't built")


class Pictures(unittest.TestCase):
    def picture(self, *words):
        done = subprocess.run([sys.executable, os.path.join(TOOLS, "draw.py"), *words], capture_output=True, text=True, encoding="utf-8")
        self.assertEqual(done.returncode, 0, done.stderr)
        return done.stdout

    @needs_program
    def test_examples(self):
        """Whether each example is drawn: a circle for each hypothesis and an arrow for each edge, all within the picture."""
        for row in {row.file: row for row in ROWS if row.file.endswith((".txt", ".csv"))}.values():
            with self.subTest(row.file):
                words = ["--form", "csv", "--alpha", "0.025"] if row.file.endswith(".csv") else []
                root = xml.etree.ElementTree.fromstring(self.picture(os.path.join(TOP, "examples", row.file), *words))
                circles, arrows = list(root.iter(SVG + "circle")), list(root.iter(SVG + "path"))
                arrows = [arrow for arrow in arrows if "marker-end" in arrow.attrib]
                if not words:
                    names = re.search(r"(?m)^hypotheses (.*)$", row.text("case"))[1].split()
                    self.assertEqual(len(circles), len(names))
                    self.assertEqual(len(arrows), len(re.findall("(?m)^edge ", row.text("case"))))
                    self.assertLessEqual(set(names), {text.text for text in root.iter(SVG + "text")})
                left, top, width, height = map(float, root.get("viewBox").split())
                for shape in [*circles, *root.iter(SVG + "text"), *root.iter(SVG + "rect")]:
                    x, y = (float(shape.get(name) or shape.get("c" + name)) for name in "xy")
                    self.assertTrue(left <= x <= left + width and top <= y <= top + height, shape.attrib)

    @needs_program
    def test_report(self):
        """Whether what a report rejects is marked, with its step; the picture of the README is such a one."""
        row = next(row for row in ROWS if row.file == "holm.txt")
        with tempfile.TemporaryDirectory() as room:
            report = os.path.join(room, "report")
            with open(report, "w", encoding="utf-8") as file:
                file.write(row.text("ends"))
            drawn = self.picture(os.path.join(TOP, "examples", "holm.txt"), report)
        self.assertEqual(drawn, content("docs", "pictures", "holm.svg"))
        texts = [text.text for text in xml.etree.ElementTree.fromstring(drawn).iter(SVG + "text")]
        self.assertLessEqual({"H1", "H2", "H3", "1", "2", "3", "1/3", "level α = 0.025"}, set(texts))

    @needs_program
    def test_other_reports(self):
        """Whether a text that is not the report of test on the case is refused by one line, and nothing is drawn."""
        report = next(row for row in ROWS if row.file == "holm.txt").text("ends")
        five = next(row for row in ROWS if row.file == "holm-five.txt").text("ends")
        case = os.path.join(TOP, "examples", "holm.txt")
        changes = [
            ("alpha 1/40\n", ""), ("alpha 1/40", "alpha 1/20"), ("end\n", ""), ("H3 p", "H4 p"), ("p 1/50", "p 1/40"), ("step 3 H3 p 1/50 weight 1\n", ""),
            ("rejected H1 H2 H3", "rejected H1 H2"), ("adjusted H3 1/50\n", ""), (report, five), (report, ""), (report, content("examples", "holm.txt")),
            (report, "too wide: step 3: component 1 weight of H4 mul\n"), (report, "malformed: kind\n"), ("weight 1/3", "weight 1/4"),
            ("adjusted H1 1/50", "adjusted H1 1/400"),
        ]
        with tempfile.TemporaryDirectory() as room:
            path = os.path.join(room, "report")
            for old, new in changes:
                with self.subTest(new):
                    self.assertIn(old, report)
                    with open(path, "w", encoding="utf-8") as file:
                        file.write(report.replace(old, new))
                    done = subprocess.run([sys.executable, os.path.join(TOOLS, "draw.py"), case, path], capture_output=True, text=True)
                    self.assertEqual((done.returncode, done.stdout, done.stderr.count("\n")), (1, "", 1))

    def test_frame(self):
        """Whether arrows that are bowed around circles stay within the picture: each of sixteen hypotheses passes to each other."""
        names = [f"H{i}" for i in range(16)]
        lines = ["alpha 1", "hypotheses " + " ".join(names), "weights" + " 1/16" * 16]
        text = "\n".join([*lines, *(f"edge {a} {b} 1/15" for a in names for b in names if a != b), ""])
        root = xml.etree.ElementTree.fromstring(drawn(text))
        left, top, width, height = map(float, root.get("viewBox").split())
        for path in root.iter(SVG + "path"):
            if "marker-end" in path.attrib:
                (a, b), (p, q), (e, f) = ((float(x) for x in point.split(",")) for point in re.findall(r"[-0-9.]+,[-0-9.]+", path.get("d")))
                x, y = (a + 2 * p + e) / 4, (b + 2 * q + f) / 4
                self.assertTrue(left < x < left + width and top < y < top + height, path.attrib)

    def test_inline(self):
        """Whether a picture in a page names and describes itself, and keeps its names apart from those of others."""
        case = "alpha 1/40\nhypotheses H1 H2\nweights 1 0\nedge H1 H2 1\n"
        root = xml.etree.ElementTree.fromstring(drawn(case, prefix="one-", title="A <graph>", description="H1 & others"))
        self.assertEqual((root.get("role"), root.get("aria-labelledby")), ("img", "one-title one-desc"))
        texts = {it.get("id"): it.text for it in [*root.iter(SVG + "title"), *root.iter(SVG + "desc")]}
        self.assertEqual(texts, {"one-title": "A <graph>", "one-desc": "H1 & others"})
        self.assertEqual([it.get("id") for it in root.iter(SVG + "marker")], ["one-head0"])
        self.assertEqual({it.get("marker-end") for it in root.iter(SVG + "path")} - {None}, {"url(#one-head0)"})

    def test_edge_text(self):
        """Whether an edge is written as a reader expects it."""
        for text, wanted in [("1-\\epsilon", "1−ε"), ("1/2-1/2*\\epsilon", "1/2−1/2·ε"), ("\\epsilon^2", "ε²"), ("1/2", "1/2"),
                             ("1-12345678901*\\epsilon", "1−≈1.235e+10·ε"), (f"1-1{400 * '0'}*\\epsilon", "1−≈10^400·ε"),
                             (f"1/3-12{300 * '0'}*\\epsilon^2", "1/3−≈10^301·ε²")]:
            self.assertEqual(_picture.number_text(edge_of(text)), wanted)

    def test_labels(self):
        """Whether two labels that differ only at their ends look different in a picture, and no label is shortened."""
        labels = [f"Change from baseline in HbA1c at week 26, semaglutide {dose} mg vs placebo" for dose in (5, 10)]
        case = read_canonical("alpha 1/40\nhypotheses H1 H2\nweights 1/2 1/2\nedge H1 H2 1\n")
        for own, tags in [(labels, False), ([f"{label}, {80 * 'x'}" for label in labels], True), ([labels[0] + "y" * 40, "H1"], True)]:
            components = [part.renamed(dict(zip(case.names, own))) for part in case.components]
            text = _picture.picture_of(_picture.Drawn(own, case.alpha, None, components))
            texts = [it.text for it in xml.etree.ElementTree.fromstring(text).iter(SVG + "text")]
            self.assertNotIn("…", "".join(texts))
            shown = "".join(texts).replace("\u00a0", "").replace(" ", "")
            for label in own:
                self.assertIn(label.replace(" ", ""), shown)
            self.assertEqual(("H1" in texts, "A1" in texts), (tags, own[1] == "H1"))


class Readers(unittest.TestCase):
    def test_a_reader_that_ends_first(self):
        """Whether a script whose reader takes only the first lines, as `head` does, ends without a trace."""
        names = [f"a-long-name-of-a-hypothesis-{i}" for i in range(64)]
        edges = [f"edge {a} {b} 1/63" for a in names for b in names if a != b]
        lines = ["alpha 1", "hypotheses " + " ".join(names), "p" + " 0" * 64, "weights 1" + " 0" * 63, *edges[: 63 * 8]]
        with tempfile.NamedTemporaryFile("w", suffix=".txt") as file:
            file.write("\n".join([*lines, ""]))
            file.flush()
            for words in [["make_evidence.py", file.name], *([["draw.py", file.name]] if os.access(PROGRAM, os.X_OK) else [])]:
                script = [sys.executable, os.path.join(TOOLS, words[0]), *words[1:]]
                done = subprocess.run(["sh", "-c", '"$@" | head -c 1', "sh", *script], capture_output=True)
                self.assertEqual((len(done.stdout), done.stderr), (1, b""), words)


    def test_without_the_signal(self):
        """Whether each script runs where there is no SIGPIPE, as on Windows, and where Python leaves the folder of a script out of its
        path."""
        case = os.path.join(TOP, "examples", "holm.txt")
        with tempfile.TemporaryDirectory() as room:
            with open(os.path.join(room, "sitecustomize.py"), "w", encoding="utf-8") as file:
                file.write("import signal\ndel signal.SIGPIPE\n")
            evidence = os.path.join(room, "evidence.txt")
            scripts = [["make_evidence.py", case], ["check_evidence.py", case, evidence], ["closed_test.py", case]]
            scripts += [["draw.py", case], ["report.py", case]] if os.access(PROGRAM, os.X_OK) else []
            for words in scripts:
                done = subprocess.run([sys.executable, os.path.join(TOOLS, words[0]), *words[1:]], capture_output=True, text=True, encoding="utf-8",
                                      cwd=room, env={**os.environ, "PYTHONPATH": room, "PYTHONSAFEPATH": "1"})
                self.assertEqual((done.returncode, done.stderr), (0, ""), words)
                if words[0] == "make_evidence.py":
                    with open(evidence, "w", encoding="ascii") as file:
                        file.write(done.stdout)


class Manual(unittest.TestCase):
    def test_page(self):
        """Whether the manual page has each command with an example, and each status."""
        page = content("docs", "welungad.1").replace("\\-", "-")
        for command in COMMANDS:
            self.assertRegex(page, rf"(?m)^\.BI? {command}( |$)")
            self.assertRegex(page, rf"(?m)^\$ welungad {command}( |$)")
        for status in range(11):
            self.assertIn(f"\n.TP\n.B {status}\n", page)

    def test_help(self):
        """Whether REPORTS.md has what `help` prints, and README.md a row for each command; and whether random calls use each."""
        self.assertIn("\n\n" + "".join(f"    {line}\n" for line in HELP), content("docs", "REPORTS.md"))
        for command in {*COMMANDS, "help"}:
            self.assertRegex(content("README.md"), rf"(?m)^\| `{command}[ `]")
            self.assertIn(command, hostile.WORDS)

    @unittest.skipUnless(shutil.which("man"), "man is missing")
    def test_warnings(self):
        """Whether man shows the page without a warning."""
        path = os.path.join(TOP, "docs", "welungad.1")
        done = subprocess.run(["man", "--warnings", "-l", path], capture_output=True, text=True, env={**os.environ, "MANPAGER": "cat"})
        self.assertEqual((done.returncode, done.stderr), (0, ""))
        self.assertIn("WELUNGAD(1)", done.stdout)


@unittest.skipUnless(os.access(PROGRAM, os.X_OK), "the program isn't built")
class Program(unittest.TestCase):
    def test_agreement(self):
        """Whether the program and the checkers agree on some cases. bench/checkers.py compares many."""
        words = "--documents 200 --damaged 200 --closed 60 --staged 60 --own 0 --seed 7 --jobs 2".split()
        done = subprocess.run([sys.executable, os.path.join(TOP, "bench", "checkers.py"), *words], capture_output=True, text=True)
        self.assertEqual((done.returncode, done.stderr), (0, ""), done.stdout)
        self.assertIn("\n0 disagreements\n", done.stdout)

    def test_archive(self):
        """Whether the commands of the page on archives print what it shows."""
        page = content("docs", "ARCHIVE.md")
        with open(os.path.join(TOP, "examples", "diabetes.txt"), encoding="utf-8") as file:
            case = subprocess.run([PROGRAM, "canon"], stdin=file, capture_output=True, text=True).stdout
        with tempfile.TemporaryDirectory() as room:
            made = {"case.txt": case}
            for name, words in (("report.txt", ["test"]), ("evidence.txt", ["evidence"]), ("check.txt", ["check", "evidence.txt"])):
                made[name] = subprocess.run([PROGRAM, *words], input=case, capture_output=True, text=True, cwd=room).stdout
                with open(os.path.join(room, name), "w", encoding="utf-8") as file:
                    file.write(made[name])
        self.assertIn("".join(f"        {line}\n" for line in made["check.txt"].splitlines()), page)
        for name in ("case.txt", "report.txt", "evidence.txt"):
            digest = hashlib.sha256(made[name].encode()).hexdigest()
            self.assertIn(f"{digest[:8]}..  {name}\n", page)

    def test_words_that_are_no_text(self):
        """Whether a word that isn't UTF-8 ends the call with 10 before anything is read or printed, wherever it stands."""
        for words in ([b"\xff"], [b"test", b"\xff"], [b"\xc3(", b"test"], [b"check", b"a\x80.txt"]):
            done = subprocess.run([PROGRAM, *words], stdin=subprocess.DEVNULL, capture_output=True)
            self.assertEqual((done.returncode, done.stdout, done.stderr), (10, b"", b""), words)


if __name__ == "__main__":
    unittest.main()
