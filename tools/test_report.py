"""Tests of the page of a decision, and of report.py, which writes it. `tools/run_tests.sh` runs them.

    python3 test_report.py --pages N [--seed S]

compares each number of the pages of N random cases with the program's reports, which the tests do for few.
"""
import argparse
import hashlib
import html.parser
import os
import random
import re
import subprocess
import sys
import tempfile
import unittest
from fractions import Fraction
from unittest import mock

TOOLS = os.path.dirname(os.path.abspath(__file__))
TOP = os.path.dirname(TOOLS)
sys.path[:0] = [TOOLS, os.path.join(TOP, "bench"), os.path.join(TOP, "python", "tests"), os.path.join(TOP, "python")]

import acceptance_rows  # noqa: E402
import checkers  # noqa: E402
import test_tools  # noqa: E402
from welungad import _files, _page, _picture, _refusals, _reports  # noqa: E402
from welungad._case import Canonical  # noqa: E402
from welungad._findings import Findings  # noqa: E402
from welungad._refusals import BadAnswer  # noqa: E402
from welungad._updates import Calls  # noqa: E402

VOID = {"meta", "br"}


class Element:
    """An element of a page: its name, its attributes, and the elements and texts in it."""

    def __init__(self, name, attributes):
        self.name, self.attributes, self.content = name, dict(attributes), []

    def all(self, *names):
        """Yields the elements with these names in it, in their order."""
        for part in self.content:
            if isinstance(part, Element):
                if part.name in names:
                    yield part
                yield from part.all(*names)

    def text(self):
        return "".join(part if isinstance(part, str) else part.text() for part in self.content)


class Reader(html.parser.HTMLParser):
    """Reads a page, each of whose elements has to be closed where it was opened."""

    def __init__(self, page):
        super().__init__(convert_charrefs=True)
        self.open = [Element("", {})]
        self.feed(page)
        self.close()
        [self.page] = self.open

    def handle_starttag(self, name, attributes):
        self.open[-1].content.append(Element(name, attributes))
        if name not in VOID:
            self.open.append(self.open[-1].content[-1])

    def handle_startendtag(self, name, attributes):
        self.open[-1].content.append(Element(name, attributes))

    def handle_endtag(self, name):
        closed = self.open.pop()
        assert closed.name == name, (closed.name, name)

    def handle_data(self, text):
        self.open[-1].content.append(text)


def read(page):
    return Reader(page).page


def text_of_picture(figure):
    return "".join(it.text() for it in figure.all("text"))


def rows_of(page, name):
    """The texts of the cells of the table whose caption has this name."""
    for table in page.all("table"):
        if next(table.all("caption")).attributes["id"] == name:
            return [[cell.text() for cell in row.all("th", "td")] for row in table.all("tr")]
    return None


def pre_of(page, name):
    """The first text in a section, by the name of the section."""
    parts = [*page.all("h2", "pre")]
    at = next(n for n, it in enumerate(parts) if it.attributes.get("id") == name)
    return next(it.text() for it in parts[at:] if it.name == "pre")


# ---- two hypotheses, whose reports are by hand

CASE = "# two <doses>\nalpha 0.05\nhypotheses H1 H2\np 0.025 0.026\nweights 1/2 1/2\n"
CANON = "alpha 1/20\nhypotheses H1 H2\np 1/40 13/500\nweights 1/2 1/2\n"
TEST = """alpha 1/20
step 1 H1 p 1/40 weight 1/2
kept H2 p 13/500 weight 1/2
rejected H1
adjusted H1 1/20
adjusted H2 13/250
end
"""
START = """alpha 1/2
kept H1 p 1 weight 1/2
kept H2 p 1 weight 1/2
rejected
adjusted H1 1 not reached
adjusted H2 1 not reached
end
"""
AFTER = """alpha 1/2
step 1 H1 p 0 weight 1/2
kept H2 p 1 weight 1/2
rejected H1
adjusted H1 0
adjusted H2 1 not reached
end
"""
WEIGHTS = "weights 2\nset H1=1/2 H2=1/2\nset H2=1/2\nset H1=1/2\nend\n"
BOUNDS = "bounds 2\nbound 1 of H1 H2\nbound 0 of H2\nbound 1 of H1\nend\n"
ANSWERS = {
    ("canon", CASE): CANON,
    ("canon", CANON): CANON,
    ("test", CANON): TEST,
    ("test", CANON.replace("alpha 1/20", "alpha 1/2").replace("p 1/40 13/500", "p 1 1")): START,
    ("test", CANON.replace("alpha 1/20", "alpha 1/2").replace("p 1/40 13/500", "p 0 1")): AFTER,
    ("weights", CANON): WEIGHTS,
    ("bounds", CANON): BOUNDS,
    ("evidence", CANON): "evidence 2\nstep H1\nkeep H2\nexit 1 H1 0\nend\n",
}


CHECKED = "yes\nlisted H1\nkept H2\nend\n"


def answering(**others):
    """A function that answers as the program does, but for the commands that are given."""
    def run(words, case):
        given = others.get(words[0], CHECKED if words[0] == "check" else ANSWERS.get((words[0], case), (1, "")))
        return given if isinstance(given, tuple) else (0, given)
    return run


def calls(run):
    """The calls that a function answers with texts."""
    def in_bytes(words, case):
        status, text = run(words, case)
        return status, text.encode("latin-1")
    return Calls(in_bytes, check=lambda case, evidence: in_bytes(["check", evidence], case))


def document(case, run, **how):
    return _page.document(case, calls(run), **how)


def page_of(case, run, **how):
    return document(case, run, **how)[1]


def read_report(command, text, names):
    functions = {"test": _reports.read_decision, "stages": _reports.read_stages, "bounds": _reports.read_bounds}
    return _reports.read_whole(command, text, dict(zip(names, names)), functions[command])


def put_program(path, script):
    """Writes a program with the stamp that says that it is the proved one."""
    with open(path, "w", encoding="utf-8") as file:
        file.write(script)
    os.chmod(path, 0o755)
    with open(os.path.join(os.path.dirname(path), "stamp"), "w", encoding="ascii") as file:
        file.write(f"sha256 {os.path.basename(path)} {hashlib.sha256(script.encode()).hexdigest()}\n")


class Form(unittest.TestCase):
    def check_form(self, text):
        """Makes sure that a page is accessible, and that it needs nothing else."""
        page = read(text)
        [root] = [part for part in page.content if isinstance(part, Element)]
        self.assertEqual((root.name, root.attributes), ("html", {"lang": "en"}))
        self.assertTrue(next(root.all("title")).text())
        levels = [int(heading.name[1]) for heading in root.all("h1", "h2", "h3", "h4")]
        self.assertEqual((levels[0], levels.count(1)), (1, 1))
        self.assertTrue(all(after <= before + 1 for before, after in zip(levels, levels[1:])), levels)
        names = [it.attributes["id"] for it in root.all("title", "desc", "caption", "marker") if "id" in it.attributes]
        self.assertEqual(len(names), len({*names}))
        for table in root.all("table"):
            self.assertEqual(len([*table.all("caption")]), 1)
            self.assertTrue(all(cell.attributes["scope"] in ("row", "col") for cell in table.all("th")))
            rows = [[cell.name for cell in row.all("th", "td")] for row in table.all("tr")]
            self.assertTrue(all(len(row) == len(rows[0]) and row[0] == "th" for row in rows), rows)
        for picture in root.all("svg"):
            self.assertEqual(picture.attributes["role"], "img")
            labels = [it.attributes["id"] for it in picture.all("title", "desc") if it.text()]
            self.assertEqual(picture.attributes["aria-labelledby"].split(), labels)
        self.assertEqual([*root.all("script", "link", "img", "iframe", "object", "image")], [])
        self.assertNotRegex(text.replace("http://www.w3.org/2000/svg", ""), r"https?:|url\((?!#)|@import|\bon[a-z]+=|\bsrc=")
        return page


class Pages(Form):
    def test_two_hypotheses(self):
        """Whether the page has the numbers of the reports, which are by hand."""
        page = self.check_form(page_of(CASE, answering(), file="two.txt", program=[("SHA-256 digest of the program", "abc")]))
        head = ["Hypothesis", "Decision", "p-value", "Level when tested", "Weight when tested", "Adjusted p-value", "Weight at the start",
                "Level at the start"]
        half, level = "1/2 = 0.5", "1/40 = 0.025"
        self.assertEqual(rows_of(page, "decision"), [
            head,
            ["H1", "rejected, step 1", level, level, half, "1/20 = 0.05", half, level],
            ["H2", "not rejected", "13/500 = 0.026", level, half, "13/250 = 0.052", half, level],
        ])
        self.assertEqual(rows_of(page, "sets"), [
            ["Intersection of", "Weight of H1", "Weight of H2", "Local test rejects", "Closed test rejects", "False hypotheses, at least"],
            ["H1, H2", "1/2", "1/2", "yes", "yes", "1"],
            ["H1", "1/2", "–", "yes", "yes", "1"],
            ["H2", "–", "1/2", "no", "no", "0"],
        ])
        self.assertEqual(rows_of(page, "bounds")[1:], [["1", "H1", "1"], ["2", "H1 and H2", "1"]])
        pictures = [*page.all("figure")]
        self.assertEqual([next(it.all("figcaption")).text() for it in pictures], ["Before the first rejection", "After step 1: H1 is rejected, the end"])
        self.assertEqual([next(it.all("desc")).text() for it in pictures],
                         ["H1 has the weight 1/2. H2 has the weight 1/2.", "Rejected: H1. H2 has the weight 1/2."])
        self.assertEqual([pre_of(page, name) for name in ("given", "case", "report")], [CASE.rstrip("\n"), CANON, TEST])
        self.assertIn("welungad canon < two.txt > case.txt\n", pre_of(page, "program"))
        self.assertEqual(rows_of(page, "graph-1")[1:], [["H1", half, "nothing"], ["H2", half, "nothing"]])
        self.assertEqual(rows_of(page, "checks")[1:], [
            ["welungad check", CHECKED], ["check_evidence.py", CHECKED],
            ["closed_test.py", "alpha 1/20\nrejected H1\nkept H2 in H2\nadjusted H1 1/20\nadjusted H2 13/250\nend\n"],
        ])
        self.assertIn(hashlib.sha256(ANSWERS["evidence", CANON].encode()).hexdigest(), page.text())
        self.assertIn(hashlib.sha256(CANON.encode()).hexdigest(), page.text())
        self.assertIn("SHA-256 digest of the programabc", page.text())
        self.assertIn("At the level 1/20 = 0.05, the test rejects H1. It does not reject H2.", page.text())

    def test_other_reports(self):
        """Whether there is no page if a report lacks its end, is of another command or case, or disagrees with another report."""
        changes = {
            "canon": [(CANON, ""), (CANON, CASE), (CANON, TEST), ("1/20", "0.05"), ("H2", "H1"), ("1/2\n", "1/2 1\n"), ("1/40", "1/50"),
                      ("1/20", "1/10"), ("1/2 1/2", "1/2 1/3"), ("weights", "component 1/2\nweights"), ("1/2\n", "1/2\nedge H1 H2 1\n")],
            "test": [
                (TEST, ""), (TEST, CANON), (TEST, START), ("end\n", ""), ("end\n", "end\nend\n"), ("H2", "H3"), ("alpha 1/20", "alpha 1/40"),
                ("p 1/40", "p 1/50"), ("step 1", "step 2"), ("rejected H1", "rejected"), ("rejected H1", "rejected H1 H2"),
                ("13/250", "26/500"), ("adjusted H2 13/250\n", ""), ("1/20\n", "0.05\n"), ("kept H2 p 13/500 weight 1/2\n", ""),
                ("weight 1/2\nrejected", "weight 1/3\nrejected"), ("1 H1 p 1/40 weight 1/2", "1 H1 p 1/40 weight 2/3"),
                ("rejected H1\n", "rejected H1\n\n"), ("adjusted H1", "adjusted H2"),
            ],
            "weights": [(WEIGHTS, ""), (WEIGHTS, BOUNDS), ("end\n", ""), ("weights 2", "weights 3"), ("set H2=1/2\n", ""), ("set H1=1/2\nend", "set H2=1/2\nend"),
                        ("set H2=1/2\nset H1=1/2\n", "set H1=1/2\nset H2=1/2\n"), ("set H2=1/2\n", "set H2=1\n")],
            "bounds": [(BOUNDS, ""), (BOUNDS, WEIGHTS), ("end\n", ""), ("bound 1 of H1\n", ""), ("bound 0 of H2", "bound 2 of H2"),
                       ("bound 0 of H2", "bound 1 of H2"), ("bound 1 of H1 H2", "bound 1 of H2 H1")],
        }
        true = {"canon": CANON, "test": TEST, "weights": WEIGHTS, "bounds": BOUNDS}
        for command, pairs in changes.items():
            for old, new in pairs:
                text = true[command].replace(old, new)
                self.assertNotEqual(text, true[command])

                def run(words, case, command=command, text=text):
                    first = (words[0], case) in ANSWERS and case in (CASE, CANON)
                    return (0, text) if words[0] == command and first else answering()(words, case)

                with self.subTest(command=command, text=text), self.assertRaises(BadAnswer):
                    page_of(CASE, run)

    def test_another_case(self):
        """Whether there is no page if the canonical text is that of another case than the user gave, or not canonical."""
        for old, new in [("0.026", "0.027"), ("alpha 0.05", "alpha 0.06"), ("H2", "H3"), ("weights 1/2", "weights 1/3"), ("1/2\n", "1/2\nedge H1 H2 1\n")]:
            with self.subTest(new), self.assertRaises(BadAnswer):
                page_of(CASE.replace(old, new), answering(canon=(0, CANON)))
        with self.assertRaises(BadAnswer):
            page_of(CASE, lambda words, case: (0, START) if (words[0], case) == ("canon", CANON) else answering()(words, case))
        with self.assertRaisesRegex(BadAnswer, "^the program takes a case that check_evidence.py refuses: malformed: case: weight sum"):
            page_of(CASE.replace("weights 1/2", "weights 1"), answering(canon=(0, CANON)))
        sheet = "hypothesis,weight,p,H1,H2\nH1,1/2,0.025,0,0\nH2,0.5,0.026,0,0\n"
        whole = '{"alpha":"0.05","hypotheses":["H1","H2"],"p":["1/40","0.026"],"components":[{"weights":["1/2","1/2"],"edges":[]}]}'
        for form, alpha, given in [("csv", "0.05", sheet), ("json", None, whole)]:
            self.assertIn("<h1>", page_of(given, answering(canon=CANON), form=form, alpha=alpha))
            with self.subTest(form), self.assertRaises(BadAnswer):
                page_of(given.replace("0.026", "0.027"), answering(canon=CANON), form=form, alpha=alpha)

    def test_bounds(self):
        """Whether no bound is above the number of the hypotheses in its set."""
        with self.assertRaisesRegex(BadAnswer, "line 3: it is not a bound of 'H2'"):
            read_report("bounds", BOUNDS.replace("bound 0 of H2", "bound 2 of H2"), ["H1", "H2"])

    def test_twice(self):
        """Whether no report rejects a hypothesis twice."""
        again = TEST.replace("kept H2", "step 2 H1 p 1/40 weight 1/2\nkept H2")
        with self.assertRaisesRegex(BadAnswer, "line 3: 'H1' is rejected twice"):
            read_report("test", again, ["H1", "H2"])
        again = LOOKS.replace("arrive OS 1 1/50\n", "arrive OS 1 1/50\nreject PFS stage 1 weight 1\n")
        with self.assertRaisesRegex(BadAnswer, "line 5: 'PFS' is rejected twice"):
            read_report("stages", again, ["PFS", "OS"])

    def test_graphs_disagree(self):
        """Whether there is no page if the program's weights before or after a rejection are not those of the decision."""
        def run(words, case):
            status, text = answering()(words, case)
            return status, text.replace("kept H2 p 1 weight 1/2", "kept H2 p 1 weight 1/3") if text == disagreeing else text
        for disagreeing in (START, AFTER):
            with self.assertRaises(BadAnswer):
                page_of(CASE, run)

    def test_refusals(self):
        """Whether a refused case has a page with the cause and the cure, and marks the line."""
        bad = CASE.replace("0.025", "2.5% <b>")
        status, text = document(bad, answering(canon=(3, "malformed: line 4: number\n")), file="a b.txt")
        page = self.check_form(text)
        self.assertEqual(status, 3)
        self.assertEqual([it.text() for it in page.all("mark")], ["p 2.5% <b> 0.026"])
        self.assertEqual([it.text() for told in page.all("dl") if told.attributes.get("class") != "facts" for it in told.all("dd")][:3], [
            "malformed: line 4: number (status 3 of canon)", "A word is not a numeral.",
            "Write 0.025, 1/40 or 2.5e-2; no percent sign, no decimal comma.",
        ])
        self.assertIn("welungad canon < 'a b.txt'", page.text())
        status, text = document(CASE, answering(test=(5, "too wide: step 3: component 1 weight of H4 mul\n")))
        self.assertEqual(status, 5)
        self.assertIn("2^127", self.check_form(text).text())
        self.assertIn("python3 tools/make_evidence.py case.txt > evidence.txt\nwelungad check evidence.txt < case.txt\n", read(text).text())
        for status, said in [(3, ""), (3, "malformed: kind"), (-11, ""), (3, "malformed: kind\nmore\n")]:
            with self.assertRaises(BadAnswer):
                page_of(CASE, answering(canon=(status, said)))

    def test_partial_refusals(self):
        """Whether a refusal of one of the other reports is in its section, and the decision stays."""
        wide = "too wide: set H1: component 1 weight of H2 mul\n"
        page = self.check_form(page_of(CASE, answering(weights=(5, wide), bounds=(5, wide), evidence=(5, wide))))
        self.assertEqual(len(rows_of(page, "decision")), 3)
        self.assertIsNone(rows_of(page, "sets"))
        self.assertEqual(page.text().count(wide.strip()), 2)
        self.assertIn("make_evidence.py case.txt report.txt", page.text())

    def test_texts_of_the_user(self):
        """Whether what the user wrote is shown and never taken as markup: comments, labels, the name of the file."""
        case = CASE.replace("two <doses>", "</pre><script>alert(1)</script> & \u00fc")
        run = answering(canon=(0, CANON))
        text = page_of(case, run, file="<b>.txt", labels=["low <dose> & \"more\"", "high\u00fc"], program=[("<i>", "<u>")])
        page = self.check_form(text)
        self.assertIn("# </pre><script>alert(1)</script> & \u00fc\n", pre_of(page, "given"))
        self.assertEqual(next(page.all("h1")).text(), "The decision on <b>.txt")
        self.assertEqual([row[0] for row in rows_of(page, "decision")[1:]], ["H1: low <dose> & \"more\"", "H2: high\u00fc"])
        self.assertIn("<u>", [it.text() for it in page.all("code")])
        self.assertIn("welungad canon < '<b>.txt'", page.text())
        for labels in (["a"], ["a", "a"], ["a", "b", "c"], []):
            with self.assertRaises(ValueError):
                page_of(CASE, answering(), labels=labels)
        broken = page_of(b"# \xff\n" + CASE.encode(), lambda words, given: (0, CANON) if words[0] == "canon" else answering()(words, given))
        self.assertIn("# \ufffd\n", pre_of(read(broken), "given"))

    def test_labels_from_right_to_left(self):
        """Whether a label that turns the text beside it, or is of a script from right to left, stands by itself, and another one as it is."""
        turned, hebrew = "\u202eA", "\u05de\u05d9\u05e0\u05d5\u05df"
        text = page_of(CASE, answering(), labels=[turned, hebrew])
        page = self.check_form(text)
        self.assertEqual([row[0] for row in rows_of(page, "decision")[1:]], [turned, hebrew])
        for label in (turned, hebrew):
            self.assertEqual(text.count(label), text.count(f"<bdi>{label}</bdi>") + text.count(f"\u2068{label}\u2069") + text.count(f">{label}</text>"))
            self.assertGreater(text.count(f"<bdi>{label}</bdi>"), 3)
            self.assertGreater(text.count(f"\u2068{label}\u2069 has the weight"), 0)
        self.assertNotIn("<bdi>", page_of(CASE, answering(), labels=["high \u00fc", "\u65e5\u672c"]))

    def test_long_labels(self):
        """Whether pictures and tables have tags if a label is long, the table of the decision all of it, and no surrogate is left."""
        label = "a label " + 3000 * "<x>" + " that ends \udcff"
        page = self.check_form(page_of(CASE, answering(), labels=[label, "B"]).encode("utf-8", "replace").decode())
        self.assertEqual([row[0] for row in rows_of(page, "decision")[1:]], ["H1: " + label.replace("\udcff", "?"), "H2: B"])
        self.assertEqual([row[0] for row in rows_of(page, "sets")[1:]], ["H1, H2", "H1", "H2"])
        figure = next(page.all("figure"))
        self.assertIn("H1", [it.text() for it in figure.all("text")])
        self.assertNotIn("…", text_of_picture(figure))
        self.assertIn("H1 has the weight 1/2", next(figure.all("desc")).text())
        self.assertLess(max(int(it.attributes["width"]) for it in page.all("svg")), 700)

    def test_priority(self):
        """Whether the decision and its evidence are asked for by the priority, and the page has the lines that repeat them."""
        asked = []
        text = page_of(CASE, lambda words, case: asked.append(words) or answering()(words, case), priority="ratio")
        self.assertIn(["test", "--priority", "ratio"], asked)
        self.assertIn(["evidence", "--priority", "ratio"], asked)
        page = self.check_form(text)
        self.assertIn("welungad test --priority ratio < case.txt > report.txt\n", page.text() + "\n")
        self.assertIn("welungad evidence --priority ratio < case.txt > evidence.txt\n", page.text())

    def test_the_report_that_is_given(self):
        """Whether there is no page if the program does not print the report that was given."""
        self.assertEqual(page_of(CASE, answering(), report=TEST), page_of(CASE, answering()))
        for given, run in [(TEST.replace("kept H2", "kept H3"), answering()), ("", answering()), (TEST, answering(canon=(4, "limit: bytes 5000000\n")))]:
            with self.assertRaises(BadAnswer):
                page_of(CASE, run, report=given)

    def test_written(self):
        """Whether a file has the whole page, or stays as it was and is alone in its folder."""
        with tempfile.TemporaryDirectory() as room:
            place, link, pipe = (os.path.join(room, name) for name in ("page.html", "link.html", "pipe"))
            os.symlink(place, link)
            os.mkfifo(pipe)
            _files.write_whole("<p>ü\udcff", link)
            self.assertEqual(test_tools.content(place), "<p>ü?")
            os.chmod(place, 0o640)
            with mock.patch("os.replace", side_effect=OSError(28, "No space left on device")), self.assertRaisesRegex(OSError, "page.html can't be written: No space left"):
                _files.write_whole("another", place)
            for path, cause in [(room, "it is not a file"), (pipe, "it is not a file"), (os.path.join(room, "no", "page"), "No such file"),
                                (os.path.join(place, "page"), "Not a directory"), (os.path.join(room, 300 * "x"), "File name too long")]:
                with self.subTest(path), self.assertRaisesRegex(OSError, f"^{re.escape(path)} can't be written: {cause}"):
                    _files.write_whole("another", path)
            self.assertEqual((test_tools.content(place), sorted(os.listdir(room))), ("<p>ü?", ["link.html", "page.html", "pipe"]))
            with mock.patch("os.access", return_value=False), self.assertRaisesRegex(OSError, "it is read-only"):
                _files.write_whole("another", place)
            _files.write_whole("another", place)
            self.assertEqual((test_tools.content(place), os.stat(place).st_mode & 0o777, os.path.islink(link)), ("another", 0o640, True))

    def test_numbers(self):
        """Whether a decimal is exact, or marked as not exact."""
        for x, wanted in [("1/40", "= 0.025"), ("1/3", "≈ 0.33333"), ("1/8", "= 0.125"), ("3/2", "= 1.5"), ("1/12345678901", "≈ 8.1e-11"),
                          ("1/200000000", "≈ 5e-09"), ("1/100000000", "= 0.00000001")]:
            self.assertEqual(_page.decimal_text(Fraction(x)), wanted)

    def test_script(self):
        """Whether the script prints a page with the program's status, or nothing and one line on standard error."""
        with tempfile.TemporaryDirectory() as room:
            case, program = (os.path.join(room, name) for name in ("case.txt", "program"))
            with open(case, "w", encoding="utf-8") as file:
                file.write(CASE)
            for script, wanted in [("exec cat", 1), ("true", 1), ("echo 'malformed: line 2: number'; exit 3", 3), ("exit 3", 1)]:
                put_program(program, f"#!/bin/sh\n{script}\n")
                words = [sys.executable, os.path.join(TOOLS, "report.py"), case, "--program", program]
                done = subprocess.run(words, capture_output=True, text=True, encoding="utf-8")
                self.assertEqual(done.returncode, wanted, script)
                self.assertEqual((done.stdout == "", done.stderr.count("\n")), (wanted == 1, int(wanted == 1)), script)
                if wanted == 3:
                    self.check_form(done.stdout)

    def test_script_with_options(self):
        """Whether the script takes labels, a title, a report and a file, and writes no file if one of them is wrong."""
        answers = {command: given for (command, case), given in ANSWERS.items() if case == CANON}
        answers |= {"start": START, "after": AFTER, "check": CHECKED}
        script = """#!/bin/sh
cat > "$0.case"
echo "$*" >> "$0.words"
command=$1
if [ $1 = test ]; then
    grep -q 'p 1 1' "$0.case" && command=start
    grep -q 'p 0 1' "$0.case" && command=after
fi
cat "$0.$command"
"""
        with tempfile.TemporaryDirectory() as room:
            files = {"case": CASE, "program": script, "labels": "low <dose>\0ü\0", "few": "low\0", "open": "low\0high", "report": TEST, "other": START, "none": ""}
            for name, content in [*files.items(), *(("program." + command, given) for command, given in answers.items())]:
                with open(os.path.join(room, name), "w", encoding="utf-8") as file:
                    file.write(content)
            put_program(os.path.join(room, "program"), script)
            words = [sys.executable, os.path.join(TOOLS, "report.py"), "case", "--program=./program", "--out=page.html"]
            for others, cause in [(["--labels=few"], "labels: 2 different ones are needed"), (["--labels=open"], "labels: the last one has no byte 0"),
                                  (["--labels=none"], "labels: 2 different"), (["--labels=no"], "No such file"), (["--report=other"], "decides this case otherwise"),
                                  (["--report=none"], "decides this case otherwise"), (["--out=no/page.html"], "no/page.html can't be written: No such file")]:
                done = subprocess.run([*words, *others], cwd=room, capture_output=True, text=True, encoding="utf-8")
                self.assertEqual((done.returncode, done.stdout, done.stderr.count("\n"), os.path.exists(os.path.join(room, "page.html"))), (1, "", 1, False), done.stderr)
                self.assertIn(cause, done.stderr)
            done = subprocess.run([*words, "--labels=labels", "--title=-- <T> ü", "--report=report"], cwd=room, capture_output=True, text=True, encoding="utf-8")
            self.assertEqual((done.returncode, done.stdout, done.stderr), (0, "", ""))
            page = self.check_form(test_tools.content(room, "page.html"))
            self.assertEqual(next(page.all("h1")).text(), "-- <T> ü")
            self.assertEqual([row[0] for row in rows_of(page, "decision")[1:]], ["low <dose>", "ü"])
            self.assertNotIn("priority", test_tools.content(room, "program.words"))
            done = subprocess.run([*words, "--priority=ratio"], cwd=room, capture_output=True, text=True, encoding="utf-8")
            self.assertEqual((done.returncode, done.stdout, done.stderr), (0, "", ""))
            self.assertIn("\ntest --priority ratio\n", test_tools.content(room, "program.words"))
            self.assertIn("welungad test --priority ratio &lt; case.txt", test_tools.content(room, "page.html"))

    def test_a_program_here(self):
        """Whether the program that answers is the one whose digest the page has, also if another one of its name is on the path."""
        with tempfile.TemporaryDirectory() as room:
            os.makedirs(os.path.join(room, "path"))
            for name, said in [("path/program", "there"), ("program", "here")]:
                put_program(os.path.join(room, name), f"#!/bin/sh\necho 'malformed: {said}'; exit 3\n")
            with open(os.path.join(room, "case"), "w", encoding="utf-8") as file:
                file.write(CASE)
            words = [sys.executable, os.path.join(TOOLS, "report.py"), "case", "--program=program"]
            more = {**os.environ, "PATH": f"{room}/path:{os.environ['PATH']}"}
            done = subprocess.run(words, cwd=room, capture_output=True, text=True, encoding="utf-8", env=more)
            with open(os.path.join(room, "program"), "rb") as file:
                digest = hashlib.sha256(file.read()).hexdigest()
        self.assertEqual((done.returncode, digest in done.stdout, "malformed: here" in done.stdout), (3, True, True))

    def test_an_output_that_cannot_be_written(self):
        """Whether a page that cannot be printed is an error with one line."""
        with tempfile.TemporaryDirectory() as room:
            paths = [os.path.join(room, name) for name in ("case", "program")]
            with open(paths[0], "w", encoding="utf-8") as file:
                file.write(CASE + 20000 * "# a comment\n")
            put_program(paths[1], "#!/bin/sh\ncat >/dev/null; echo 'malformed: kind'; exit 3\n")
            script = [sys.executable, os.path.join(TOOLS, "report.py"), paths[0], f"--program={paths[1]}"]
            for shell, cause in [('exec "$@" >&-', "Bad file descriptor"), ('exec "$@" >/dev/full', "No space left on device"),
                                 ('{ "$@"; echo $? >&2; } | head -c 1 >/dev/null', "Broken pipe")]:
                done = subprocess.run(["sh", "-c", shell, "sh", *script], capture_output=True, text=True)
                with self.subTest(cause):
                    self.assertRegex(done.stderr, rf"^report\.py: standard output can't be written: {cause}\n(1\n)?$")
                    self.assertEqual((done.returncode == 1, done.stdout), ("head" not in shell, ""))


class Refusals(unittest.TestCase):
    def test_rows(self):
        """Whether each line with which a row of the tables is refused has a cause in the page."""
        count = 0
        for row in acceptance_rows.all_rows():
            said = b"".join(row.printed).decode("latin-1").removesuffix("\n")
            if row.status > 1 and row.status != 7 and said and not said.startswith("limit: proof bytes"):
                count += 1
                self.assertIsNotNone(_refusals.explained(said, row.words[0] if row.words else ""), said)
        self.assertGreater(count, 200)

    def test_causes(self):
        """Whether a line has the cause of its own row: of a text in a sheet and in JSON too, and by the command."""
        for line, command, cause in [
            ("malformed: line 3: number", "test", "A word is not a numeral."),
            ("malformed: row 2 column 3: number", "test", "A word is not a numeral."),
            ("malformed: /p/1: number", "test", "A word is not a numeral."),
            ("malformed: kind", "test", "The case lacks a p-value for each hypothesis."),
            ("malformed: kind", "stages", "The case has no stages."),
            ("malformed: kind", "study", "The case has no stages, or has arrivals."),
            ("no: step 2: above level", "check", "The p-value is above the weight that the flows prove, times alpha."),
            ("malformed: case: weight sum component 2", "canon", "The weights sum to more than 1."),
            ("malformed: : shape", "test", "A value is of the wrong kind, a key is missing, or an object has an unknown key."),
        ]:
            self.assertEqual(_refusals.explained(line, command)[0], cause)
        self.assertIsNone(_refusals.explained("no such line", "test"))


STAGED = """alpha 1/40
hypotheses PFS OS
weights 1/5 4/5
edge PFS OS 1
edge OS PFS 1
stages 2
table PFS 1/5 3/1000 1/500
table PFS 1 3/200 1/100
table OS 4/5 1/200 3/200
table OS 1 1/160 3/160
arrive PFS 1 1/500
arrive OS 1 1/50
arrive OS 2 9/500
"""
LOOKS = """alpha 1/40
arrive PFS 1 1/500
reject PFS stage 1 weight 1/5
arrive OS 1 1/50
arrive OS 2 9/500
reject OS stage 2 weight 1
rejected PFS OS
end
"""
STEPS = {
    "1 1": "kept PFS p 1 weight 1/5\nkept OS p 1 weight 4/5\nrejected\nadjusted PFS 1 not reached\nadjusted OS 1 not reached\nend\n",
    "0 1": "step 1 PFS p 0 weight 1/5\nkept OS p 1 weight 1\nrejected PFS\nadjusted PFS 0\nadjusted OS 1\nend\n",
    "0 0": "step 1 PFS p 0 weight 1/5\nstep 2 OS p 0 weight 1\nrejected PFS OS\nadjusted PFS 0\nadjusted OS 0\nend\n",
}


def staged(words, case, looks=LOOKS):
    """Answers on the trial of examples/staged-levels.txt, by hand."""
    if words[0] == "test":
        return 0, "alpha 1/2\n" + STEPS[re.search("(?m)^p (.*)$", case)[1]]
    return 0, {"canon": STAGED, "stages": looks, "weights": "weights 2\nset PFS=1/5 OS=4/5\nset OS=1\nset PFS=1\nend\n"}[words[0]]


class Stages(unittest.TestCase):
    def test_page(self):
        """Whether the page of a staged trial has the looks, the levels and the rejections, by hand."""
        given = test_tools.content("examples", "staged-levels.txt")
        page = read(page_of(given, staged))
        self.assertEqual(rows_of(page, "decision")[1:], [
            ["PFS", "rejected, step 1, after look 1", "1", "1/500 = 0.002", "3/1000 = 0.003", "1/5 = 0.2", "1/5 = 0.2"],
            ["OS", "rejected, step 2, after look 3", "2", "9/500 = 0.018", "3/160 = 0.01875", "1", "4/5 = 0.8"],
        ])
        self.assertEqual(rows_of(page, "looks")[1:], [
            ["1", "PFS", "1", "1/500 = 0.002", "PFS (by stage 1)"], ["2", "OS", "1", "1/50 = 0.02", "none"],
            ["3", "OS", "2", "9/500 = 0.018", "OS (by stage 2)"],
        ])
        self.assertEqual(rows_of(page, "spends")[3], ["OS, from the weight 4/5 = 0.8 on", "levels", "1/200 = 0.005", "3/200 = 0.015"])
        self.assertEqual(rows_of(page, "sets")[1:], [["PFS, OS", "1/5", "4/5", "yes", "yes"], ["PFS", "1", "–", "yes", "yes"], ["OS", "–", "1", "yes", "yes"]])
        self.assertEqual([next(it.all("desc")).text() for it in page.all("figure")], [
            "PFS has the weight 1/5 and passes 1 to OS. OS has the weight 4/5 and passes 1 to PFS.", "Rejected: PFS. OS has the weight 1.",
            "Rejected: PFS and OS.",
        ])

    def test_other_reports(self):
        """Whether there is no page if the report of stages is not whole, or is that of another case."""
        given = test_tools.content("examples", "staged-levels.txt")
        for old, new in [
            (LOOKS, ""), ("end\n", ""), ("alpha 1/40", "alpha 1/20"), ("arrive OS 1 1/50\n", ""), ("OS 2 9/500", "OS 2 8/500"), ("OS 2 9/500", "OS 2 1/100"),
            ("arrive OS 1", "arrive DFS 1"), ("reject OS stage 2", "reject OS stage 1"), ("reject OS stage 2 weight 1", "reject OS stage 2 weight 4/5"),
            ("rejected PFS OS", "rejected OS PFS"), ("rejected PFS OS", "rejected PFS"), ("reject OS stage 2 weight 1\nrejected PFS OS", "rejected PFS"),
            ("reject OS", "reject PFS"), ("reject OS stage 2", "reject OS stage 9"), ("reject OS stage 2", "reject OS stage 0"),
        ]:
            with self.subTest(new), self.assertRaises(BadAnswer):
                self.assertIn(old, LOOKS)
                page_of(given, lambda words, case, text=LOOKS.replace(old, new): staged(words, case, text))
        with self.assertRaises(BadAnswer):
            page_of(given.replace("OS 4/5 0.005", "OS 4/5 0.004"), staged)

    def test_names_that_look_like_numbers(self):
        """Whether an arrival of the hypothesis 1.0 is not taken for one of the hypothesis 1, and 02 stages are 2."""
        held = Findings.__new__(Findings)
        held.given = "alpha 0.05\nhypotheses 1 1.0\nweights 1/2 1/2\nstages 02\nspend 1 1/2 1/2\nspend 1.0 1 0\narrive 1 1 0.01\n"
        text = "alpha 1/20\nhypotheses 1 1.0\nweights 1/2 1/2\nstages 2\nspend 1 1/2 1/2\nspend 1.0 1 0\narrive {} 1 1/100\n"
        held.is_staged = True
        for name in ("1", "1.0"):
            held.case = Canonical(text.format(name))
            held.staging = held.case.stages
            if name == "1":
                held._compare_with_given("text", None)
        with self.assertRaisesRegex(BadAnswer, "^the text of canon is that of another case$"):
            held._compare_with_given("text", None)
        held.given = held.given.replace("0.01", "x")
        with self.assertRaisesRegex(BadAnswer, "refuses: the line arrive: number$"):
            held._compare_with_given("text", None)

    def test_levels(self):
        """Whether the level of a stage is that of the case, by fractions and by a table: FORMATS has both for the trial."""
        case = Canonical(STAGED)
        self.assertEqual(case.level_of_stage("PFS", 1, Fraction(1, 5)), Fraction(3, 1000))
        self.assertEqual(case.level_of_stage("OS", 2, Fraction(1)), Fraction(3, 160))
        self.assertEqual(case.level_of_stage("OS", 2, Fraction(9, 10)), Fraction(3, 200))
        self.assertEqual(case.level_of_stage("OS", 2, Fraction(1, 2)), 0)
        case.stages = [["spend", "PFS", "3/5", "2/5"], ["spend", "OS", "1/4", "3/4"]]
        self.assertEqual(case.level_of_stage("PFS", 1, Fraction(1, 5)), Fraction(3, 1000))
        self.assertEqual(case.level_of_stage("OS", 2, Fraction(1)), Fraction(3, 160))


# ---- pages of random cases against the program


def ask(words, case):
    """What the program answers. After `check` comes the evidence itself, in place of its file."""
    with tempfile.NamedTemporaryFile("w", encoding="utf-8") as file:
        if words[0] == "check":
            file.write(words[1])
            file.flush()
            words = ["check", file.name]
        done = subprocess.run([test_tools.PROGRAM, *words], input=case.encode(), stdout=subprocess.PIPE, check=False)
    return done.returncode, done.stdout.decode()


def lines_of(words, case):
    status, text = ask(words, case)
    assert status == 0, text
    return [line.split() for line in text.split("\n")[:-2]]


def value(text):
    """The fraction that a cell begins with, whose decimal has to be near it, and exactly it after an equals sign."""
    exact, *rest = text.split()
    if rest:
        [sign, decimal] = rest
        assert sign in "=≈" and abs(Fraction(decimal) - Fraction(exact)) <= (0 if sign == "=" else Fraction(exact) / 10**4), text
    return Fraction(exact)


def blocks_of(canon):
    """The lines of each component: of its weights, and of its edges."""
    found = []
    for line in canon.split("\n"):
        if line.startswith("weights"):
            found.append([])
        elif line.startswith("edge"):
            found[-1].append(line)
    return found


class Compared:
    """The page of a case, compared with what the program prints: each number has to be that of a report."""

    def __init__(self, test, canon):
        self.test, self.canon = test, canon
        self.page = read(page_of(canon, ask))
        self.names = canon.split("\n")[1].split()[1:]
        self.decided = lines_of(["test"], canon)
        self.alpha = Fraction(self.decided[0][1])
        self.order = [line[2] for line in self.decided if line[0] == "step"]
        self.sets = {tuple(part.split("=")[0] for part in line[1:]): {name: Fraction(w) for name, w in (part.split("=") for part in line[1:])}
                     for line in lines_of(["weights"], canon)[1:]}
        self.bounds = {tuple(line[3:]): line[1] for line in lines_of(["bounds"], canon)[1:]}

    def decision(self):
        start = self.sets[tuple(self.names)]
        tested = {line[-5]: line for line in self.decided if line[0] in ("step", "kept")}
        adjusted = {line[1]: line[2:] for line in self.decided if line[0] == "adjusted"}
        rows = rows_of(self.page, "decision")[1:]
        self.test.assertEqual([row[0] for row in rows], self.names)
        for name, verdict, p, level, weight, least, first, begin in rows:
            line = tested[name]
            self.test.assertEqual(verdict, f"rejected, step {line[1]}" if line[0] == "step" else "not rejected")
            self.test.assertEqual((value(p), value(weight)), (Fraction(line[-3]), Fraction(line[-1])))
            self.test.assertEqual((value(level), value(begin)), (Fraction(line[-1]) * self.alpha, start[name] * self.alpha))
            self.test.assertEqual(value(first), start[name])
            if adjusted[name][1:]:
                self.test.assertEqual(least, "above 1")
            else:
                self.test.assertEqual(value(least), Fraction(adjusted[name][0]))

    def all_sets(self):
        found = {tuple(row[0].split(", ")): row[1:] for row in rows_of(self.page, "sets")[1:]}
        self.test.assertEqual(found.keys(), self.sets.keys())
        p = {line[-5]: Fraction(line[-3]) for line in self.decided if line[0] in ("step", "kept")}
        for members, cells in found.items():
            weights = self.sets[members]
            self.test.assertEqual(cells[: len(self.names)], [str(weights.get(name, "–")) for name in self.names])
            local = any(0 < w and p[name] <= w * self.alpha for name, w in weights.items())
            closed = self.bounds[members] != "0"
            self.test.assertEqual(cells[len(self.names) :], ["yes" if local else "no", "yes" if closed else "no", self.bounds[members]])

    def best(self):
        p = {line[-5]: Fraction(line[-3]) for line in self.decided if line[0] in ("step", "kept")}
        ranked = sorted(self.names, key=lambda name: p[name])
        for count, which, bound in rows_of(self.page, "bounds")[1:]:
            members = tuple(name for name in self.names if name in ranked[: int(count)])
            self.test.assertEqual((set(which.replace(" and ", ", ").split(", ")), bound), ({*members}, self.bounds[members]))

    def edges(self, component, removed):
        """The limits of the edges of a component after removals: with all weight at the first end, and this end removed too, the
        other hypotheses have what the edges give them."""
        found = {}
        for name in self.names:
            if name not in removed:
                weights = " ".join("1" if other == name else "0" for other in self.names)
                case = "\n".join(["alpha 1", " ".join(["hypotheses", *self.names]), f"weights {weights}", *blocks_of(self.canon)[component], ""])
                left = [other for other in self.names if other not in (name, *removed)]
                for line in lines_of(["weights"], case)[1:]:
                    if [part.split("=")[0] for part in line[1:]] == left:
                        found.update({(name, other): Fraction(part.split("=")[1]) for other, part in zip(left, line[1:])})
        return found

    def pictures(self):
        figures = [*self.page.all("figure")]
        self.test.assertEqual(len(figures), len(self.order) + 1)
        for n, figure in enumerate(figures):
            removed = self.order[:n]
            left = tuple(name for name in self.names if name not in removed)
            weights = re.findall(r"(\S+) has the weight ([0-9/]*[0-9])", next(figure.all("desc")).text())
            self.test.assertEqual({name: Fraction(w) for name, w in weights}, self.sets.get(left, {}))
            texts = [it.text() for it in figure.all("text")]
            self.test.assertLessEqual({f"p {_picture.decimal(Fraction(line[-3]))}" for line in self.decided if line[0] in ("step", "kept")}, {*texts})
            for name, number in zip(removed, range(1, n + 1)):
                self.test.assertIn(str(number), texts)
            self.edge_texts(figure, removed, left)

    def edge_texts(self, figure, removed, left):
        """Compares the limits of the edges that the description names. An edge that is given by its first term is near its limit."""
        desc = next(figure.all("desc")).text()
        for component in range(len(blocks_of(self.canon))):
            wanted = self.edges(component, removed)
            shown = {pair: Fraction(0) for pair in wanted}
            for sentence in re.findall(r"(\S+) has the weight [0-9/]+((?: and passes(?: in component \d)? .*?)*)\.(?: |$)", desc):
                for place, rest in re.findall(r" and passes( in component \d)? (.*?)(?= and passes|$)", sentence[1]):
                    if int(place[-1:] or 1) == component + 1:
                        for text, end in re.findall(r"(\S+) to (\S+?)(?=,|$| and)", rest):
                            shown[sentence[0], end] = text
            for pair, text in shown.items():
                if isinstance(text, str):
                    self.test.assertIn(text, [it.text() for it in figure.all("text")])
                limit = limit_of(text) if isinstance(text, str) else text
                if isinstance(text, str) and "≈" in text:
                    self.test.assertAlmostEqual(float(limit), float(wanted[pair]), 3)
                else:
                    self.test.assertEqual(limit, wanted[pair], (pair, text, desc))


def limit_of(text):
    """The value of an edge in a picture with epsilon at 0."""
    text = text.removeprefix("≈")
    if found := re.fullmatch(r"\(?(.*?)\)?/\((.*)\)", text):
        return limit_of(found[1]) / limit_of(found[2])
    terms = re.findall(r"([+−]?)(≈?[0-9./e-]*)(·?ε\S?)?", text)
    return sum((-1 if sign == "−" else 1) * Fraction(size.removeprefix("≈")) for sign, size, small in terms if size and not small)


def compare_page(test, seed, number):
    """Compares the page of a random case, and returns whether the program decides it."""
    made = checkers.Made(random.Random(f"{seed}/page/{number}"), number, 5)
    status, canon = ask(["canon", *made.words()], made.bytes().decode())
    if status or any(ask([command], canon)[0] for command in ("test", "weights", "bounds")):
        return False
    compared = Compared(test, canon)
    compared.decision()
    compared.all_sets()
    compared.best()
    compared.pictures()
    return True


@unittest.skipUnless(os.access(test_tools.PROGRAM, os.X_OK), "the program isn't built")
class Program(Form):
    def test_random_pages(self):
        """Whether each number on the pages of some random cases is the program's."""
        self.assertGreater(sum(compare_page(self, "gate", number) for number in range(12)), 8)

    def test_examples(self):
        """Whether each example has a page: of its decision, or of its refusal."""
        for name in sorted(os.listdir(os.path.join(TOP, "examples"))):
            if name not in ("README.md", "study-looks.txt"):
                words = {".csv": ["--form", "csv", "--alpha", "0.025"], ".json": ["--form", "json"]}.get(os.path.splitext(name)[1], [])
                path = os.path.join(TOP, "examples", name)
                done = subprocess.run([sys.executable, os.path.join(TOOLS, "report.py"), path, *words], capture_output=True, text=True, encoding="utf-8")
                with self.subTest(name):
                    self.assertEqual((done.returncode, done.stderr), (5 if name == "too-wide.txt" else 0, ""))
                    self.check_form(done.stdout)
                    self.assertEqual("No p-value has arrived." in done.stdout, name == "study.txt")

    def test_many_hypotheses(self):
        """Whether a graph of more than 16 hypotheses is drawn once, one of more than 30 edges not at all, and of more than 8 hypotheses the
        pictures between the first and the last are folded and not printed."""
        once = "Before the first rejection, with the step of each later one"
        for size, least, pictures, words in [(17, 16, 1, once), (17, 0, 0, "A graph of more than 30 edges is not drawn."),
                                             (9, 8, 3, "<summary>The 1 pictures between these two, which are not printed</summary>"), (8, 7, 3, "the end")]:
            names = [f"H{i}" for i in range(size)]
            lines = ["alpha 0.05", "hypotheses " + " ".join(names), "p 0.001 0.001" + " 0.9" * (size - 2), "weights" + f" 1/{size}" * size]
            edges = [f"edge {a} {b} 1/{size - 1}" for i, a in enumerate(names) for b in names[i + 1:] + names[:i]]
            case = "\n".join([*lines, *(edges[:: size - 1][:least] if least else edges), ""])
            page = page_of(case, ask)
            self.assertEqual(page.count("<details"), int(size == 9))
            self.check_form(page)
            self.assertIn(words, page)
            self.assertEqual(page.count("<figure>"), pictures)


def main():
    parser = argparse.ArgumentParser(description=__doc__, formatter_class=argparse.RawDescriptionHelpFormatter)
    parser.add_argument("--pages", type=int)
    parser.add_argument("--seed", default="1")
    words, rest = parser.parse_known_args()
    if words.pages is None:
        unittest.main(argv=[sys.argv[0], *rest])
    done = number = 0
    while done < words.pages:
        done += compare_page(unittest.TestCase(), words.seed, number)
        number += 1
    print(f"{done} pages of {number} cases: each number is the program's")


if __name__ == "__main__":
    main()
