"""Tests of the functions over texts: each row of crates/acceptance/data that `run` answers, and values by hand."""
import collections
import ctypes
import pickle
import sys
import threading
import unittest
from fractions import Fraction
from unittest import mock

import acceptance_rows
import welungad
from places import example, needs_rows
from welungad import _commands

# The one status of a table that no call in memory has: a source had a fault.
READ_FAULT = 6


def form_of(words):
    """Returns the value of --form among the words of a call."""
    for number, word in enumerate(words):
        if word.startswith("--form"):
            return word[7:] or words[number + 1]
    return "text"


def alpha_of(words):
    """Returns the value of --alpha among the words of a call, if there is one."""
    joined = " ".join(words).replace("=", " ").split()
    return dict(zip(joined, joined[1:])).get("--alpha")


def lines_of(text):
    return "".join(line + "\n" for line in text)


@needs_rows
class Rows(unittest.TestCase):
    """Whether each row of the tables is answered with its status and its bytes."""

    def test_rows(self):
        rows = [row for row in acceptance_rows.all_rows() if row.status != READ_FAULT]
        self.assertGreater(len(rows), 800)
        for row in rows:
            with self.subTest(row.place):
                status, text = welungad.run(row.words, row.case or b"", row.file or b"")
                self.assertEqual(status, row.status)
                self.assertTrue(acceptance_rows.matches(text, row.printed), text[:200])
                if row.counts is not None:
                    self.assertEqual(acceptance_rows.counts_of(text), row.counts)
                if row.checked is not None:
                    self.assertEqual(welungad.run(["check", "-"], row.case, text), (0, row.checked))

    def test_front_parts(self):
        for row in acceptance_rows.all_rows():
            if row.fronts is not None:
                with self.subTest(row.place):
                    self.hold_front_parts(row)

    def hold_front_parts(self, row):
        whole = row.file if row.fronts.of_file else row.case
        statuses = collections.Counter()
        for length in range(len(whole) + 1):
            case, file = (row.case, whole[:length]) if row.fronts.of_file else (whole[:length], row.file or b"")
            status, text = welungad.run(row.words, case, file)
            statuses[status] += 1
            if status > 1:
                self.assertTrue(text.startswith(row.fronts.begins), text)
        self.assertEqual(statuses, row.fronts.counts)

    def test_the_names_of_each_case(self):
        count = 0
        for row in acceptance_rows.all_rows():
            if row.status == 0 and row.case and row.words[0] not in ("catalogue", "sample", "help"):
                with self.subTest(row.place):
                    form = form_of(row.words)
                    words = ["canon", *(["--form", form] if form != "text" else []), *(["--alpha", "0.05"] if form == "csv" else [])]
                    canonical = welungad.run(words, row.case)[1].decode()
                    self.assertEqual(_commands._names_of(row.case, form, alpha_of(row.words)), tuple(canonical.split("\n")[1].split(" ")[1:]))
                    count += 1
        self.assertGreater(count, 200)

    def test_each_refusal_is_explained(self):
        for row in acceptance_rows.all_rows():
            if row.status in (2, 3, 4, 5):
                with self.subTest(row.place):
                    (line,) = row.printed
                    self.assertTrue(welungad.explain(line.decode().rstrip("\n")), line)


class Calls(unittest.TestCase):
    """What `run` takes."""

    def test_texts_and_bytes(self):
        case = example("holm.txt")
        self.assertEqual(welungad.run(["test"], case), welungad.run((b"test",), bytearray(case.encode())))

    def test_words(self):
        self.assertEqual(welungad.run([]), (2, b"usage: word 1\n"))
        self.assertEqual(welungad.run(["tést"]), (2, b"usage: word 1\n"))
        self.assertEqual(welungad.run([b"t\xffst"]), (10, b""))
        self.assertEqual(welungad.run(["test", "\udcff"]), (10, b""))
        with self.assertRaisesRegex(ValueError, "^word 2 holds a byte 0$"):
            welungad.run(["test", "--form\0"])
        for call, named in [(lambda: welungad.run(["test", "x\ud800"]), "word 2"), (lambda: welungad.test("alpha 1\n\ud800"), "case"),
                            (lambda: welungad.check("alpha 1\n", "\ud800"), "proof")]:
            with self.subTest(named), self.assertRaisesRegex(ValueError, f"^{named} has '\\\\ud800', which is half a character$"):
                call()
        for words in ["test", {"catalogue", "holm"}, {"catalogue": "holm"}, {"catalogue": 1, "holm": 2}.keys()]:
            with self.subTest(words), self.assertRaisesRegex(TypeError, "^words are a list of texts, one for each word, in their order$"):
                welungad.run(words)

    def test_wrong_types(self):
        case = example("holm.txt")
        for call, named in [
            (lambda: welungad.test(5), "case"), (lambda: welungad.test(10**9), "case"), (lambda: welungad.run([5]), "word 1"),
            (lambda: welungad.run(["test"], 5), "case"), (lambda: welungad.run(["check", "p"], case, 5), "proof"),
            (lambda: welungad.run(5), "words"), (lambda: welungad.run(["test"], case=5), "case"),
            (lambda: welungad.run(["test"], None), "case"), (lambda: welungad.run(["test"], [1, 2]), "case"),
            (lambda: welungad.check(case, 5), "proof"), (lambda: welungad.check(case, None), "proof"),
            (lambda: welungad.canon(5), "case"), (lambda: welungad.stages(5), "case"), (lambda: welungad.test(True), "case"),
            (lambda: welungad.test(case, form=5), "form"), (lambda: welungad.test(case, priority=5), "priority"),
            (lambda: welungad.test(case, alpha=True), "alpha"), (lambda: welungad.test(case, alpha=[0.05]), "alpha"),
        ]:
            with self.subTest(named), self.assertRaisesRegex(TypeError, f"^{named} "):
                call()

    def test_a_long_text(self):
        names = [f"H{k}" for k in range(1, 15)]
        case = f"alpha 0.05\nhypotheses {' '.join(names)}\nweights {' '.join(['1/14'] * 14)}\n"
        status, text = welungad.run(["weights"], case)
        self.assertEqual(status, 0)
        self.assertGreater(len(text), 65536)
        self.assertEqual(text.count(b"\nset "), 2**14 - 1)
        # the sets are in the order of what they leave out: the last one leaves out H14 alone
        last = " ".join(f"{name}=1/14" for name in names[:-1])
        self.assertTrue(text.endswith(f"\nset {last}\nend\n".encode()))

    def test_many_bytes(self):
        self.assertEqual(welungad.run(["test"], b"\n" * 4194305), (4, b"limit: bytes 4194305\n"))
        self.assertEqual(welungad.run(["test"], b"\n" * 4194304), (3, b"malformed: line 4194305: ended\n"))

    def test_threads(self):
        case = example("holm.txt")
        wanted = welungad.run(["test"], case)
        answers = []
        threads = [threading.Thread(target=lambda: answers.extend(welungad.run(["test"], case) for _ in range(200)))
                   for _ in range(4)]
        for thread in threads:
            thread.start()
        for thread in threads:
            thread.join()
        self.assertEqual(answers, [wanted] * 800)

    def test_threads_with_cases_of_their_own(self):
        before = sys.getswitchinterval()
        self.addCleanup(sys.setswitchinterval, before)
        sys.setswitchinterval(1e-6)
        cases = [f"alpha 1/{40 + k}\nhypotheses {'H' * (4 * k + 1)}\np 1/{1000 + k}\nweights 1\n" for k in range(4)]
        wanted = [welungad.run(["test"], case) for case in cases]
        self.assertEqual(len(set(wanted)), 4)
        others = []

        def call(case, answer):
            others.extend(it for it in (welungad.run(["test"], case) for _ in range(500)) if it != answer)

        threads = [threading.Thread(target=call, args=both) for both in zip(cases, wanted)]
        for thread in threads:
            thread.start()
        for thread in threads:
            thread.join()
        self.assertEqual(others, [])

    def test_a_call_within_a_call(self):
        """A handler of a signal may call when a call has ended and its text is not taken yet."""
        case, taken, within = example("holm.txt"), ctypes.string_at, []

        def take(room, length):
            if not within:
                within.append(None)
                within.append(welungad.run(["help"]))
            return taken(room, length)

        wanted = [welungad.run(["test"], case), welungad.run(["help"])]
        with mock.patch.object(ctypes, "string_at", take):
            self.assertEqual(welungad.run(["test"], case), wanted[0])
        self.assertEqual(within[1], wanted[1])

    def test_answers_of_the_length_of_the_first_room(self):
        names = [f"hypo{k:04}" for k in range(1, 49)]

        def case_of(names, digits):
            """Returns a case in its one spelling, whose p-values have this number of further digits."""
            p = " ".join("1/10" + "0" * (digits // 48 + (k < digits % 48)) for k in range(48))
            edges = "".join(f"edge {a} {b} 1/47\n" for a in names for b in names if a != b)
            return f"alpha 1/40\nhypotheses {' '.join(names)}\np {p}\nweights {' '.join(['1/48'] * 48)}\n{edges}"

        for length in range(65535, 65539):
            # a longer name adds 95 bytes
            longer, digits = divmod(length - len(case_of(names, 0)), 95)
            case = case_of([name + "x" * (k < longer) for k, name in enumerate(names)], digits)
            self.assertEqual(len(case), length)
            status, text = welungad.run(["canon"], case)
            self.assertEqual((status, len(text)), (0, length))
            self.assertEqual(text.decode(), case)


class Results(unittest.TestCase):
    """What the commands return, by hand."""

    def test_decision(self):
        decision = welungad.test(example("holm.txt"))
        half, third = Fraction(1, 2), Fraction(1, 3)
        self.assertEqual(decision.alpha, Fraction(1, 40))
        self.assertEqual(decision.steps, (welungad.Tested("H2", Fraction(1, 200), third),
                                          welungad.Tested("H1", Fraction(1, 100), half),
                                          welungad.Tested("H3", Fraction(1, 50), Fraction(1))))
        self.assertEqual(decision.kept, ())
        self.assertEqual(decision.rejected, ("H1", "H2", "H3"))
        self.assertEqual({name: it.p for name, it in decision.adjusted.items()},
                         {"H1": Fraction(1, 50), "H2": Fraction(3, 200), "H3": Fraction(1, 50)})
        self.assertTrue(all(it.reached for it in decision.adjusted.values()))

    def test_a_retained_hypothesis(self):
        case = lines_of(["alpha 0.05", "hypotheses A B", "p 0.02 0.9", "weights 1 0"])
        decision = welungad.test(case, priority="last")
        self.assertEqual(decision.kept, (welungad.Tested("B", Fraction(9, 10), Fraction(0)),))
        self.assertEqual(decision.adjusted["B"], welungad.Adjusted(Fraction(1), False))

    def test_a_sheet(self):
        sheet = lines_of(["hypothesis,weight,p,A,B", "A,1/2,0.02,0,1", "B,1/2,0.04,1,0"])
        for alpha in ("0.05", 0.05, Fraction(1, 20)):
            decision = welungad.test(sheet, form="csv", alpha=alpha)
            self.assertEqual((decision.alpha, decision.rejected), (Fraction(1, 20), ("A", "B")))
        self.assertEqual(welungad.test(sheet, form="csv", alpha=1 / 3).alpha, Fraction(1, 3))

    def test_a_sheet_with_many_blanks(self):
        sheet = lines_of(["hypothesis,weight,p," + 200000 * " " + "A\t,\" B\"", "A,1/2,0.02,0,1", "B,1/2,0.04,1,0"])
        for given in [sheet, "\n\r\n" + sheet, sheet.replace("\n", "\r"), b"\xef\xbb\xbf" + sheet.encode()]:
            self.assertEqual(welungad.test(given, form="csv", alpha="0.05").rejected, ("A", "B"))

    def test_weights(self):
        case = lines_of(["alpha 0.05", "hypotheses A B", "weights 1/2 1/4", "edge A B 1/2"])
        weights = welungad.weights(case)
        self.assertEqual(weights.of("A", "B"), {"A": Fraction(1, 2), "B": Fraction(1, 4)})
        self.assertEqual(weights.of("B"), {"B": Fraction(1, 2)})
        self.assertEqual(len(weights.weights), 3)

    def test_bounds(self):
        case = lines_of(["alpha 0.05", "hypotheses A B", "p 0.02 0.9", "weights 1/2 1/2"])
        bounds = welungad.bounds(case)
        self.assertEqual((bounds.of("A", "B"), bounds.of("A"), bounds.of("B")), (1, 1, 0))
        simes = welungad.simes(case)
        self.assertEqual((simes.of("B", "A"), simes.top, simes.rejected), (1, (1, 1), ("A",)))

    def test_evidence(self):
        case = lines_of(["alpha 0.05", "hypotheses A B C", "p 0.01 0.03 0.9", "weights 1/2 1/2 0", "edge A B 1", "edge B C 1"])
        evidence = welungad.evidence(case)
        self.assertEqual([it.name for it in evidence.steps], ["A", "B"])
        self.assertEqual([it.name for it in evidence.keeps], ["C"])
        self.assertEqual(evidence.steps[1].flows, (welungad.Flow(1, "A", Fraction(1, 2)),))
        checked = welungad.check(case, evidence)
        self.assertTrue(checked)
        self.assertEqual((checked.listed, checked.kept, checked.reason), (("A", "B"), ("C",), ""))
        self.assertEqual(welungad.check(case, evidence.text.encode()), checked)

    def test_evidence_that_does_not_hold(self):
        case = lines_of(["alpha 0.05", "hypotheses A B", "p 0.01 0.9", "weights 1/2 1/2"])
        checked = welungad.check(case, lines_of(["evidence 1", "step B", "end"]))
        self.assertFalse(checked)
        self.assertEqual(checked.reason, "no: step 1: above level")

    @needs_rows
    def test_a_quotient(self):
        row = next(row for row in acceptance_rows.all_rows() if b"[1]/[2,-1]" in (row.file or b""))
        evidence = welungad.evidence(row.case)
        values = [flow.value for step in evidence.steps for flow in step.flows]
        self.assertTrue(any(isinstance(value, welungad.Quotient) for value in values))
        self.assertTrue(welungad.check(row.case, evidence))

    def test_stages(self):
        case = lines_of(["alpha 0.05", "hypotheses A", "weights 1", "stages 2", "spend A 1/2 1/2", "arrive A 1 0.03",
                         "arrive A 2 0.02"])
        stages = welungad.stages(case)
        self.assertEqual(stages.alpha, Fraction(1, 20))
        self.assertEqual(stages.arrivals, (welungad.Arrival("A", 1, Fraction(3, 100), ()),
                                           welungad.Arrival("A", 2, Fraction(1, 50),
                                                            (welungad.Settled("A", 2, Fraction(1)),))))
        self.assertEqual(stages.rejected, ("A",))

    def test_canon(self):
        case = "# one hypothesis\n\nalpha  0.05\nhypotheses A\nweights 2/2\n"
        self.assertEqual(welungad.canon(case), "alpha 1/20\nhypotheses A\nweights 1\n")
        self.assertEqual(welungad.canon(case, to="csv"), "hypothesis,weight,p,A\nA,1,,0\n")
        self.assertEqual(welungad.canon(welungad.canon(case, to="json"), form="json"), welungad.canon(case))

    def test_each_example(self):
        for name in ("holm.txt", "fallback.txt", "fixed-sequence.txt", "gatekeeping.txt", "improved-gatekeeping.txt",
                     "entangled.txt", "two-hypotheses.txt", "simes-pair.txt"):
            with self.subTest(name):
                case = example(name)
                decision = welungad.test(case)
                self.assertEqual(welungad.check(case, welungad.evidence(case)).kept,
                                 tuple(it.name for it in decision.kept))


class Refusals(unittest.TestCase):
    """What a refused call raises."""

    def test_a_refusal(self):
        with self.assertRaises(welungad.Refused) as caught:
            welungad.test(lines_of(["alpha 0.05", "hypotheses A B", "p 0.01 x", "weights 1/2 1/2"]))
        refused = caught.exception
        self.assertEqual((refused.status, refused.line), (welungad.MALFORMED, "malformed: line 3: number"))
        self.assertEqual(refused.explanation, welungad.explain(refused.line))
        self.assertIn(refused.line, str(refused))
        again = pickle.loads(pickle.dumps(refused))
        self.assertEqual((again.status, again.line, again.explanation), (refused.status, refused.line, refused.explanation))

    def test_words(self):
        for options in ({"form": "xml"}, {"alpha": "0.05"}, {"priority": "none"}, {"form": "csv"}):
            with self.subTest(options), self.assertRaises(welungad.Refused) as caught:
                welungad.test(example("holm.txt"), **options)
            self.assertEqual(caught.exception.status, welungad.USAGE)

    def test_a_form_that_is_none(self):
        for call in (welungad.test, welungad.canon, welungad.weights):
            with self.subTest(call), self.assertRaisesRegex(TypeError, "^form is a text, and not of type None$"):
                call(example("holm.txt"), form=None)

    def test_a_word_that_is_not_utf_8(self):
        with self.assertRaises(welungad.Refused) as caught:
            welungad.test(example("holm.txt"), form="\udcff")
        self.assertEqual((caught.exception.status, caught.exception.line), (welungad.UNREADABLE_WORDS, ""))
        self.assertEqual(str(caught.exception), "A word of the call is not UTF-8.")

    def test_a_level_that_the_text_has_itself(self):
        case = lines_of(["alpha 0.05", "hypotheses A", "p 0.01", "weights 1"])
        calls = [welungad.test, welungad.weights, welungad.bounds, welungad.simes, welungad.evidence, welungad.canon, lambda *given, **how: welungad.check(*given, "x", **how)]
        for call in calls:
            for alpha in (0, "0.05"):
                with self.subTest(call=call, alpha=alpha), self.assertRaises(welungad.Refused) as caught:
                    call(case, alpha=alpha)
                self.assertTrue(caught.exception.line.startswith("usage: word "))

    def test_a_proof_that_is_malformed(self):
        with self.assertRaises(welungad.Refused) as caught:
            welungad.check(example("holm.txt"), "evidence 3\n")
        self.assertEqual(caught.exception.line, "malformed: proof line 1: version")

    def test_a_line_that_is_no_refusal(self):
        self.assertEqual(welungad.explain("alpha 1/40"), "")


if __name__ == "__main__":
    unittest.main()
