"""Tests of studies: the file of looks, the case beside it, and what passes for the program."""
import contextlib
import enum
import errno
import os
import shutil
import sqlite3
import stat
import tempfile
import unittest
from fractions import Fraction
from unittest import mock

import places
import test_library
import welungad
from welungad import _files, _library

try:
    import pandas
except ImportError:
    pandas = None

CASE = places.example("study.txt")
OTHER_ORDER = CASE.replace("hypotheses H1 H2", "hypotheses H2 H1").replace("spend H1 1/2 1/2\nspend H2 1/2 1/2", "spend H2 1/2 1/2\nspend H1 1/2 1/2")

try:
    PROGRAM = _library.program_path()
except OSError:
    PROGRAM = ""


class Rooms(test_library.Rooms):
    """Tests with a folder of their own, and with the program that the environment names."""

    def setUp(self):
        super().setUp()
        self.store = os.path.join(self.room, "looks.db")

    def program(self, text):
        """Writes a program of the shell, which the environment names from then on."""
        path = os.path.join(self.room, "program")
        with open(path, "w", encoding="utf-8") as file:
            file.write("#!/bin/sh\n" + text)
        os.chmod(path, 0o755)
        self.stamp(path)
        patch = mock.patch.dict(os.environ, WELUNGAD=path)
        patch.start()
        self.addCleanup(patch.stop)


@unittest.skipUnless(PROGRAM, "the program welungad is missing")
class Studies(Rooms):
    """Whether looks are taken and kept, and no file is opened for another case."""

    def test_looks(self):
        study = welungad.Study(CASE, self.store)
        self.assertFalse(os.path.exists(self.store))
        self.assertEqual((study.names, repr(study)), (("H1", "H2"), f"<Study of H1, H2 in {self.store!r}>"))
        self.assertEqual(study.look("H1", 1, "0.02"), welungad.Look("H1", 1, Fraction(1, 50), ()))
        again = welungad.Study(CASE.encode(), self.store)
        replies = again.looks([("H2", 1, 0.03), ("H1", 1, 0.01), ("H1", 2, 0.01), ("H1", 3, 0.01), ("H2", 2, 0.02)], refused="keep")
        self.assertEqual(replies[1:4], (welungad.RefusedLook("H1", 1, "known"),
                                        welungad.Look("H1", 2, Fraction(1, 100), (welungad.Settled("H1", 2, Fraction(1, 2)),)),
                                        welungad.RefusedLook("H1", 3, "stage")))
        self.assertEqual(list(map(bool, replies)), [True, False, True, False, True])
        self.assertEqual(replies[4].rejections, (welungad.Settled("H2", 2, Fraction(1)),))
        self.assertEqual(study.show(), welungad.Shown(4, ("H1", "H2")))

    def test_names_of_other_classes_of_text(self):
        class Endpoint(str, enum.Enum):
            OS = "H1"

        class Shown(str):
            __str__ = __repr__ = lambda self: "H2"
            __format__ = lambda self, spec: "H2"

        study = welungad.Study(CASE, self.store)
        found = study.look(Endpoint.OS, 1, "0.02")
        self.assertEqual((found, type(found.name)), (welungad.Look("H1", 1, Fraction(1, 50), ()), str))
        self.assertEqual(study.look(Shown("H1"), 2, "0.03"), welungad.Look("H1", 2, Fraction(3, 100), ()))
        self.assertEqual(repr(study.look(Shown("H1"), 2, "0.03", refused="keep")), "RefusedLook(name='H1', stage=2, reason='known')")

    def test_a_look_out_of_range(self):
        study = welungad.Study(CASE, self.store)
        self.assertEqual(study.look("H2", 2, 2, refused="keep"), welungad.RefusedLook("H2", 2, "range"))
        self.assertEqual(study.show(), welungad.Shown(0, ()))

    def test_looks_that_are_not_taken(self):
        """Whether a look that the study does not take is an error, which says why, and none of the call is taken."""
        study = welungad.Study(CASE, self.store)
        study.look("H1", 1, "0.02")
        for look, cause in [(("H1", 1, "0.03"), "the hypothesis has a p-value at this stage already"), (("H2", 9, 0.1), "its stage does not exist"),
                            (("H2", 1, 15), "its p-value is not from 0 to 1")]:
            with self.subTest(look), self.assertRaisesRegex(welungad.RefusedLooks, f"^look 1, '{look[0]}' at stage {look[1]}, is not taken: {cause}. None of this"):
                study.look(*look)
        with self.assertRaisesRegex(welungad.RefusedLooks, "^look 2, .*; look 3, .*. None of this call is taken; with refused='keep' the others are$") as caught:
            study.looks([("H2", 1, 0.5), ("H1", 1, 0.02), ("H1", 3, 0.1)])
        self.assertEqual([type(it) for it in caught.exception.replies], [welungad.Look, welungad.RefusedLook, welungad.RefusedLook])
        self.assertEqual(study.show().looks, 1)
        with self.assertRaisesRegex(ValueError, "^refused is 'raise' or 'keep', and not 'no'$"):
            study.look("H1", 2, 0.1, refused="no")

    def test_a_store_that_is_lost(self):
        """Whether a store that is lost, or an older copy of it, is an error, and nothing begins anew."""
        study = welungad.Study(CASE, self.store)
        study.look("H1", 1, "0.02")
        older = shutil.copyfile(self.store, self.store + " older")
        study.look("H1", 2, "0.02")
        with open(self.store + ".kept", encoding="ascii") as file:
            self.assertEqual(file.read(), "2\n")
        os.replace(older, self.store)
        for call in [lambda: study.look("H2", 1, 0.1), study.show]:
            with self.assertRaisesRegex(ValueError, "looks.db has 1 looks, and 2 were kept in it: it is an older copy$"):
                call()
        os.unlink(self.store)
        for call in [study.show, lambda: study.look("H2", 1, 0.1), lambda: welungad.Study(CASE, self.store)]:
            with self.assertRaisesRegex(ValueError, "looks.db is lost: it is not there, and .*looks.db.case is"):
                call()
        os.unlink(self.store + ".kept")
        with self.assertRaisesRegex(ValueError, "looks.db is lost"):
            study.show()
        os.unlink(self.store + ".case")
        self.assertEqual(study.show(), welungad.Shown(0, ()))

    def test_a_store_of_an_older_release(self):
        """Whether a store without the number of its looks is opened, and gets it."""
        study = welungad.Study(CASE, self.store)
        study.look("H1", 1, "0.02")
        os.unlink(self.store + ".kept")
        self.assertEqual(study.show().looks, 1)
        with open(self.store + ".kept", encoding="ascii") as file:
            self.assertEqual(file.read(), "1\n")
        with open(self.store + ".kept", "w", encoding="ascii") as file:
            file.write("x")
        with self.assertRaisesRegex(ValueError, "looks.db.kept has 'x', and not how many looks were kept$"):
            study.show()

    def test_the_study_of_a_graph(self):
        """Whether a graph makes a study with its labels, whose looks may be in a frame, and no other labels open it."""
        graph = welungad.Graph({"low dose": 0.5, "high dose": 0.5}, [[0, 1], [1, 0]])
        levels = {"low dose": [0.01, 0.015], "high dose": [0.01, 0.015]}
        study = graph.study(levels, self.store, alpha=0.05, at=0.5)
        self.assertEqual(study.names, ("low dose", "high dose"))
        looks = [("low dose", 1, 0.01), ("high dose", 2, 0.5)]
        if pandas:
            looks = pandas.DataFrame(looks, columns=["hypothesis", "stage", "p"])[["p", "stage", "hypothesis"]]
        replies = study.looks(looks)
        self.assertEqual(replies, (welungad.Look("low dose", 1, Fraction(1, 100), (welungad.Settled("low dose", 1, Fraction(1, 2)),)),
                                   welungad.Look("high dose", 2, Fraction(1, 2), ())))
        self.assertEqual(graph.study(levels, self.store, alpha=0.05, at="1/2").show(), welungad.Shown(2, ("low dose",)))
        with open(self.store + ".labels", "rb") as file:
            self.assertEqual(file.read(), b"low dose\0high dose\0")
        other = welungad.Graph([0.5, 0.5], [[0, 1], [1, 0]], names=["low  dose", "high dose"])
        with self.assertRaisesRegex(ValueError, "was made for the hypotheses 'low dose', 'high dose'$"):
            other.study({"low  dose": [0.01, 0.015], "high dose": [0.01, 0.015]}, self.store, alpha=0.05, at=0.5)
        with self.assertRaisesRegex(ValueError, "^at is missing"):
            graph.study(levels, self.store, alpha=0.05)

    def test_the_file_alone_holds_the_looks_of_a_run_that_ended(self):
        welungad.Study(CASE, self.store).look("H1", 1, "0.02")
        alone = shutil.copyfile(self.store, os.path.join(self.room, "alone.db"))
        with contextlib.closing(sqlite3.connect(alone)) as file:
            self.assertEqual(file.execute("select hypothesis, stage, p from looks").fetchall(), [(0, 1, "1/50")])

    def test_the_case_is_beside_the_file(self):
        welungad.Study(CASE, self.store).show()
        with open(self.store + ".case", encoding="ascii") as file:
            self.assertEqual(file.read(), welungad.canon(CASE))
        self.assertEqual(set(os.listdir(self.room)) - {"looks.db-wal"}, {"looks.db", "looks.db.case", "looks.db.kept"})
        umask = os.umask(0)
        os.umask(umask)
        self.assertEqual(stat.S_IMODE(os.stat(self.store + ".case").st_mode), 0o666 & ~umask)

    def test_another_spelling_of_the_case(self):
        welungad.Study(CASE, self.store).look("H1", 1, "0.02")
        spelled = "# the same\n" + CASE.replace("alpha 0.05", "alpha  5e-2").replace("1/2 1/2", "0.5 2/4")
        self.assertEqual(welungad.Study(spelled, self.store).show().looks, 1)
        self.assertEqual(welungad.Study(welungad.canon(CASE, to="json"), self.store, form="json").show().looks, 1)

    def test_another_case(self):
        study = welungad.Study(CASE, self.store)
        study.look("H1", 1, "0.02")
        for case, message in [(OTHER_ORDER, "^.*looks.db was made for a case with hypotheses H1 H2$"),
                              (CASE.replace("H1", "PFS"), "^.*looks.db was made for a case with hypotheses H1 H2$"),
                              (CASE.replace("alpha 0.05", "alpha 0.025"), "^.*looks.db was made for another case: line 1 of .*looks.db.case is "
                                                                          "'alpha 1/20', and not 'alpha 1/40'$"),
                              (CASE.replace("edge H2 H1 1\n", ""), "^.*looks.db was made for another case: line 5 ")]:
            with self.subTest(message), self.assertRaisesRegex(ValueError, message):
                welungad.Study(case, self.store)
        with open(self.store + ".case", "w", encoding="ascii") as file:
            file.write(welungad.canon(OTHER_ORDER))
        with self.assertRaisesRegex(ValueError, "was made for a case with hypotheses H2 H1"):
            study.look("H2", 1, "0.02")
        self.assertEqual(welungad.Study(OTHER_ORDER, self.store).show().looks, 1)

    def test_a_file_whose_case_is_unknown(self):
        study = welungad.Study(CASE, self.store)
        study.look("H1", 1, "0.02")
        os.unlink(self.store + ".case")
        with self.assertRaisesRegex(ValueError, "looks.db holds looks, and there is no .*looks.db.case"):
            welungad.Study(CASE, self.store)
        with self.assertRaisesRegex(ValueError, "looks.db holds looks"):
            study.show()

    def test_a_case_that_is_no_study(self):
        single = "".join(line for line in CASE.splitlines(True) if not line.startswith(("stages", "spend")))
        for case, line in [(single, "malformed: kind"), (CASE + "arrive H1 1 0.1\n", "malformed: kind"),
                           ("alpha x\n", "malformed: line 1: number")]:
            with self.subTest(line), self.assertRaises(welungad.Refused) as caught:
                welungad.Study(case, self.store)
            self.assertEqual(caught.exception.line, line)
        self.assertEqual(os.listdir(self.room), [])

    def test_wrong_types(self):
        study = welungad.Study(CASE, self.store)
        for call, message in [(lambda: welungad.Study(5, self.store), "^case is a text"), (lambda: welungad.Study(CASE, 5), "^store is the path"),
                              (lambda: welungad.Study(CASE, b"x"), "^store is the path"), (lambda: welungad.Study(CASE, self.store, form=5), "^form is"),
                              (lambda: study.look("H1", 1.0, 0.1), "^the stage of look 1 is a whole"), (lambda: study.looks([5]), "^look 1 is a hyp"),
                              (lambda: study.looks(None), "^looks is a list"), (lambda: study.looks({("H1", 1, "0.1"), ("H2", 1, "0.1")}), "^looks is a list"),
                              (lambda: study.looks(""), "^looks is a list"),
                              (lambda: study.look("H1", 1, None), "^the p-value of look 1 is a number")]:
            with self.subTest(message), self.assertRaisesRegex(TypeError, message):
                call()
        for call, message in [(lambda: study.look("H3", 1, 0.1), "^look 1: 'H3' is not the name"), (lambda: study.look("H1", -1, 0.1), "^the stage of"),
                              (lambda: study.look("H1", 1, "0.1\nshow"), "^the p-value of look 1"), (lambda: welungad.Study(CASE, ""), "^store is"),
                              (lambda: welungad.Study(CASE, ":memory:"), "^store is the path of a file"), (lambda: welungad.Study(CASE, "file:x"), "^store is")]:
            with self.subTest(message), self.assertRaisesRegex(ValueError, message):
                call()
        self.assertEqual(os.listdir(self.room), [])

    def test_a_file_that_is_none(self):
        with self.assertRaisesRegex(ValueError, "^store is the path of a file, and .* is a folder$"):
            welungad.Study(CASE, self.room)
        study = welungad.Study(CASE, os.path.join(self.room, "missing", "looks.db"))
        with self.assertRaises(OSError):
            study.look("H1", 1, 0.1)

    def test_a_file_of_something_else(self):
        with open(self.store, "w", encoding="ascii") as file:
            file.write("no looks\n" * 100)
        with open(self.store + ".case", "w", encoding="ascii") as file:
            file.write(welungad.canon(CASE))
        with self.assertRaises(welungad.Refused) as caught:
            welungad.Study(CASE, self.store).show()
        self.assertEqual((caught.exception.status, caught.exception.line), (9, "keeper fault"))
        self.assertTrue(caught.exception.explanation)

    def test_a_path_from_another_folder(self):
        before = os.getcwd()
        self.addCleanup(os.chdir, before)
        for name in ["looks.db", "-looks.db"]:
            os.chdir(self.room)
            study = welungad.Study(CASE, name)
            study.look("H1", 1, "0.02")
            os.mkdir(os.path.join(self.room, f"other {name}"))
            os.chdir(os.path.join(self.room, f"other {name}"))
            self.assertEqual(study.show().looks, 1)
            self.assertEqual(study.look("H1", 1, "0.02", refused="keep"), welungad.RefusedLook("H1", 1, "known"))
            self.assertEqual(os.listdir("."), [])
            self.assertEqual(welungad.Study(CASE, os.path.join("..", name)).show().looks, 1)

    def test_a_path_that_is_not_utf_8(self):
        with self.assertRaisesRegex(ValueError, "^store is the path of a file in UTF-8, and not "):
            welungad.Study(CASE, os.path.join(self.room, "looks\udcff.db"))
        self.assertEqual(os.listdir(self.room), [])

    def test_a_path_with_blanks_and_signs(self):
        store = os.path.join(self.room, "--looks of 'ü' $x.db")
        self.assertTrue(welungad.Study(CASE, store).look("H1", 1, 0.1))
        self.assertTrue(os.path.isfile(store) and os.path.isfile(store + ".case"))


class Files(Rooms):
    """Whether the case beside a file of looks is there as a whole or not at all."""

    def test_a_full_disk(self):
        with mock.patch.object(os, "fsync", side_effect=OSError(errno.ENOSPC, "No space left on device")), self.assertRaises(OSError):
            _files.write_new(self.store, b"alpha 1/40\n")
        self.assertEqual(os.listdir(self.room), [])

    def test_a_file_system_without_links(self):
        with mock.patch.object(os, "link", side_effect=OSError(errno.EPERM, "Operation not permitted")):
            for text in [b"alpha 1/40\n", b"alpha 1/20\n"]:
                _files.write_new(self.store, text)
        with open(self.store, "rb") as file:
            self.assertEqual(file.read(), b"alpha 1/40\n")
        self.assertEqual(os.listdir(self.room), ["looks.db"])


class Programs(Rooms):
    """Whether nothing but the whole answer of the program is taken."""

    def test_other_programs(self):
        for path in ["/bin/true", "/bin/false", "/bin/cat", "/bin/echo"]:
            with self.subTest(path), mock.patch.dict(os.environ, WELUNGAD=path), self.assertRaisesRegex(OSError, "has no stamp beside it"):
                welungad.Study(CASE, self.store)
            self.program(f'exec {path} "$@"')
            with self.subTest(path), self.assertRaises(welungad.BadAnswer):
                welungad.Study(CASE, self.store)
        self.assertEqual(sorted(os.listdir(self.room)), ["program", "stamp"])

    def test_no_program(self):
        for path in ["/nowhere/welungad", self.room, "/etc/passwd"]:
            with self.subTest(path), mock.patch.dict(os.environ, WELUNGAD=path), self.assertRaisesRegex(OSError, "^the program welungad is not found"):
                welungad.Study(CASE, self.store)
        self.program("")
        with open(os.environ["WELUNGAD"], "w", encoding="ascii") as file:
            file.write("no program")
        self.stamp(os.environ["WELUNGAD"])
        with self.assertRaisesRegex(OSError, "cannot be started"):
            welungad.Study(CASE, self.store)

    def test_the_number_of_a_signal_is_no_status(self):
        for text, words in [("kill -9 $$", "was ended by signal 9"), ("kill -5 $$", "was ended by signal 5"), ("echo no; exit 11", "ended with status 11"),
                            ("exit 137", "ended with status 137")]:
            self.program(text)
            with self.subTest(text), self.assertRaisesRegex(welungad.BadAnswer, words):
                welungad.Study(CASE, self.store)

    def test_another_program_than_its_stamp_names(self):
        self.program("exit 0")
        with open(os.path.join(self.room, "stamp"), "w", encoding="ascii") as file:
            file.write("built x\nsha256 program 00\n")
        with self.assertRaisesRegex(OSError, "is not the file that was built"):
            welungad.Study(CASE, self.store)

    @unittest.skipUnless(PROGRAM, "the program welungad is missing")
    def test_a_part_of_an_answer(self):
        study = welungad.Study(CASE, self.store)
        study.look("H1", 1, "0.02")
        for text in ["alpha 1/20", "alpha 1/20\nrecords 1", "alpha 1/20\nrecords 1\nshow looks 1 rejected", "alpha 1/20\nrecords 1\nend",
                     "alpha 1/40\nrecords 1\nshow looks 1 rejected\nend", "alpha 1/20\nrecords 1\nshow looks 2 rejected\nend",
                     "alpha 1/20\nrecords 1\nshow looks 1 rejected H3\nend", "alpha 1/20\nrecords 1\nshow looks 1 rejected H2 H1\nend",
                     "alpha 1/20\nrecords 1\nshow looks 1 rejected\nend\nend"]:
            self.program(f"cat <<'END'\n{text}\nEND\n")
            with self.subTest(text), self.assertRaises(welungad.BadAnswer):
                study.show()
        self.program("cat <<'END'\nalpha 1/20\nrecords 1\nshow looks 1 rejected H1\nend\nEND\n")
        self.assertEqual(study.show(), welungad.Shown(1, ("H1",)))
        for text in ["look H2 1 1/10", "look H1 1 1/5", "look H1 2 1/10", "refused 2: known", "refused 1: x"]:
            self.program(f"cat <<'END'\nalpha 1/20\nrecords 1\n{text}\nshow looks 2 rejected\nend\nEND\n")
            with self.subTest(text), self.assertRaises(welungad.BadAnswer):
                study.look("H1", 1, "0.1")


if __name__ == "__main__":
    unittest.main()
