"""Tests of qualify.py and welungad-qualify, on a prefix that is made here of the built program and library."""
import contextlib
import glob
import hashlib
import os
import re
import shutil
import subprocess
import sys
import tempfile
import unittest

TOOLS = os.path.dirname(os.path.abspath(__file__))
TOP = os.path.dirname(TOOLS)
sys.path.insert(0, TOOLS)

import qualify  # noqa: E402
import test_tools  # noqa: E402

LIBRARY = os.path.join(TOP, "c", "out", "libwelungad.so")


def digest(path):
    with open(path, "rb") as file:
        return hashlib.sha256(file.read()).hexdigest()


def change_byte(path, at=-1):
    """Changes one byte of a file."""
    with open(path, "r+b") as file:
        content = bytearray(file.read())
        content[at] ^= 1
        file.seek(0)
        file.write(content)


class Calls(unittest.TestCase):
    """What is compared, on the examples of this checkout. Nothing is run."""

    def test_each_example(self):
        """Whether each example is read by a call of the page, and each call but those of graphs reads one."""
        calls = [*qualify.calls_of(qualify.Installation())]
        read = {os.path.basename(path) for call in calls for path in (call.case, call.proof) if path}
        self.assertEqual(set(os.listdir(os.path.join(TOP, "examples"))) - read, {"README.md"})
        self.assertEqual({call.words[0] for call in calls if not call.case}, {"catalogue", "sample"})
        self.assertTrue(all(call.wanted for call in calls))
        self.assertEqual(test_tools.COMMANDS - {call.words[0] for call in calls}, set())

    def test_report(self):
        """Whether a report has each comparison, what failed first, and lines to sign; and what is in it is never taken as markup."""
        rows = [qualify.Row("passed", "files", "a", "b"), qualify.Row("failed", "program", "<test>", "status 5"), qualify.Row("skipped", "page", "c", "d")]
        text, page = qualify.text_of([("Machine", "m"), ("Built", "x\ny")], rows), qualify.page_of([("Machine", "<m>")], rows)
        self.assertEqual(text.split("\n")[0], "Qualification of Welungad: FAILED")
        self.assertIn("\nComparisons: 1 passed, 1 failed, 1 skipped\n\nfailed  program: <test>: status 5\nskipped page: c: d\npassed  files: a: b\n", text)
        self.assertIn("\nBuilt:\n  x\n  y\n", text)
        self.assertIn("\nSignature: ____", text)
        self.assertIn("&lt;test&gt;", page)
        self.assertIn("<th>Signature</th>", page)
        self.assertNotIn("<m>", page)


@unittest.skipUnless(os.access(test_tools.PROGRAM, os.X_OK), "the program isn't built")
@unittest.skipUnless(os.path.isfile(LIBRARY), "the C library isn't built")
class Prefixes(unittest.TestCase):
    """A prefix as ./install makes it, as far as it is qualified."""

    @classmethod
    def setUpClass(cls):
        cls.kept = tempfile.TemporaryDirectory(prefix="a prefix ")
        cls.prefix = os.path.join(cls.kept.name, "usr")
        share = os.path.join(cls.prefix, "share", "welungad")
        for folder in ("bin", "lib"):
            os.makedirs(os.path.join(cls.prefix, folder))
        shutil.copy(test_tools.PROGRAM, os.path.join(cls.prefix, "bin", "welungad"))
        shutil.copy(os.path.join(TOOLS, "welungad-qualify"), os.path.join(cls.prefix, "bin"))
        shutil.copy(LIBRARY, os.path.join(cls.prefix, "lib", "libwelungad.so"))
        ignored = shutil.ignore_patterns("__pycache__", "test_*", "*.sh", "welungad-qualify")
        for name in ("tools", "examples", "docs", os.path.join("python", "welungad")):
            shutil.copytree(os.path.join(TOP, name), os.path.join(share, name), ignore=ignored)
        cls.write_digests(share)

    @classmethod
    def write_digests(cls, share):
        paths = [path for path in glob.glob(os.path.join(cls.prefix, "**", "*"), recursive=True) if os.path.isfile(path)]
        named = [path for path in paths if os.path.basename(path) not in ("welungad", "libwelungad.so") or "share" in path]
        with open(os.path.join(share, "digests"), "w", encoding="utf-8") as file:
            file.writelines(f"{digest(path)}  {os.path.relpath(path, cls.prefix)}\n" for path in sorted(named))
        places = {"welungad": "bin/welungad", "libwelungad.so": "lib/libwelungad.so", "digests": "share/welungad/digests"}
        with open(os.path.join(share, "identity"), "w", encoding="utf-8") as file:
            file.write("release 0.2.0\n" + "".join(f"sha256 {name} {digest(os.path.join(cls.prefix, path))}\n" for name, path in places.items()))

    @classmethod
    def tearDownClass(cls):
        cls.kept.cleanup()

    def qualify(self):
        """Returns the status, the lines that failed and were skipped, and the number of those that passed."""
        with tempfile.TemporaryDirectory() as room:
            done = subprocess.run([os.path.join(self.prefix, "bin", "welungad-qualify"), "--out", room], capture_output=True, text=True, encoding="utf-8")
            self.assertEqual(done.stderr, "")
            self.assertEqual(test_tools.content(room, "qualification.txt"), done.stdout)
            self.assertIn("<h1>Qualification of Welungad: ", test_tools.content(room, "qualification.html"))
        lines = done.stdout.split("\n")
        return done.returncode, [it for it in lines if it.startswith(("failed ", "skipped "))], len([it for it in lines if it.startswith("passed ")])

    @contextlib.contextmanager
    def changed(self, *path):
        """Yields the path of a file, which is put back afterwards."""
        place = os.path.join(self.prefix, *path)
        with tempfile.TemporaryDirectory() as room:
            shutil.copy2(place, room)
            try:
                yield place
            finally:
                shutil.copy2(os.path.join(room, os.path.basename(place)), place)

    def test_passes(self):
        """Whether a prefix that is as it was installed passes; what is skipped is a study in process, and the case that is too wide."""
        status, others, passed = self.qualify()
        self.assertEqual((status, [re.sub("<.*", "", it) for it in others]), (0, [
            "skipped C library, in process: study study-looks.txt --store looks.db ",
            "skipped closed_test.py: too-wide.txt: it is refused with status 5, so there is no decision",
        ]))
        self.assertGreater(passed, 170)

    def test_changed_byte_of_the_program(self):
        """Whether one changed byte of the program is found, and the program is not started."""
        with self.changed("bin", "welungad") as path:
            change_byte(path)
            status, lines, _ = self.qualify()
        self.assertEqual(status, 1)
        self.assertIn(f"failed  files: bin/welungad: {path} is not the file that was installed: its SHA-256 is", lines[0])
        self.assertIn(f"failed  program: {path}: it is missing, or not the one that was proved, so it is not started", lines)

    def test_wrong_library(self):
        """Whether another library is found, and is not called."""
        with self.changed("lib", "libwelungad.so") as path:
            shutil.copy(test_tools.PROGRAM, path)
            status, lines, _ = self.qualify()
        self.assertEqual(status, 1)
        self.assertIn("failed  files: lib/libwelungad.so: ", lines[0])
        self.assertIn(f"failed  C library, in process: {path}: it is missing, or not the one that was proved, so it is not called", lines)

    def test_missing_example(self):
        """Whether a missing example is named, and a changed one and a changed script are."""
        with self.changed("share", "welungad", "examples", "fallback.txt") as missing, self.changed("share", "welungad", "examples", "diabetes.txt") as diabetes, \
                self.changed("share", "welungad", "tools", "draw.py") as draw:
            os.remove(missing)
            change_byte(draw)
            with open(diabetes, encoding="utf-8") as file:
                text = file.read()
            with open(diabetes, "w", encoding="utf-8") as file:
                file.write(text.replace("0.018", "0.019"))
            status, lines, _ = self.qualify()
        self.assertEqual(status, 1)
        self.assertIn(f"failed  files: share/welungad/examples/fallback.txt: {missing} is missing", lines)
        self.assertIn(f"failed  program: test < fallback.txt: the example {missing} is missing", lines)
        self.assertTrue(any(it.startswith("failed  files: share/welungad/tools/draw.py: ") for it in lines))
        self.assertTrue(any(it.startswith("failed  program: test < diabetes.txt: status 0, and no text of the section diabetes of the examples") for it in lines))

    def test_other_doors(self):
        """Whether the answers of a further door are compared, from a folder."""
        with tempfile.TemporaryDirectory() as room:
            script = [sys.executable, "-B", os.path.join(self.prefix, "share", "welungad", "tools", "qualify.py")]
            subprocess.run([*script, "--calls", room], check=True)
            numbers = sorted(int(os.path.basename(path)[:-6]) for path in glob.glob(os.path.join(room, "*.words")))
            self.assertEqual(numbers, [*range(1, len(numbers) + 1)])
            first = test_tools.content(room, "1.words").split("\n")
            self.assertEqual(first, ["test", ""])
            for name, text in (("1.status", "0"), ("1.text", "alpha 1/20\n"), ("about", "a door of its own")):
                with open(os.path.join(room, name), "w", encoding="utf-8") as file:
                    file.write(text)
            rows = [*qualify.check_calls(qualify.Installation(), qualify.FolderDoor("own", room))]
            self.assertEqual((rows[0].verdict, {row.verdict for row in rows[1:]}), ("failed", {"skipped"}))


if __name__ == "__main__":
    unittest.main()
