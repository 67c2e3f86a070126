"""Tests of ./release: what it makes, that the same commit makes the same bytes, and that each package installs without the kit.

`tools/run_tests.sh` runs them. They need what .ci/run has passed and built in this checkout: .ci/out/proved, the program and the C
library; else they are skipped. Nothing is proved again: clones get what was built here.
"""
import os
import re
import shutil
import subprocess
import sys
import tempfile
import unittest

TOOLS = os.path.dirname(os.path.abspath(__file__))
TOP = os.path.dirname(TOOLS)
BUILT = (".ci/out/proved", "crates/welungad/out/welungad", "crates/welungad/out/stamp", "c/out")
EXAMPLE = os.path.join(TOP, "examples", "diabetes.txt")
WANTED = "rejected H1 H2 H4"


def run(*words, **how):
    return subprocess.run(words, stdout=subprocess.PIPE, stderr=subprocess.STDOUT, stdin=subprocess.DEVNULL, text=True, check=False, **how)


def can_release():
    """Whether everything is committed, passed by the gate and built here."""
    if not all(os.path.exists(os.path.join(TOP, it)) for it in BUILT):
        return False
    return run("git", "-C", TOP, "status", "--porcelain", "--untracked-files=no").stdout == ""


def bare(room):
    """Returns an environment with the system's tools alone: neither rt nor this checkout is on the path."""
    return {"PATH": "/usr/bin:/bin", "HOME": room, "LC_ALL": "C.UTF-8", "TMPDIR": room}


@unittest.skipUnless(can_release(), "nothing is built that the gate has passed")
class Releases(unittest.TestCase):
    @classmethod
    def setUpClass(cls):
        cls.room = tempfile.mkdtemp(prefix="release test ")
        cls.addClassCleanup(shutil.rmtree, cls.room, ignore_errors=True)
        cls.folder = os.path.join(cls.room, "one")
        cls.made = run(os.path.join(TOP, "release"), cls.folder)

    def file(self, pattern):
        found = [it for it in os.listdir(self.folder) if re.fullmatch(pattern, it)]
        self.assertEqual(len(found), 1, found)
        return os.path.join(self.folder, found[0])

    def unpacked(self):
        room = tempfile.mkdtemp(dir=self.room)
        done = run("tar", "-xzf", self.file(r"welungad-.*-linux-x86_64\.tar\.gz"), "-C", room)
        self.assertEqual(done.returncode, 0, done.stdout)
        return os.path.join(room, os.listdir(room)[0])

    def qualify(self, *words):
        """Returns the status and the lines of a qualification by a command, with the system's tools alone."""
        room = tempfile.mkdtemp(dir=self.room)
        done = run(*words, "--out", room, cwd=room, env=bare(self.room))
        return done.returncode, done.stdout.split("\n")

    def test_made(self):
        """Whether a release has its six files, and their checksums are those that it names."""
        self.assertEqual(self.made.returncode, 0, self.made.stdout)
        self.assertEqual(len(os.listdir(self.folder)), 6)
        done = run("sha256sum", "--quiet", "-c", "SHA256SUMS", cwd=self.folder)
        self.assertEqual((done.returncode, done.stdout), (0, ""))
        with open(os.path.join(self.folder, "PROVED"), encoding="utf-8") as file:
            proved = file.read()
        commit = run("git", "-C", TOP, "rev-parse", "HEAD").stdout.strip()
        self.assertIn(f"commit {commit}\n", proved)
        self.assertRegex(proved, r"(?m)^crates proved \d+\nplanted bugs refused \d+\ntests passed \d+\nstored runs passed \d+$")
        with open(os.path.join(TOP, "crates", "welungad", "out", "stamp"), encoding="utf-8") as file:
            for line in re.findall(r"(?m)^(?:kit|sha256) .*$", file.read()):
                self.assertIn(line + "\n", proved)

    def test_not_overwritten(self):
        """Whether a folder that isn't empty is left alone."""
        done = run(os.path.join(TOP, "release"), self.folder)
        self.assertEqual((done.returncode, done.stdout), (2, f"release: {self.folder} is not empty\n"))

    def test_same_bytes(self):
        """Whether a clone in another folder, at another time and under another umask, makes the same bytes."""
        clone = os.path.join(self.room, "a clone", "of another name")
        done = run("git", "clone", "-q", TOP, clone)
        self.assertEqual(done.returncode, 0, done.stdout)
        for place in BUILT:
            source, target = os.path.join(TOP, place), os.path.join(clone, place)
            os.makedirs(os.path.dirname(target), exist_ok=True)
            if os.path.isdir(source):
                shutil.copytree(source, target, symlinks=True)
            else:
                shutil.copy2(source, target)
        how = {**os.environ, "TZ": "Asia/Tokyo", "USER": "another", "LOGNAME": "another"}
        done = run("sh", "-c", f"umask 077; exec ./release --check '{self.folder}'", cwd=clone, env=how)
        self.assertEqual((done.returncode, done.stdout), (0, "yes: 6 files, each the same bytes\n"))

    def test_changed_byte(self):
        """Whether `--check` says no to a release of which one byte of a file is changed, and names the file."""
        copy = os.path.join(self.room, "copy")
        shutil.copytree(self.folder, copy)
        for name in sorted(os.listdir(copy)):
            with open(os.path.join(copy, name), "r+b") as file:
                file.seek(-1, os.SEEK_END)
                last = file.read(1)
                file.seek(-1, os.SEEK_END)
                file.write(bytes([last[0] ^ 1]))
        done = run(os.path.join(TOP, "release"), "--check", copy)
        self.assertEqual(done.returncode, 1)
        for name in os.listdir(copy):
            self.assertIn(f"{name}: other bytes\n", done.stdout)
        self.assertNotEqual(run("sha256sum", "--quiet", "-c", "SHA256SUMS", cwd=copy).returncode, 0)

    def test_prefix(self):
        """Whether the archive installs without a kit, decides an example, passes its qualification, and is removed without a rest."""
        files, prefix = self.unpacked(), os.path.join(self.room, "a prefix")
        done = run(os.path.join(files, "install.sh"), prefix, env=bare(self.room))
        self.assertEqual(done.returncode, 0, done.stdout)
        with open(EXAMPLE, encoding="utf-8") as case:
            done = subprocess.run([os.path.join(prefix, "bin", "welungad"), "test"], stdin=case, stdout=subprocess.PIPE, text=True, env=bare(self.room), check=False)
        self.assertEqual(done.returncode, 0)
        self.assertIn(WANTED + "\n", done.stdout)
        with open(os.path.join(prefix, "lib", "pkgconfig", "welungad.pc"), encoding="utf-8") as file:
            self.assertIn("prefix=" + prefix.replace(" ", "\\ ") + "\n", file.read())
        if shutil.which("python3", path=bare(self.room)["PATH"]):
            status, lines = self.qualify(os.path.join(prefix, "bin", "welungad-qualify"))
            self.assertEqual((status, lines[0]), (0, "Qualification of Welungad: passed"), lines)
        done = run(os.path.join(prefix, "share", "welungad", "uninstall"), prefix, env=bare(self.room))
        self.assertEqual(done.returncode, 0, done.stdout)
        self.assertFalse(os.path.exists(prefix))

    def test_prefix_changed(self):
        """Whether an archive of which a file was changed isn't installed."""
        files, prefix = self.unpacked(), os.path.join(self.room, "no prefix")
        with open(os.path.join(files, "files", "bin", "welungad"), "ab") as file:
            file.write(b"\n")
        done = run(os.path.join(files, "install.sh"), prefix, env=bare(self.room))
        self.assertEqual(done.returncode, 1)
        self.assertIn("files/bin/welungad", done.stdout)
        self.assertFalse(os.path.exists(prefix))

    def test_wheel(self):
        """Whether the wheel installs without network into an environment of its own, decides an example, and passes its qualification, but
        not with another byte in its library."""
        place = os.path.join(self.room, "environment")
        done = run(sys.executable, "-m", "venv", place)
        if done.returncode:
            self.skipTest("no venv: " + done.stdout.strip().split("\n")[-1])
        python = os.path.join(place, "bin", "python")
        done = run(python, "-m", "pip", "install", "--quiet", "--no-index", "--no-deps", self.file(r"welungad-.*\.whl"), env=bare(self.room))
        self.assertEqual(done.returncode, 0, done.stdout)
        words = f"import welungad; print(welungad.run(['test'], open({EXAMPLE!r}, 'rb').read())[1].decode())"
        done = run(python, "-c", words, cwd=self.room, env=bare(self.room))
        self.assertIn(WANTED, done.stdout)
        status, lines = self.qualify(python, "-m", "welungad.qualify")
        self.assertEqual((status, lines[0]), (0, "Qualification of Welungad: passed"), lines)
        folder = run(python, "-c", "import welungad; print(welungad.__path__[0])", cwd=self.room, env=bare(self.room)).stdout.strip()
        with open(os.path.join(folder, "libwelungad.so"), "ab") as file:
            file.write(b"\n")
        status, lines = self.qualify(python, "-m", "welungad.qualify")
        self.assertEqual((status, lines[0]), (1, "Qualification of Welungad: FAILED"), lines)
        self.assertTrue([it for it in lines if it.startswith("failed  files: welungad/libwelungad.so: ")], lines)

    @unittest.skipUnless(shutil.which("R"), "no R")
    def test_r_package(self):
        """Whether the R package installs without the kit and without settings, and decides an example by the library inside."""
        library = os.path.join(self.room, "r library")
        os.mkdir(library)
        done = run("R", "CMD", "INSTALL", "--no-docs", "--no-test-load", "-l", library, self.file(r"welungad_.*\.tar\.gz"), env=bare(self.room))
        if "gmp" in done.stdout and "ERROR" in done.stdout:
            self.skipTest("no gmp")
        self.assertEqual(done.returncode, 0, done.stdout)
        self.assertIn("with the C library of the release", done.stdout)
        words = "library(welungad); x <- graph_test(graph_create(c(1/2, 1/2), rbind(c(0, 1), c(1, 0))), c(.01, .04), .05); cat(x$rejected)"
        done = run("Rscript", "--vanilla", "-e", words, env={**bare(self.room), "R_LIBS": library})
        self.assertIn("TRUE TRUE", done.stdout)


class Versions(unittest.TestCase):
    def test_versions(self):
        """Whether each file that repeats the release's number has that of VERSION."""
        with open(os.path.join(TOP, "VERSION"), encoding="utf-8") as file:
            version = file.read().strip()
        places = {
            "r/DESCRIPTION": f"Version: {version}\n",
            "r/NEWS.md": f"# welungad {version}\n",
            "python/welungad/__init__.py": f'__version__ = "{version}"\n',
            "CITATION.cff": f"version: {version}\n",
            "docs/welungad.1": f'"welungad {version}"',
            "CHANGES.md": f"The release is {version}",
            "README.md": f"welungad-{version}-linux-x86_64.tar.gz",
        }
        for place, words in places.items():
            with open(os.path.join(TOP, place), encoding="utf-8") as file:
                self.assertIn(words, file.read(), place)


if __name__ == "__main__":
    unittest.main()
