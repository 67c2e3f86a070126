"""Tests of the scripts that build, install and check: those at the top, c/build.sh, r/configure, .ci/run and bench/kept.py.

`tools/run_tests.sh` runs them. Nothing is proved: each test has a small checkout of its own, in a folder with blanks in its name,
with the scripts of this one and a stand-in for rt.
"""
import glob
import os
import re
import shlex
import shutil
import signal
import stat
import subprocess
import tempfile
import unittest

TOOLS = os.path.dirname(os.path.abspath(__file__))
TOP = os.path.dirname(TOOLS)
NOBODY = 65534
IS_ROOT = os.geteuid() == 0

# `rt run` builds a program that prints how often it was built and the number of its words, and `rt lib` the library of STUB. With
# EDIT, the sources are edited while they build, and committed if it is `commit`; with FAIL, those of the library are not proved.
RT = """#!/bin/sh
case $1 in
version) echo a-kit logic 1 ;;
try) for word in "$@"; do echo "[$word]"; done ;;
ci) echo "rt ci"; exit "${RT_CI:-0}" ;;
run)
    echo built >>out/builds
    { echo '#!/bin/sh'; echo "echo $(grep -c . out/builds) \\$#; cat"; } >out/welungad
    chmod +x out/welungad
    ;;
lib)
    echo built >>out/builds
    if [ -n "${FAIL-}" ]; then echo "not proved"; exit 1; fi
    cc -fPIC -c -o out/stub.o "$(dirname "$(readlink -f "$0")")/stub.c" && ar rcs out/libwelungad_c.a out/stub.o
    ;;
esac
if [ -n "${EDIT-}" ]; then echo edited >>src/main.rt; fi
if [ "${EDIT-}" = commit ]; then git add . && git -c user.name=a -c user.email=a@b commit -qm edited; fi
"""

# A library whose calls ask for pointers, as the proved ones do, and of which `welungad_run` answers `ok`.
STUB = """
#include <stddef.h>
#include <stdint.h>
#include <stdlib.h>
#include <string.h>
int not_exported = 1;
uint32_t welungad_interface(void) { return 1; }
uint8_t welungad_run(const uint8_t *words, size_t words_len, const uint8_t *kase, size_t kase_len, const uint8_t *proof,
                     size_t proof_len, uint8_t *out, size_t out_len, size_t *needed) {
  if (!words || !kase || !proof || !out || !needed) abort();
  *needed = 3;
  if (out_len < 3) return 7;
  memcpy(out, "ok\\n", 3);
  return 0;
}
uint8_t welungad_read(const uint64_t *bits, size_t bits_len, uint64_t *out, size_t out_len) {
  if (!bits || !out) abort();
  return bits_len == out_len ? 0 : 11;
}
uint8_t welungad_test_rows(const uint8_t *kase, size_t kase_len, const uint64_t *p, size_t p_len, uint8_t *rejected,
                           size_t rejected_len, uint8_t *statuses, size_t statuses_len) {
  if (!kase || !p || !rejected || !statuses) abort();
  return kase_len + p_len + rejected_len + statuses_len == 0 ? 3 : 0;
}
uint8_t welungad_update(const uint8_t *kase, size_t kase_len, const size_t *removed, size_t removed_len, uint8_t *out,
                        size_t out_len, size_t *needed) {
  if (!kase || !removed || !out || !needed) abort();
  *needed = kase_len + removed_len + out_len;
  return *needed == 0 ? 3 : 0;
}
"""

# What the library exports.
EXPORTED = "welungad_interface welungad_read welungad_run welungad_test_rows welungad_update welungad_version".split()

# A caller that has nothing to point at.
CALLER = """
#include <stdio.h>
#include <welungad.h>
int main(void) {
  uint8_t out[3];
  size_t needed = 0;
  if (welungad_run(NULL, 0, NULL, 0, NULL, 0, NULL, 0, &needed) != WELUNGAD_ROOM || needed != 3) return 1;
  if (welungad_run(NULL, 0, NULL, 0, NULL, 0, out, 3, &needed) != WELUNGAD_DONE) return 2;
  if (welungad_read(NULL, 0, NULL, 0) != WELUNGAD_DONE) return 3;
  if (welungad_test_rows(NULL, 0, NULL, 0, NULL, 0, NULL, 0) != WELUNGAD_MALFORMED) return 4;
  if (welungad_update(NULL, 0, NULL, 0, NULL, 0, &needed) != WELUNGAD_MALFORMED || needed != 0) return 5;
  printf("%s %u\\n", welungad_version(), (unsigned)welungad_interface());
  return 0;
}
"""

# The files of the checkout that a test has, and some that an installation has or leaves out.
SCRIPTS = "welungad install uninstall unproved tools/stamps.sh tools/placing.sh c/build.sh r/configure .ci/run bench/kept.py".split()
AS_HERE = "VERSION c/calls.c c/proved.names c/welungad.h c/welungad.map c/examples/decide.c docs/welungad.1 tools/welungad-qualify".split()
INSTALLED = (
    "README.md CHANGES.md LICENSE LICENSE-MIT LICENSE-APACHE CITATION.cff docs/FORMATS.md docs/REFUSALS.md docs/pictures/holm.svg examples/holm.txt "
    "tools/draw.py c/README.md python/README.md python/pyproject.toml python/welungad/__init__.py python/welungad/py.typed "
    "r/DESCRIPTION r/configure r/R/test.R r/R/call.R r/man/a.Rd r/src/a.c r/inst/a.txt r/.Rbuildignore"
).split()
LEFT_OUT = (
    "tools/test_tools.py tools/run_tests.sh c/test.sh c/test_calls.c python/tests/test_a.py python/test_a.py python/run_tests.sh "
    "python/acceptance_rows.py r/tests/testthat.R r/tests/testthat/test-a.R r/run_tests.sh r/.gitignore bench/README.md"
).split()
BUILT = (
    "python/.mypy_cache/a r/src/a.o r/src/a.so r/src/Makevars python/welungad/__pycache__/a.pyc python/welungad.egg-info/PKG-INFO"
).split()


def content(*path):
    with open(os.path.join(TOP, *path), encoding="utf-8") as file:
        return file.read()


def snapshot(folder):
    """Returns the mode and the bytes, or the place of a link, of each path below a folder."""
    found = {}
    for at, folders, files in os.walk(folder):
        for name in [".", *folders, *files]:
            path = os.path.normpath(os.path.join(at, name))
            if os.path.islink(path):
                held = os.readlink(path)
            elif os.path.isdir(path):
                held = None
            else:
                with open(path, "rb") as file:
                    held = file.read()
            found[os.path.relpath(path, folder)] = (stat.S_IMODE(os.lstat(path).st_mode), held)
    return found


def path_with(folder):
    """Returns the path on which the programs of a folder come first."""
    return f"{folder}:{os.environ['PATH']}"


class Room(unittest.TestCase):
    """A checkout with the scripts, a few sources and a stand-in for rt, not committed yet."""

    def setUp(self):
        self.addCleanup(os.umask, os.umask(0o022))
        room = tempfile.TemporaryDirectory(prefix="a room ")
        self.addCleanup(room.cleanup)
        os.chmod(room.name, 0o755)
        self.room, self.top = room.name, os.path.join(room.name, "the top")
        for name in (*INSTALLED, *LEFT_OUT):
            self.write(name, f"{name}\n")
        for name in SCRIPTS:
            self.write(name, content(name), 0o755)
        for name in AS_HERE:
            self.write(name, content(name))
        for name in ("crates/welungad/src/main.rt", "crates/welungad_c/src/lib.rt", "crates.txt", "HANDLES"):
            self.write(name, f"{name}\n")
        self.write(".gitignore", "out/\n__pycache__/\n.mypy_cache\n*.egg-info/\nr/src/Makevars\nr/src/*.o\nr/src/*.so\n")
        self.write("../kit/bin/rt", RT, 0o755)
        self.write("../kit/bin/stub.c", STUB)
        self.write("../kit/c/liblibc_c.a", "!<arch>\n")
        self.environment = {name: value for name, value in os.environ.items() if not name.startswith("GIT_")}
        self.environment.update(GIT_CONFIG_GLOBAL="/dev/null", GIT_CONFIG_SYSTEM="/dev/null")
        self.environment["PATH"] = path_with(os.path.join(self.room, "kit", "bin"))
        for name in ("DESTDIR", "CDPATH", "WELUNGAD_PREFIX", "WELUNGAD_INCLUDE", "WELUNGAD_LIB"):
            self.environment.pop(name, None)

    def path(self, *names):
        return os.path.join(self.room, *names)

    def write(self, name, text, mode=0o644):
        """Writes a file of the checkout."""
        path = os.path.join(self.top, name)
        os.makedirs(os.path.dirname(path), exist_ok=True)
        with open(path, "w", encoding="utf-8") as file:
            file.write(text)
        os.chmod(path, mode)

    def call(self, words, given="", where="/", user=None, **more):
        """Returns the status, the output and the errors of a command."""
        as_user = {"user": user, "group": user, "extra_groups": []} if user is not None else {}
        environment = {**self.environment, **more}
        done = subprocess.run(words, input=given, capture_output=True, text=True, env=environment, cwd=where, **as_user)
        return done.returncode, done.stdout, done.stderr

    def run_script(self, name, *words, **how):
        return self.call([os.path.join(self.top, name), *words], **how)

    def git(self, *words, top=None):
        subprocess.run(["git", *words], cwd=top or self.top, check=True, env=self.environment)

    def commit(self, top=None):
        """Commits all files of a folder, in a repository of its own."""
        self.git("init", "-q", top=top)
        self.git("add", "-A", top=top)
        self.git("-c", "user.name=a", "-c", "user.email=a@b", "commit", "-qm", "a", top=top)

    def build(self):
        """Commits, and builds the program."""
        self.commit()
        self.assertEqual(self.run_script("welungad")[:2], (0, "1 0\n"))

    def make_library(self):
        """Writes a library of a few bytes with its stamp, as c/build.sh does."""
        for name in ("libwelungad.a", "libwelungad.so"):
            self.write(f"c/out/{name}", f"{name}\n")
        self.make_stamp()

    def make_stamp(self):
        """Writes the stamp of the library that is there."""
        made = """
            cd "$top" && . tools/stamps.sh && now=$(sources $library_sources) &&
                stamp_of "$now" "$now" c/out/libwelungad.so c/out/libwelungad.a
        """
        status, stamp, errors = self.call(["sh", "-c", made], top=self.top, script="test")
        self.assertEqual((status, errors), (0, ""))
        self.write("c/out/stamp", stamp)

    def is_refused(self, done, *words, status=1):
        """Whether a script printed one line that has these words, and ended with this status."""
        self.assertEqual((done[0], done[1]), (status, ""), done[2])
        self.assertEqual(done[2].count("\n"), 1, done[2])
        for word in words:
            self.assertIn(word, done[2])

    def path_without(self, *beginnings):
        """Returns a path on which all programs are but those whose names begin so."""
        folder = self.path(f"no {beginnings[0]}")
        os.makedirs(folder)
        for place in ("/bin", "/usr/bin"):
            for name in os.listdir(place):
                if not name.startswith(beginnings) and not os.path.lexists(os.path.join(folder, name)):
                    os.symlink(os.path.join(place, name), os.path.join(folder, name))
        return f"{self.path('kit', 'bin')}:{folder}"


HAS_GIT = unittest.skipUnless(shutil.which("git"), "git is missing")
HAS_CC = unittest.skipUnless(all(map(shutil.which, ("cc", "ar", "objcopy"))), "cc or the binutils are missing")


@HAS_GIT
class Program(Room):
    def test_stale(self):
        """Whether the program is built once, and again for a commit that changes a source, and for no other."""
        self.commit()
        self.assertEqual(self.run_script("welungad", "a b", "c", given="text")[:2], (0, "1 2\ntext"))
        self.assertEqual(self.run_script("welungad"), (0, "1 0\n", ""))
        self.write("docs/FORMATS.md", "more\n")
        self.commit()
        self.assertEqual(self.run_script("welungad"), (0, "1 0\n", ""))
        self.write("crates/welungad/src/main.rt", "fn main() { }\n")
        self.assertEqual(self.run_script("welungad"), (0, "1 0\n", ""))
        self.commit()
        self.assertEqual(self.run_script("welungad")[:2], (0, "2 0\n"))
        self.assertEqual(self.run_script("welungad"), (0, "2 0\n", ""))

    def test_edited(self):
        """Whether a build from sources that aren't committed is made again at each call, and isn't installed."""
        self.commit()
        self.write("crates/welungad/src/more.rt", "")
        self.assertEqual(self.run_script("welungad")[:2], (0, "1 0\n"))
        self.assertEqual(self.run_script("welungad")[:2], (0, "2 0\n"))
        self.is_refused(self.run_script("install", self.path("prefix")), "not the program that was proved", "edited")

    def test_edited_meanwhile(self):
        """Whether an edit during the build is found."""
        self.commit()
        self.assertEqual(self.run_script("welungad", EDIT="yes")[:2], (0, "1 0\n"))
        self.git("checkout", "-q", ".")
        self.assertEqual(self.run_script("welungad")[:2], (0, "2 0\n"))

    def test_no_stamp(self):
        """Whether a stamp that can't be written or removed ends with a status that no command has, and so does a script that lacks a file."""
        self.commit()
        for name, said in (("stamp.new", "/crates/welungad/out/stamp can't be written\n"), ("stamp", "")):
            path = os.path.join(self.top, "crates", "welungad", "out", name)
            os.makedirs(path)
            for words in (["check", "x"], []):
                status, printed, errors = self.run_script("welungad", *words)
                self.assertEqual((status, printed), (125, ""), errors)
                self.assertTrue(errors.endswith(said), errors)
            os.rmdir(path)
        os.rename(os.path.join(self.top, "tools", "stamps.sh"), self.path("stamps.sh"))
        self.assertEqual(self.run_script("welungad")[:2], (125, ""))

    def test_another_program(self):
        """Whether a program that the stamp does not name, such as a script at its place, is refused and not run."""
        self.build()
        path = os.path.join(self.top, "crates", "welungad", "out", "welungad")
        with open(path, "rb") as file:
            own = file.read()
        for content_of_it in (b"#!/bin/sh\necho another\n", own + b"\0"):
            with open(path, "wb") as file:
                file.write(content_of_it)
            self.is_refused(self.run_script("welungad", "test"), "is not the program that was proved: welungad is not the file that was built; run rm -f ",
                            status=125)
        self.is_refused(self.run_script("welungad", PATH=self.path_without("sha256sum")), "has no checksum, since sha256sum says none", status=125)
        os.remove(os.path.join(self.top, "crates", "welungad", "out", "stamp"))
        self.assertEqual(self.run_script("welungad")[:2], (0, "2 0\n"))

    def test_link(self):
        """Whether a symbolic link to the script runs it, from any folder and under CDPATH."""
        self.build()
        os.makedirs(self.path("here", "the top"))
        os.symlink(self.path("the top", "welungad"), self.path("here", "w"))
        where = {"where": self.path("here"), "CDPATH": f"{self.room}:/"}
        self.assertEqual(self.call(["./w"], **where), (0, "1 0\n", ""))
        self.assertEqual(self.call([self.path("here", "w")], **where), (0, "1 0\n", ""))
        self.assertEqual(self.call(["../the top/welungad"], **where), (0, "1 0\n", ""))
        self.assertEqual(self.call(["the top/welungad"], where=self.room, CDPATH=self.path("here")), (0, "1 0\n", ""))

    def test_nested_copy(self):
        """Whether a copy inside another repository is built again when its sources change, whether that one tracks it or not."""
        self.commit(self.room)
        for count in (1, 2):
            self.assertEqual(self.run_script("welungad")[:2], (0, f"{count} 0\n"))
            self.assertEqual(self.run_script("welungad"), (0, f"{count} 0\n", ""))
            self.write("crates/welungad/src/main.rt", f"{count}\n")
            self.commit(self.room)
        with open(self.path(".gitignore"), "w", encoding="utf-8") as file:
            file.write("the top\n")
        self.git("rm", "-rq", "--cached", "the top", top=self.room)
        self.commit(self.room)
        for count in (3, 4):
            self.assertEqual(self.run_script("welungad")[:2], (0, f"{count} 0\n"))
            self.assertEqual(self.run_script("welungad"), (0, f"{count} 0\n", ""))
            self.write("crates/welungad/src/main.rt", f"{count}\n")

    def test_no_git(self):
        """Whether a checkout without git's folder, and one on a machine without git, is built again when its sources change."""
        for count, path in ((1, self.environment["PATH"]), (3, self.path_without("git"))):
            for number in (count, count + 1):
                self.assertEqual(self.run_script("welungad", PATH=path)[:2], (0, f"{number} 0\n"))
                self.assertEqual(self.run_script("welungad", PATH=path), (0, f"{number} 0\n", ""))
                self.write("crates/welungad/src/main.rt", f"{number}\n")

    def test_git_refuses(self):
        """Whether a git that refuses to read the checkout is an error that says so, with a status that no command has."""
        self.build()
        done = self.run_script("welungad", GIT_TEST_ASSUME_DIFFERENT_OWNER="1")
        self.is_refused(done, "git refuses", f"safe.directory '{self.top}'", status=125)
        self.is_refused(self.run_script("install", self.path("prefix"), GIT_TEST_ASSUME_DIFFERENT_OWNER="1"), "git refuses")
        self.is_refused(self.run_script("c/build.sh", GIT_TEST_ASSUME_DIFFERENT_OWNER="1"), "git refuses")
        self.assertFalse(os.path.exists(self.path("prefix")))
        with open(os.path.join(self.top, ".git", "config"), "a", encoding="utf-8") as file:
            file.write("[\n")
        self.is_refused(self.run_script("welungad"), "git cannot read", "bad config", status=125)

    def test_hook(self):
        """Whether the repository that a hook names is not taken for that of the checkout."""
        self.build()
        other = self.path("other")
        self.git("init", "-q", other)
        self.assertEqual(self.run_script("welungad", GIT_DIR=os.path.join(other, ".git"), GIT_WORK_TREE=other), (0, "1 0\n", ""))

    def test_reading_alone(self):
        """Whether a built checkout is run without a write to it."""
        self.build()
        paths = [os.path.join(folder, name) for folder, _, names in os.walk(self.top) for name in ["", *names]]
        for path in paths:
            os.chmod(path, os.stat(path).st_mode & ~(stat.S_IWUSR | stat.S_IWGRP | stat.S_IWOTH))
        before = [(path, os.stat(path).st_mtime_ns) for path in paths]
        self.assertEqual(self.run_script("welungad"), (0, "1 0\n", ""))
        self.assertEqual(self.run_script("install", self.path("prefix"))[0], 0)
        self.assertEqual([(path, os.stat(path).st_mtime_ns) for path in paths], before)
        for path in paths:
            os.chmod(path, os.stat(path).st_mode | stat.S_IWUSR)

    def test_not_built(self):
        """Whether each script says in a line what it lacks: the program, rt, or a folder that can be written."""
        self.is_refused(self.run_script("install", self.path("prefix")), "run ./welungad help first")
        path = self.path_without("git").partition(":")[2]
        self.is_refused(self.run_script("welungad", PATH=path), "rt isn't on the path", status=125)
        self.is_refused(self.run_script("c/build.sh", PATH=path), "rt isn't on the path")
        self.is_refused(self.run_script("unproved", "help", PATH=path), "rt isn't on the path", status=125)
        if IS_ROOT:
            self.is_refused(self.run_script("welungad", user=NOBODY), "can't be written", status=125)
            self.is_refused(self.run_script("c/build.sh", user=NOBODY), "can't be written")


class Unproved(Room):
    def test_words(self):
        """Whether words keep their blanks, the file of a command is handed on, and a file of looks is refused."""
        self.write("../here/a case", "")
        where = self.path("here")
        path = os.path.join(where, "a case")
        status, words, errors = self.run_script("unproved", "check", "a case", "--form", "text or not", where=where)
        self.assertEqual((status, errors.count("at each call")), (0, 1))
        self.assertEqual(words, f"[try]\n[--data]\n[file-1={path}]\n[--]\n[check]\n[file-1]\n[--form]\n[text or not]\n")
        self.assertEqual(self.run_script("unproved", "help", where=where)[1], "[try]\n[--]\n[help]\n")
        for words in (["--store", "x"], ["--store=x"]):
            self.is_refused(self.run_script("unproved", "study", "a case", *words, where=where), "no file of looks is kept", status=2)
        self.is_refused(self.run_script("unproved", "check", "b", where=where), "b is not a file", status=2)

    def test_names_of_files(self):
        """Whether a word that is the name of a file, but that the command doesn't take as one, is handed on as it is."""
        for name in ("holm", "text", "check", "commands"):
            self.write(f"../here/{name}", "")
        where = self.path("here")
        words = self.run_script("unproved", "catalogue", "holm", "--size", "3", where=where)[1]
        self.assertEqual(words, "[try]\n[--]\n[catalogue]\n[holm]\n[--size]\n[3]\n")
        words = self.run_script("unproved", "study", "--form", "text", "commands", "text", where=where)[1].split("\n")
        self.assertEqual(words[1:3], ["[--data]", f"[file-3={where}/commands]"])
        self.assertEqual(words[3:9], ["[--]", "[study]", "[--form]", "[text]", "[file-3]", "[text]"])
        self.assertNotIn("--data", self.run_script("unproved", "test", "check", where=where)[1])


@HAS_GIT
class Install(Room):
    def setUp(self):
        super().setUp()
        self.build()
        self.make_library()
        self.prefix = self.path("a prefix")

    def install(self, *words, **how):
        done = self.run_script("install", *(words or [self.prefix]), **how)
        self.assertEqual((done[0], done[2]), (0, ""))

    def uninstall(self, *words, **how):
        self.assertEqual(self.run_script("uninstall", *(words or [self.prefix]), **how), (0, "", ""))

    def found(self, prefix=None):
        return {name for name, (_, held) in snapshot(prefix or self.prefix).items() if held is not None}

    def wanted(self):
        """Returns the files of an installation."""
        release = content("VERSION").strip()
        names = {f"share/welungad/{name}" for name in (*INSTALLED, "VERSION", "c/examples/decide.c", "digests", "identity", "installed", "uninstall")}
        names |= {"bin/welungad", "bin/welungad-qualify", "share/man/man1/welungad.1", "include/welungad.h", "lib/libwelungad.a", "lib/pkgconfig/welungad.pc"}
        return names | {f"lib/libwelungad.so{end}" for end in ("", ".1", f".{release}")}

    def test_whole(self):
        """Whether an installation is whole, is the same when it is made again, and runs without the checkout."""
        self.install()
        self.assertEqual(self.found(), self.wanted())
        before = snapshot(self.prefix)
        self.install()
        self.assertEqual(snapshot(self.prefix), before)
        os.rename(self.top, self.top + " moved")
        done = self.call([os.path.join(self.prefix, "bin", "welungad"), "x"], given="text")
        self.assertEqual(done, (0, "1 1\ntext", ""))
        self.assertEqual(self.call([os.path.join(self.prefix, "share", "welungad", "uninstall"), self.prefix]), (0, "", ""))
        self.assertFalse(os.path.exists(self.prefix))

    def test_without_git(self):
        """Whether a checkout without git installs the same files, and none that Python, pip and R have made."""
        for name in BUILT:
            self.write(name, "")
        self.install()
        self.assertEqual(self.found(), self.wanted())
        self.uninstall()
        shutil.rmtree(os.path.join(self.top, ".git"))
        self.assertEqual(self.run_script("welungad")[:2], (0, "2 0\n"))
        self.make_library()
        self.install()
        self.assertEqual(self.found(), self.wanted())

    def test_identity(self):
        """Whether `identity` names the release, the checkout, the program and the library with their checksums."""
        self.install()
        with open(os.path.join(self.prefix, "share", "welungad", "identity"), encoding="utf-8") as file:
            lines = file.read().splitlines()
        for name in ("bin/welungad", "lib/libwelungad.so", "lib/libwelungad.a"):
            done = self.call(["sha256sum", os.path.join(self.prefix, name)])
            self.assertIn(f"sha256 {os.path.basename(name)} {done[1].split()[0]}", lines)
        head = self.call(["git", "rev-parse", "HEAD"], where=self.top)[1].strip()
        for line in (f"checkout {head}", f"commit {head}", f"library commit {head}", "kit a-kit logic 1"):
            self.assertIn(line, lines)
        self.assertEqual(lines[0], f"release {content('VERSION').strip()}")
        for name, text, mode in (("docs/FORMATS.md", "edited\n", 0o644), ("uninstall", content("uninstall") + "\n", 0o755)):
            self.git("checkout", "-q", ".")
            self.write(name, text, mode)
            self.install()
            with open(os.path.join(self.prefix, "share", "welungad", "identity"), encoding="utf-8") as file:
                self.assertIn("checkout edited\n", file.read(), name)

    def test_digests(self):
        """Whether `digests` has the checksum of each file but the program, the library, the lists and the pkg-config file, which names
        the prefix, and `identity` that of `digests`."""
        self.install()
        place = os.path.join(self.prefix, "share", "welungad")
        with open(os.path.join(place, "digests"), encoding="utf-8") as file:
            named = {line.split("  ", 1)[1].strip() for line in file}
        lists = {f"share/welungad/{name}" for name in ("digests", "identity", "installed")}
        libraries = {name for name in self.wanted() if name.startswith("lib/libwelungad")}
        self.assertEqual(named, self.wanted() - lists - libraries - {"bin/welungad", "lib/pkgconfig/welungad.pc"})
        self.assertEqual(self.call(["sha256sum", "--quiet", "--check", "share/welungad/digests"], where=self.prefix), (0, "", ""))
        digest = self.call(["sha256sum", os.path.join(place, "digests")])[1].split()[0]
        with open(os.path.join(place, "identity"), encoding="utf-8") as file:
            self.assertIn(f"sha256 digests {digest}\n", file.read())

    def test_no_status(self):
        """Whether a git that does not say what is edited, or which commit it is, is an error, with the library and without it."""
        real = shutil.which("git")
        for has_library in (True, False):
            if not has_library:
                shutil.rmtree(os.path.join(self.top, "c", "out"))
            for command, words in (("status", "git cannot say what is edited"), ("rev-parse HEAD", "")):
                self.write("../signs/git", f'#!/bin/sh\ncase " $* " in *" {command} "*) exit 128 ;; esac\nexec {real} "$@"\n', 0o755)
                done = self.run_script("install", self.prefix, PATH=f"{self.path('signs')}:{self.environment['PATH']}")
                self.assertEqual((done[0] > 0, done[1]), (True, ""))
                self.assertIn(words, done[2])
                self.assertFalse(os.path.exists(self.prefix))

    def test_hook(self):
        """Whether what a hook names of another repository is not taken for what the checkout is."""
        self.install()
        wanted = snapshot(self.prefix)
        other = self.path("other")
        self.git("init", "-q", other)
        own = os.path.join(other, ".git")
        for name in ("GIT_DIR", "GIT_COMMON_DIR", "GIT_WORK_TREE", "GIT_INDEX_FILE", "GIT_OBJECT_DIRECTORY"):
            self.install(**{name: os.path.join(own, "index") if name == "GIT_INDEX_FILE" else own})
            self.assertEqual(snapshot(self.prefix), wanted)

    def test_another_program(self):
        """Whether a program that isn't the one that was proved, or was proved from another commit, is refused."""
        self.write("crates/welungad/src/main.rt", "fn main() { }\n")
        self.commit()
        self.is_refused(self.run_script("install", self.prefix), "not the program that was proved", "other sources")
        self.run_script("welungad")
        self.write("crates/welungad/out/welungad", "#!/bin/sh\n", 0o755)
        self.is_refused(self.run_script("install", self.prefix), "not the program that was proved", "not the file that was built")
        self.assertFalse(os.path.exists(self.prefix))

    def test_no_checksums(self):
        """Whether nothing is installed where no checksum is made, also if none was made for the stamp."""
        path = self.path_without("sha256sum")
        stamp = os.path.join(self.top, "crates", "welungad", "out", "stamp")
        with open(stamp, encoding="utf-8") as file:
            text = file.read()
        self.write("crates/welungad/out/welungad", "garbage", 0o755)
        for stamped in (re.sub("sha256 welungad .*", "sha256 welungad ", text), re.sub("sha256 .*\n", "", text), text):
            self.write(stamp, stamped)
            status, said, errors = self.run_script("install", self.prefix, PATH=path)
            self.assertEqual((status, said), (1, ""), errors)
            self.assertIn("welungad has no checksum, since sha256sum says none", errors)
            self.assertFalse(os.path.exists(self.prefix))

    def test_another_library(self):
        """Whether a library is refused that has no stamp, an edited one, that of other bytes, or of other sources, or is not whole."""
        stamp = os.path.join(self.top, "c", "out", "stamp")
        with open(stamp, encoding="utf-8") as file:
            text = file.read()
        self.write("c/out/libwelungad.a", "garbage")
        done = self.run_script("install", self.prefix)
        self.is_refused(done, "not the one that was proved", "libwelungad.a is not the file", "c/build.sh --force")
        self.write("c/out/stamp", "edited\n")
        self.is_refused(self.run_script("install", self.prefix), "not the one that was proved")
        self.make_library()
        self.write("c/out/stamp", re.sub("built .*", "built edited", text))
        self.is_refused(self.run_script("install", self.prefix), "edited and not committed")
        os.remove(stamp)
        self.is_refused(self.run_script("install", self.prefix), "there is no stamp")
        self.write("c/out/stamp", text)
        os.remove(os.path.join(self.top, "c", "out", "libwelungad.a"))
        self.is_refused(self.run_script("install", self.prefix), "libwelungad.a is missing")
        self.make_library()
        self.write("c/calls.c", "other\n")
        self.commit()
        self.is_refused(self.run_script("install", self.prefix), "other sources")
        self.make_library()
        self.write("c/welungad.h", content("c", "welungad.h") + "\n")
        self.is_refused(self.run_script("install", self.prefix), "welungad.h or VERSION is edited")
        self.write("c/welungad.h", content("c", "welungad.h"))
        self.write("VERSION", "9.9.9\n")
        self.is_refused(self.run_script("install", self.prefix), "welungad.h or VERSION is edited")
        self.assertFalse(os.path.exists(self.prefix))

    def test_without_library(self):
        """Whether the program is installed without the library if that isn't built, and an earlier one is removed then."""
        self.install()
        shutil.rmtree(os.path.join(self.top, "c", "out"))
        self.install()
        library = {name for name in self.wanted() if name.startswith(("lib/", "include/"))}
        self.assertEqual(self.found(), self.wanted() - library)
        self.assertFalse(os.path.exists(os.path.join(self.prefix, "lib")))
        self.uninstall()
        self.assertFalse(os.path.exists(self.prefix))

    def test_umask(self):
        """Whether everybody can read what is installed under a umask that forbids it, and run the program."""
        for name, (mode, held) in snapshot(self.top).items():
            if held is not None and not name.startswith(".git/"):
                os.chmod(os.path.join(self.top, name), mode & 0o700)
        shell = 'umask 077 && exec "$0" "$1"'
        self.assertEqual(self.call(["sh", "-c", shell, os.path.join(self.top, "install"), self.prefix])[0], 0)
        for name, (mode, held) in snapshot(self.prefix).items():
            if not os.path.islink(os.path.join(self.prefix, name)):
                is_run = held is None or name in ("bin/welungad", "bin/welungad-qualify", "share/welungad/uninstall", "share/welungad/r/configure")
                self.assertEqual(oct(mode), oct(0o755 if is_run else 0o644), name)
        if IS_ROOT:
            self.assertEqual(self.call([os.path.join(self.prefix, "bin", "welungad")], user=NOBODY), (0, "1 0\n", ""))

    def test_destdir(self):
        """Whether DESTDIR is put before the prefix in all places but those that are used later."""
        staged, final = self.path("stage"), self.path("final")
        os.makedirs(staged)
        before = snapshot(staged)
        self.install(final, DESTDIR=staged)
        self.assertEqual(self.found(staged + final), self.wanted())
        self.assertFalse(os.path.exists(final))
        with open(f"{staged}{final}/lib/pkgconfig/welungad.pc", encoding="utf-8") as file:
            self.assertNotIn("stage", file.read())
        self.is_refused(self.run_script("install", "final", DESTDIR=staged), "has to begin with /")
        self.uninstall(final, DESTDIR=staged)
        os.removedirs(staged + self.room)
        os.makedirs(staged, exist_ok=True)
        self.assertEqual(snapshot(staged), before)

    def test_places(self):
        """Whether a link to the script, a relative prefix, a slash at its end and CDPATH install at the place that is named."""
        os.makedirs(self.path("here", "a prefix"))
        os.symlink(self.path("the top", "install"), self.path("here", "i"))
        os.symlink(self.path("the top", "uninstall"), self.path("here", "u"))
        for name in ("a prefix", "new", "new/", "a prefix/deep/er"):
            self.assertEqual(self.call(["./i", name], where=self.path("here"), CDPATH=f"{self.room}:/")[0], 0)
            self.assertEqual(self.found(self.path("here", name)), self.wanted())
            self.assertEqual(self.call(["./u", name], where=self.path("here"), CDPATH=f"{self.room}:/"), (0, "", ""))
        self.assertEqual(sorted(os.listdir(self.path("here"))), ["a prefix", "i", "u"])
        self.assertFalse(os.path.exists(self.prefix))
        for name in (self.path("two\nlines"), "two\nlines"):
            self.is_refused(self.run_script("install", name, where=self.room), "PREFIX has a line feed")
        for words in ([], [""], ["a", "b"], ["--help"]):
            self.is_refused(self.run_script("install", *words), "usage: ./install PREFIX", status=2)
            self.is_refused(self.run_script("uninstall", *words), "usage: ./uninstall PREFIX", status=2)

    def test_others(self):
        """Whether what others have in the prefix stays: files in the way are not replaced, and folders and files stay after `uninstall`."""
        for name in ("bin/other", "share/welungad/docs/mine", "lib/python/a.py"):
            self.write(f"../a prefix/{name}", name)
        os.makedirs(os.path.join(self.prefix, "include"))
        before = snapshot(self.prefix)
        self.install()
        self.uninstall()
        self.assertEqual(snapshot(self.prefix), before)
        self.write("../a prefix/bin/welungad", "another program")
        self.is_refused(self.run_script("install", self.prefix), "bin/welungad is there")
        os.remove(os.path.join(self.prefix, "bin", "welungad"))
        self.write("../a prefix/share/man", "a file")
        self.is_refused(self.run_script("install", self.prefix), "share/man is not a folder")
        os.remove(os.path.join(self.prefix, "share", "man"))
        self.assertEqual(snapshot(self.prefix), before)
        self.is_refused(self.run_script("uninstall", self.prefix), "nothing is installed")
        self.is_refused(self.run_script("install", os.path.join(self.prefix, "bin", "other")), "is not a folder")

    def test_used(self):
        """Whether `uninstall` removes what Python, pip and R have made below the installed sources, and the next installation too."""
        os.makedirs(self.prefix)
        before = snapshot(self.prefix)
        for again in (False, True):
            self.install()
            for name in (*BUILT[1:], "tools/__pycache__/draw.pyc", "python/build/lib/a.py"):
                self.write(f"../a prefix/share/welungad/{name}", "")
            if again:
                for name in ("tools/draw.py", "python/welungad/__init__.py", "python/welungad/py.typed"):
                    os.remove(os.path.join(self.top, name))
                self.commit()
                self.install()
                self.assertFalse(os.path.exists(os.path.join(self.prefix, "share", "welungad", "python", "welungad")))
            self.uninstall()
            self.assertEqual(snapshot(self.prefix), before)

    def interrupted(self, tool, number, name):
        """Installs, and sends the script a signal when it calls a tool for the time of this number. Returns the status."""
        real = shutil.which(tool)
        self.write(
            f"../signals/{tool}",
            f'#!/bin/sh\necho x >>"$COUNT"\n[ "$(grep -c . "$COUNT")" -ne {number} ] || kill -s {name} "$PPID"\nexec {real} "$@"\n',
            0o755,
        )
        count = self.path("count")
        if os.path.exists(count):
            os.remove(count)
        path = f"{self.path('signals')}:{self.environment['PATH']}"
        # under nohup a hangup is ignored, and in the background of a script an interrupt, which a shell cannot undo
        before = {number: signal.signal(number, signal.SIG_DFL) for number in (signal.SIGHUP, signal.SIGINT)}
        status = self.run_script("install", self.prefix, PATH=path, COUNT=count)[0]
        for number, handler in before.items():
            signal.signal(number, handler)
        shutil.rmtree(self.path("signals"))
        return status

    def test_interrupted_copy(self):
        """Whether an interrupt while files are copied leaves a new prefix, and one with an earlier installation, as it was."""
        for has_earlier in (False, True):
            if has_earlier:
                self.install()
                self.write("docs/FORMATS.md", "newer\n")
            before = snapshot(self.room)
            for number, name, status in ((1, "INT", 130), (9, "TERM", 143), (25, "HUP", 129)):
                self.assertEqual(self.interrupted("cp", number, name), status)
                os.remove(self.path("count"))
                self.assertEqual(snapshot(self.room), before)

    def test_interrupted_move(self):
        """Whether an interrupt while files are moved waits for the end, and whether a killed one leaves no `identity` and can be ended."""
        os.makedirs(self.prefix)
        empty = snapshot(self.prefix)
        for number in (2, 3, 20):
            self.assertEqual(self.interrupted("mv", number, "INT"), 0)
            self.assertEqual(self.found(), self.wanted())
            self.uninstall()
            for way in ("uninstall", "install"):
                self.assertEqual(self.interrupted("mv", number, "KILL"), -signal.SIGKILL)
                self.assertFalse(os.path.exists(os.path.join(self.prefix, "share", "welungad", "identity")))
                if way == "install":
                    self.install()
                    self.assertEqual({name for name in self.found() if ".welungad-new" not in name}, self.wanted())
                self.uninstall()
                self.assertEqual(snapshot(self.prefix), empty)

    def test_full_disk(self):
        """Whether a list or a folder that can't be written leaves a prefix that is there as it was."""
        self.write("../a prefix/bin/other", "another program")
        before = snapshot(self.prefix)
        for tool, numbers in (("sort", range(1, 6)), ("mkdir", (20, 24))):
            for number in numbers:
                self.write(f"../full/{tool}", f'#!/bin/sh\necho x >>"$COUNT"\n[ "$(grep -c . "$COUNT")" -ne {number} ] || exit 2\n'
                           f'exec {shutil.which(tool)} "$@"\n', 0o755)
                path = f"{self.path('full')}:{self.environment['PATH']}"
                self.assertNotEqual(self.run_script("install", self.prefix, PATH=path, COUNT=self.path("count"))[0], 0, (tool, number))
                self.assertEqual(snapshot(self.prefix), before)
                os.remove(self.path("count"))
            shutil.rmtree(self.path("full"))
        self.install()
        self.uninstall()
        self.assertEqual(snapshot(self.prefix), before)

    def test_not_writable(self):
        """Whether a prefix that can't be written is named in a line."""
        if IS_ROOT:
            os.makedirs(self.prefix)
            shutil.rmtree(os.path.join(self.top, ".git"))
            self.run_script("welungad")
            self.make_library()
            self.is_refused(self.run_script("install", self.prefix, user=NOBODY), "can't be written")
            os.makedirs(os.path.join(self.prefix, "share"))
            os.chown(self.prefix, NOBODY, NOBODY)
            before = snapshot(self.prefix)
            self.is_refused(self.run_script("install", self.prefix, user=NOBODY), "share can't be written")
            self.assertEqual(snapshot(self.prefix), before)

    def test_not_removable(self):
        """Whether `uninstall` removes nothing where it can't write, and it and a further installation remove nothing outside of the
        prefix, whatever the list says."""
        self.install()
        before = snapshot(self.prefix)
        if IS_ROOT:
            self.is_refused(self.run_script("uninstall", self.prefix, user=NOBODY), "can't be written")
            self.assertEqual(snapshot(self.prefix), before)
            for folder in ("bin", "share/welungad"):
                os.chown(os.path.join(self.prefix, folder), NOBODY, NOBODY)
            self.is_refused(self.run_script("uninstall", self.prefix, user=NOBODY), "a prefix/include can't be written")
            self.assertEqual(snapshot(self.prefix), before)
        for name in ("a", "__pycache__/a"):
            self.write(f"../outside/{name}", "another's")
        for script in (self.install, self.uninstall):
            with open(os.path.join(self.prefix, "share", "welungad", "installed"), "a", encoding="utf-8") as file:
                file.write("../outside/a\nlib/../../outside/a\n../outside/\nshare/welungad/../../../outside/\n")
            script()
            for name in ("a", "__pycache__/a"):
                self.assertTrue(os.path.exists(self.path("outside", name)), name)
        self.assertFalse(os.path.exists(self.prefix))


@HAS_GIT
@HAS_CC
class Library(Room):
    """c/build.sh over a stub of the proved code."""

    def setUp(self):
        super().setUp()
        self.commit()

    def out(self, *names):
        return os.path.join(self.top, "c", "out", *names)

    def builds(self):
        """Builds if that is needed, and returns how often it was."""
        done = self.run_script("c/build.sh")
        self.assertEqual((done[0], done[1]), (0, ""), done[2])
        with open(os.path.join(self.top, "crates", "welungad_c", "out", "builds"), encoding="utf-8") as file:
            return len(file.readlines())

    def test_stale(self):
        """Whether the library is built once, and again if a source of it, or one of its files, is another one."""
        self.assertEqual([self.builds(), self.builds()], [1, 1])
        for number, name in enumerate(("crates/welungad_c/src/lib.rt", "c/calls.c", "c/welungad.h", "VERSION"), 2):
            text = "9.9.9\n" if name == "VERSION" else content(name) + "\n" if name.startswith("c/") else "more\n"
            self.write(name, text)
            self.assertEqual(self.builds(), number - 1)
            self.commit()
            self.assertEqual([self.builds(), self.builds()], [number, number])
        self.assertEqual(sorted(os.listdir(self.out()))[2:], ["libwelungad.so", "libwelungad.so.1", "libwelungad.so.9.9.9", "stamp"])
        for number, name in enumerate(("libwelungad.a", "libwelungad.so", "stamp"), 6):
            with open(self.out(name), "ab") as file:
                file.write(b"built edited\n")
            self.assertEqual([self.builds(), self.builds()], [number, number])
        self.assertEqual(self.run_script("c/build.sh", "--force")[0], 0)
        self.assertEqual(self.builds(), 9)
        for words in (["--help"], ["-force"], [""], ["--force", "x"]):
            self.is_refused(self.run_script("c/build.sh", *words), "usage: c/build.sh [--force]", status=2)
        self.assertEqual(self.builds(), 9)

    def test_a_comma_in_the_path(self):
        """Whether the library is built in a folder with a comma in its name, at which compilers part the words of the linker."""
        os.rename(self.top, self.path("phase 2, phase 3"))
        self.top = self.path("phase 2, phase 3")
        self.assertEqual(self.builds(), 1)
        self.assertTrue(os.path.isfile(self.out("libwelungad.so")))

    def test_edited_meanwhile(self):
        """Whether an edit during the build is found, also if it is committed meanwhile."""
        for number, edit in enumerate(("yes", "commit"), 1):
            self.write("crates/welungad_c/src/lib.rt", f"{edit}\n")
            self.commit()
            self.assertEqual(self.run_script("c/build.sh", EDIT=edit)[0], 0)
            with open(self.out("stamp"), encoding="utf-8") as file:
                self.assertIn("built edited\n", file.read())
            self.git("clean", "-fdq")
            self.assertEqual([self.builds(), self.builds()], [2 * number, 2 * number])

    def test_not_proved(self):
        """Whether nothing is built of what isn't proved, also beside what was built before, and a later build is whole."""
        for number, text in enumerate(("more\n", "other\n", "and more\n"), 1):
            self.write("crates/welungad_c/src/lib.rt", text)
            self.commit()
            done = self.run_script("c/build.sh", FAIL="yes")
            self.assertEqual((done[0], done[1]), (1, ""))
            self.assertTrue(done[2].endswith("\nnot proved\n"), done[2])
            self.assertFalse(os.path.exists(self.out("stamp")))
            self.assertEqual(self.builds(), 2 * number)
        self.assertEqual([name for name in os.listdir(self.out()) if name.startswith("new.")], [])

    def test_exports(self):
        """Whether five names are global in both files, the soname has the interface, and a caller may hand in NULL for no bytes."""
        self.write("VERSION", "9.9.9\n")
        self.builds()
        for words in (["-D", self.out("libwelungad.so")], ["-g", self.out("libwelungad.a")]):
            names = re.findall(r" [B-Z] (\S+)", self.call(["nm", "--defined-only", *words])[1])
            self.assertEqual(sorted(name.partition("@@")[0] for name in names), EXPORTED)
            self.assertEqual({name.partition("@@")[2] for name in names}, {"WELUNGAD_1" if "-D" in words else ""})
        self.assertIn("[libwelungad.so.1]", self.call(["readelf", "-d", self.out("libwelungad.so")])[1])
        self.assertEqual(os.readlink(self.out("libwelungad.so")), "libwelungad.so.1")
        self.assertEqual(os.readlink(self.out("libwelungad.so.1")), "libwelungad.so.9.9.9")
        self.write("caller.c", CALLER)
        caller = self.path("caller")
        done = self.call(["cc", f"-I{self.top}/c", "-o", caller, f"{self.top}/caller.c", self.out("libwelungad.a")])
        self.assertEqual(done, (0, "", ""))
        self.assertEqual(self.call([caller]), (0, "9.9.9 1\n", ""))

    @unittest.skipUnless(shutil.which("pkg-config"), "pkg-config is missing")
    def test_pkg_config(self):
        """Whether the words of pkg-config compile a caller outside the checkout, for a prefix with blanks, and it finds its library."""
        self.builds()
        self.run_script("welungad")
        prefix = self.path("a prefix")
        self.assertEqual(self.run_script("install", prefix)[0], 0)
        os.makedirs(self.path("elsewhere"))
        shutil.rmtree(os.path.join(self.top, "c"))
        with open(self.path("elsewhere", "caller.c"), "w", encoding="utf-8") as file:
            file.write(CALLER)
        more = {"PKG_CONFIG_PATH": f"{prefix}/lib/pkgconfig", "LD_LIBRARY_PATH": f"{prefix}/lib"}
        compiled = 'eval "cc -o caller caller.c $(pkg-config --cflags --libs welungad)"'
        self.assertEqual(self.call(["sh", "-c", compiled], where=self.path("elsewhere"), **more), (0, "", ""))
        self.assertEqual(self.call(["./caller"], where=self.path("elsewhere"), **more)[1], f"{content('VERSION').strip()} 1\n")
        self.assertEqual(self.call(["pkg-config", "--modversion", "welungad"], **more)[1], content("VERSION"))


    def test_linked_by_r(self):
        """Whether R links and loads the library that r/configure looked at, also if others of its name come before it."""
        self.builds()
        self.run_script("welungad")
        prefix, others = self.path("a, prefix"), self.path("others")
        self.assertEqual(self.run_script("install", prefix)[0], 0)
        os.remove(os.path.join(prefix, "lib", "libwelungad.a"))
        os.makedirs(others)
        self.write("other.c", 'const char *welungad_version(void) { return "another"; }\n')
        self.write("caller.c", '#include <stdio.h>\n#include <welungad.h>\nint main(void) { return puts(welungad_version()) < 0; }\n')
        made = ["-Wl,-soname,libwelungad.so.1", "-o", os.path.join(others, "libwelungad.so.1"), f"{self.top}/other.c"]
        self.assertEqual(self.call(["cc", "-shared", "-fPIC", *made]), (0, "", ""))
        os.symlink("libwelungad.so.1", os.path.join(others, "libwelungad.so"))
        self.assertEqual(self.call(["./configure"], where=os.path.join(self.top, "r"), WELUNGAD_PREFIX=prefix)[0], 0)
        with open(os.path.join(self.top, "r", "src", "Makevars"), encoding="utf-8") as file:
            variables = dict(line.rstrip("\n").split(" = ", 1) for line in file)
        link = f"cc {variables['PKG_CPPFLAGS']} -o '{others}/caller' '{self.top}/caller.c' -L'{others}' {variables['PKG_LIBS']}"
        self.assertEqual(self.call(["sh", "-c", link]), (0, "", ""))
        done = self.call([os.path.join(others, "caller")], LD_LIBRARY_PATH=others)
        self.assertEqual(done, (0, content("VERSION"), ""))


def finding():
    """Returns why c/out of this checkout hasn't the library that was proved, or nothing."""
    script = """
        top=$1 script=test && . "$top/tools/stamps.sh" &&
            finding c/out/stamp "$(trees $library_sources)" c/out/libwelungad.so c/out/libwelungad.a
    """
    return subprocess.run(["sh", "-c", script, "sh", TOP], capture_output=True, text=True, cwd=TOP).stdout


@HAS_GIT
@HAS_CC
@unittest.skipUnless(os.path.exists(os.path.join(TOP, "c", "out", "stamp")) and not finding(), "the C library isn't built")
@unittest.skipUnless(shutil.which("pkg-config") and shutil.which("valgrind"), "pkg-config or valgrind is missing")
class Example(Room):
    def test_example(self):
        """Whether the installed example, compiled outside the checkout, decides a case, and valgrind finds nothing."""
        self.build()
        self.make_library()
        for name in ("libwelungad.a", "libwelungad.so"):
            shutil.copy(os.path.join(TOP, "c", "out", name), os.path.join(self.top, "c", "out", name))
        self.make_stamp()
        prefix = self.path("prefix")
        self.assertEqual(self.run_script("install", prefix)[0], 0)
        here = self.path("elsewhere")
        os.makedirs(here)
        shutil.copy(os.path.join(prefix, "share", "welungad", "c", "examples", "decide.c"), here)
        more = {"PKG_CONFIG_PATH": f"{prefix}/lib/pkgconfig", "LD_LIBRARY_PATH": f"{prefix}/lib"}
        compiled = 'eval "cc -Wall -Wextra -Werror -o decide decide.c $(pkg-config --cflags --libs welungad)"'
        self.assertEqual(self.call(["sh", "-c", compiled], where=here, **more), (0, "", ""))
        watched = "valgrind -q --error-exitcode=99 --leak-check=full --show-leak-kinds=all --errors-for-leak-kinds=all ./decide".split()
        status, printed, errors = self.call([*watched, os.path.join(TOP, "examples", "holm.txt")], where=here, **more)
        self.assertEqual((status, errors), (0, ""))
        self.assertTrue(printed.startswith("alpha 1/40\nstep 1 H2 p 1/200 weight 1/3\n"))
        self.assertIn("\nrejected H1 H2 H3\n", printed)
        self.assertEqual(self.call([*watched, "/dev/null"], where=here, **more), (3, "malformed: line 1: ended\n", ""))


@HAS_GIT
class Configure(Room):
    """r/configure, in the folder that R starts it in."""

    def setUp(self):
        super().setUp()
        self.build()
        self.make_library()

    def configure(self, stood="/", **more):
        """Returns what the script printed, and what it wrote. `stood` is where R was started."""
        makevars = os.path.join(self.top, "r", "src", "Makevars")
        if os.path.exists(makevars):
            os.remove(makevars)
        done = self.call(["sh", "-c", "./configure; exit $?"], where=os.path.join(self.top, "r"), PWD=stood, **more)
        with open(makevars, encoding="utf-8") as file:
            return done, file.read()

    def test_without(self):
        """Whether the package calls the program if no variable is set, and nothing stays that was compiled with the library."""
        for name in ("r/src/a.o", "r/src/a.so"):
            self.write(name, "compiled with the library")
        without = "# without the C library\n"
        self.assertEqual(self.configure(), ((0, "welungad: without the C library; calls run the program\n", ""), without))
        self.assertEqual(sorted(os.listdir(os.path.join(self.top, "r", "src"))), ["Makevars", "a.c"])

    def test_with(self):
        """Whether the library of a checkout and that of an installation is linked, also by a path from where R was started."""
        places = {"WELUNGAD_INCLUDE": f"{self.top}/c", "WELUNGAD_LIB": f"{self.top}/c/out"}
        wanted = f"PKG_CPPFLAGS = -DWELUNGAD_LIBRARY -I'{self.top}/c'\nPKG_LIBS = '{self.top}/c/out/libwelungad.a'\n"
        self.assertEqual(self.configure(**places), ((0, f"welungad: with the C library in {self.top}/c/out\n", ""), wanted))
        prefix = self.path("a prefix")
        self.assertEqual(self.run_script("install", prefix)[0], 0)
        wanted = f"PKG_CPPFLAGS = -DWELUNGAD_LIBRARY -I'{prefix}/include'\nPKG_LIBS = '{prefix}/lib/libwelungad.a'\n"
        self.assertEqual(self.configure(WELUNGAD_PREFIX=prefix)[1], wanted)
        if os.path.isdir("/proc/self"):
            self.assertEqual(self.configure(stood=self.room, WELUNGAD_PREFIX="a prefix")[1], wanted)
        os.remove(os.path.join(prefix, "lib", "libwelungad.a"))
        libs = f"PKG_LIBS = '{prefix}/lib/libwelungad.so' -Wl,--disable-new-dtags -Xlinker -rpath -Xlinker '{prefix}/lib'\n"
        self.assertEqual(self.configure(WELUNGAD_PREFIX=prefix)[1], f"PKG_CPPFLAGS = -DWELUNGAD_LIBRARY -I'{prefix}/include'\n{libs}")
        wanted = f"PKG_CPPFLAGS = -DWELUNGAD_LIBRARY -I'{self.top}/c'\nPKG_LIBS = '{self.top}/c/out/libwelungad.a'\n"
        self.assertEqual(self.configure(WELUNGAD_PREFIX=prefix, **places)[1], wanted)

    def test_refused(self):
        """Whether a folder without the library, and a library that isn't the one that was proved, is an error."""
        prefix = self.path("a prefix")
        self.assertEqual(self.run_script("install", prefix)[0], 0)
        for words, places in (
            ("no welungad.h in /nowhere/include", {"WELUNGAD_PREFIX": "/nowhere"}),
            (f"no welungad.h in {prefix}/bin", {"WELUNGAD_INCLUDE": f"{prefix}/bin", "WELUNGAD_LIB": f"{prefix}/lib"}),
            ("WELUNGAD_INCLUDE, which is not set", {"WELUNGAD_LIB": f"{prefix}/lib"}),
            ("WELUNGAD_LIB, which is not set", {"WELUNGAD_INCLUDE": f"{prefix}/include"}),
            ("no libwelungad.a or libwelungad.so", {"WELUNGAD_INCLUDE": f"{prefix}/include", "WELUNGAD_LIB": f"{prefix}/bin"}),
            ("WELUNGAD_PREFIX: nowhere is not a folder in /", {"WELUNGAD_PREFIX": "nowhere"}),
            ("WELUNGAD_PREFIX has a character", {"WELUNGAD_PREFIX": "/it's"}),
        ):
            done, written = self.configure(**places)
            self.is_refused(done, words)
            self.assertEqual(written, "")
        self.write("../a prefix/lib/libwelungad.a", "garbage")
        self.is_refused(self.configure(WELUNGAD_PREFIX=prefix)[0], "not the library that was proved")
        os.remove(os.path.join(prefix, "lib", "libwelungad.a"))
        self.write("../a prefix/lib/libwelungad.so", "garbage")
        self.is_refused(self.configure(WELUNGAD_PREFIX=prefix)[0], "libwelungad.so is not the library that was proved")
        self.assertEqual(self.run_script("install", prefix)[0], 0)
        identity = os.path.join(prefix, "share", "welungad", "identity")
        with open(identity, encoding="utf-8") as file:
            text = file.read()
        for line in ("library built edited", "library built unknown", "built edited"):
            self.write(identity, re.sub(rf"(?m)^{line.rpartition(' ')[0]} .*$", line, text))
            self.is_refused(self.configure(WELUNGAD_PREFIX=prefix)[0], "edited and not committed")
        self.write(identity, re.sub("(?m)^sha256 .*\n", "", text))
        for path in (self.environment["PATH"], self.path_without("sha256sum", "shasum")):
            self.is_refused(self.configure(WELUNGAD_PREFIX=prefix, PATH=path)[0], "not the library that was proved")
        os.remove(identity)
        self.is_refused(self.configure(WELUNGAD_PREFIX=prefix)[0], "nothing says which library")
        self.write("c/calls.c", "edited\n")
        self.make_library()
        places = {"WELUNGAD_INCLUDE": f"{self.top}/c", "WELUNGAD_LIB": f"{self.top}/c/out"}
        self.is_refused(self.configure(**places)[0], "edited and not committed")
        if IS_ROOT:
            self.is_refused(self.call(["./configure"], where=os.path.join(self.top, "r"), user=NOBODY), "can't be written")


# A stand-in for rt with its words for a library: `low`, and `high` above it. `rt ci` builds both, but puts back those that were there.
KEEPER = """#!/usr/bin/env python3
import os, sys
class Crate:
    is_program, allowed = False, ()
    def __init__(self, name, *lower):
        self.name, self.folder, self.lower = name, f"crates/{name}", lower
        self.rlib = f"{self.folder}/out/rlib/{name}.rlib"
    def below(self): return self.lower
    def stamp(self): return f"stamp of {self.name}"
    def is_built(self): return os.path.exists(f"{self.folder}/out/rlib/stamp")
LOW = Crate("low")
def handles_of(top): return ()
class rtlib:
    Crate = Crate
    crates_below = staticmethod(lambda top: [LOW, Crate("high", LOW)])
if __name__ == "__main__":
    for crate in rtlib.crates_below("."):
        if not os.path.exists(crate.rlib):
            os.makedirs(crate.rlib)
            with open(f"{crate.rlib}/format", "w") as file: file.write(crate.name)
    if "EDIT" in os.environ:
        with open("crates/low/src/lib.rt", "w") as file: file.write("edited")
    sys.exit(int(os.environ.get("RT_CI", "0")))
"""


@HAS_GIT
class Gate(Room):
    CHECKS = ("bench/prose.py", "bench/quotes.py", "c/run_tests.sh", "python/run_tests.sh", "tools/run_tests.sh", "r/run_tests.sh",
              "bench/allocations.sh --short", "bench/study.py --untimed")

    def setUp(self):
        super().setUp()
        self.write("../kit/bin/rt", KEEPER, 0o755)
        for name in ("low", "high"):
            self.write(f"crates/{name}/src/lib.rt", "")
        listed = re.search(r"(?ms)^checks=\((.*?)\)$", content(".ci", "run"))
        self.checks = shlex.split(listed[1])
        for name in self.checks:
            self.write(name.split(" ")[0], "#!/bin/sh\necho checked $*\n", 0o755)
        self.commit()

    def out(self, name, *names):
        return os.path.join(self.top, "crates", name, "out", *names)

    def stamps(self):
        """Returns the libraries that have stamps, and removes these."""
        found = [name for name in ("low", "high") if os.path.exists(self.out(name, "rlib", "stamp"))]
        for name in found:
            os.remove(self.out(name, "rlib", "stamp"))
        return found

    def run_gate(self, without=("low", "high"), **how):
        """Runs the gate where some crates have no library yet, and returns what it prints."""
        for name in without:
            shutil.rmtree(self.out(name), ignore_errors=True)
        return self.run_script(".ci/run", **how)[1]

    def test_counts(self):
        """Whether checks that pass, are skipped and fail are counted, each as what it is, and only a failed one fails the gate."""
        self.assertLessEqual(set(self.CHECKS), set(self.checks))
        status, printed, _ = self.run_script(".ci/run")
        self.assertEqual((status, printed.splitlines()[-1]), (0, f"beside: {len(self.checks)} passed, 0 skipped, 0 failed"))
        self.assertIn("\nchecked --short\n", printed)
        self.write("c/run_tests.sh", "#!/bin/sh\necho 'c: skipped, since valgrind is missing'\nexit 77\n", 0o755)
        status, printed, _ = self.run_script(".ci/run")
        self.assertEqual(status, 0)
        count = len(self.checks) - 1
        self.assertIn(f"\nbeside: {count} passed, 1 skipped, 0 failed\n", printed)
        self.assertTrue(printed.endswith("\nskipped: c/run_tests.sh: c: skipped, since valgrind is missing\n"))
        self.write("tools/run_tests.sh", "#!/bin/sh\nexit 3\n", 0o755)
        status, printed, _ = self.run_script(".ci/run")
        self.assertEqual(status, 1)
        self.assertIn(f"\nbeside: {count - 1} passed, 1 skipped, 1 failed\n", printed)
        self.assertTrue(printed.endswith("\nfailed: tools/run_tests.sh\n"))

    def test_unproved(self):
        """Whether the gate ends with the status of `rt ci` if that isn't 0, and nothing else is run or kept."""
        status, printed, _ = self.run_script(".ci/run", RT_CI="3")
        self.assertEqual((status, printed), (3, ""))
        self.assertEqual(self.stamps(), [])

    def test_kept(self):
        """Whether all proved libraries get stamps, and none if a source is edited before or during the proofs."""
        self.assertIn("2 libraries of rt ci are ready", self.run_gate())
        self.assertEqual(self.stamps(), ["low", "high"])
        self.assertIn("no note of what was proved", self.run_gate(EDIT="yes"))
        self.assertEqual(self.stamps(), [])
        self.assertIn("no note of what was proved", self.run_gate())
        self.assertEqual(self.stamps(), [])
        self.commit()
        self.assertIn("no note of what was proved", self.run_gate(GIT_TEST_ASSUME_DIFFERENT_OWNER="1"))
        self.assertEqual(self.stamps(), [])

    def test_put_back(self):
        """Whether a library that was there before `rt ci` gets no stamp, also after an `rt ci` that was killed, nor one above it."""
        self.assertIn("2 libraries", self.run_gate())
        for without, words, found in (([], "0 libraries", []), (["low"], "1 libraries", ["low"]), (["high"], "0 libraries", [])):
            self.stamps()
            self.write("crates/low/src/lib.rt", f"{without}\n")
            self.commit()
            self.assertIn(words, self.run_gate(without))
            self.assertEqual(self.stamps(), found)
        os.makedirs(os.path.join(self.top, ".git", "rt-aside", "high", "rlib"))
        self.assertIn("1 libraries", self.run_gate())
        self.assertEqual(self.stamps(), ["low"])

    def test_kept_by_another(self):
        """Whether a run by hand, other sources and another library get no stamp."""
        self.run_script(".ci/run")
        self.stamps()
        self.assertIn("another run has proved them", self.run_script("bench/kept.py")[1])
        self.assertEqual(self.stamps(), [])
        by_hand = 'sed "s/^run .*/run $$/" .ci/out/proved >.ci/out/new && mv .ci/out/new .ci/out/proved; {}; bench/kept.py; exit $?'
        for change, words, found in (
            (":", "2 libraries", ["low", "high"]),
            ("echo another >crates/high/out/rlib/stamp", "1 libraries", ["low", "high"]),
            ("echo another >crates/low/out/rlib/stamp", "0 libraries", ["low"]),
            ("echo garbage >crates/high/out/rlib/high.rlib/format", "1 libraries", ["low"]),
            ("echo garbage >crates/low/out/rlib/low.rlib/format", "0 libraries", []),
            ("echo edited >crates/low/src/lib.rt", "not those that were proved", []),
        ):
            self.assertIn(words, self.call(["sh", "-c", by_hand.format(change)], where=self.top)[1])
            self.assertEqual(self.stamps(), found)


# A stand-in for the program: `canon` drops comments, and refuses a case without hypotheses as the program does; `study` says so.
STUDIED = """#!/bin/sh
kase=$(grep -v '^#')
case $kase in *hypotheses*) ;; *) echo "malformed: line 1: ended"; exit 3 ;; esac
if [ "$1" = canon ]; then echo "$kase"; else echo "study $*"; : >looks.db; fi
"""


class Scripts(unittest.TestCase):
    @unittest.skipUnless(shutil.which("shellcheck"), "shellcheck is missing")
    def test_shellcheck(self):
        """Whether shellcheck finds nothing in any script of this checkout. SC1007 takes `CDPATH= cd` for a slip."""
        names = [name for name in SCRIPTS if not name.endswith(".py")]
        for folder in ("bench", "c", "python", "r", "tools"):
            names += [os.path.relpath(path, TOP) for path in glob.glob(os.path.join(TOP, folder, "*.sh"))]
        words = ["shellcheck", "-x", "-S", "warning", "-e", "SC1007", *sorted(set(names))]
        done = subprocess.run(words, capture_output=True, text=True, cwd=TOP)
        self.assertEqual((done.returncode, done.stdout), (0, ""), done.stderr)


class Release(unittest.TestCase):
    def test_one_release(self):
        """Whether the release that VERSION states is named in each file that names one."""
        release = content("VERSION").strip()
        self.assertRegex(release, r"\A\d+\.\d+\.\d+\Z")
        self.assertIn(f"\nversion: {release}\n", content("CITATION.cff"))
        self.assertIn(f"\nVersion: {release}\n", content("r", "DESCRIPTION"))
        self.assertIn(f'\n#define WELUNGAD_VERSION "{release}"\n', content("c", "welungad.h"))
        self.assertIn(f'"welungad {release}"', content("docs", "welungad.1").splitlines()[0])
        self.assertRegex(content("CHANGES.md"), rf"(?m)^.*release.*\b{re.escape(release)}\b")
        for name in glob.glob(os.path.join(TOP, "python", "**", "*.py"), recursive=True):
            for found in re.findall(r'(?m)^__version__ = "(.*)"$', content(name)):
                self.assertEqual(found, release)

    def test_licence(self):
        """Whether both licences are there, each package is under both, and R's file has the two lines that R asks for."""
        self.assertIn("SPDX-License-Identifier: MIT OR Apache-2.0\n", content("LICENSE"))
        self.assertTrue(content("LICENSE-MIT").startswith("MIT License\n"))
        self.assertIn("Version 2.0, January 2004", content("LICENSE-APACHE"))
        self.assertRegex(content("r", "LICENSE"), r"\AYEAR: \d{4}\nCOPYRIGHT HOLDER: .+\n\Z")
        self.assertIn("\nLicense: MIT + file LICENSE | Apache License 2.0\n", content("r", "DESCRIPTION"))
        for name in glob.glob(os.path.join(TOP, "python", "pyproject.toml")):
            self.assertIn('\nlicense = "MIT OR Apache-2.0"\n', content(name))
        for name in ("LICENSE", "LICENSE-MIT", "r/LICENSE", "r/DESCRIPTION", "CITATION.cff"):
            self.assertIn("Welungad maintainers", content(name))

    def test_looks_of_another_case(self):
        """Whether the lines of the manual page keep the case beside a file of looks, and refuse another case."""
        page = content("docs", "welungad.1").replace("\\-", "-")
        lines = next(it for it in re.findall(r"(?s)\n\.EX\n(.*?)\n\.EE\n", page) if "looks.db.case" in it)
        lines = re.sub(r"(?m)^\$ ", "", lines)
        with tempfile.TemporaryDirectory() as room:
            os.makedirs(os.path.join(room, "bin"))
            with open(os.path.join(room, "bin", "welungad"), "w", encoding="utf-8") as file:
                file.write(STUDIED)
            os.chmod(file.name, 0o755)

            def study(case):
                with open(os.path.join(room, "study.txt"), "w", encoding="utf-8") as file:
                    file.write(case)
                environment = {**os.environ, "PATH": path_with(os.path.join(room, "bin"))}
                return subprocess.run(["sh", "-c", lines], capture_output=True, text=True, cwd=room, env=environment)

            self.assertNotEqual(study("p 1\n").returncode, 0)
            self.assertFalse(os.path.exists(os.path.join(room, "looks.db.case")))
            for case in ("hypotheses A B\n", "# again\nhypotheses A B\n"):
                done = study(case)
                self.assertEqual((done.returncode, done.stdout), (0, "study study commands.txt --store looks.db\n"), done.stderr)
            done = study("hypotheses B A\n")
            self.assertNotEqual(done.returncode, 0)
            self.assertNotIn("study", done.stdout)
            os.remove(os.path.join(room, "looks.db.case"))
            self.assertNotEqual(study("hypotheses A B\n").returncode, 0)


if __name__ == "__main__":
    unittest.main()
