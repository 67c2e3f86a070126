"""Tests of where the library and the program are, and of whether they are those that were proved."""
import hashlib
import os
import shutil
import subprocess
import sys
import tempfile
import unittest

import welungad
from welungad import _library

SOURCE = "#include <stdint.h>\n"
INTERFACE = "uint32_t welungad_interface(void) { return %d; }\n"
RUN = "uint8_t welungad_run(void) { return 0; }\n"
# a call with the parameters of the library's, whose statements may use them
RUN_AS = """#include <string.h>
uint8_t welungad_run(const char *words, size_t words_len, const char *kase, size_t kase_len, const char *proof, size_t proof_len,
                     char *out, size_t out_len, size_t *needed) { %s }
"""
LOADED = """#include <unistd.h>
__attribute__((constructor)) static void say(void) { if (write(1, "loaded\\n", 7) != 7) _exit(9); }
"""


def say(folder, statement, **environment):
    """Returns what a new interpreter says on a statement, with the package that lies in a folder."""
    kept = {name: value for name, value in os.environ.items() if not name.startswith("WELUNGAD")}
    kept.update(environment, PYTHONPATH=folder, PYTHONDONTWRITEBYTECODE="1")
    done = subprocess.run([sys.executable, "-c", statement], cwd="/", env=kept, stdout=subprocess.PIPE, stderr=subprocess.PIPE, check=False)
    return done.stdout.decode() + done.stderr.decode()


class Rooms(unittest.TestCase):
    """Tests with a folder of their own."""

    def setUp(self):
        room = tempfile.TemporaryDirectory()
        self.addCleanup(room.cleanup)
        self.room = os.path.realpath(room.name)

    def put(self, path, content=b""):
        """Writes a file below the folder, and returns its path."""
        whole = os.path.join(self.room, path)
        os.makedirs(os.path.dirname(whole), exist_ok=True)
        with open(whole, "wb") as file:
            file.write(content)
        return whole

    def stamp(self, path):
        """Writes the stamp beside a file, which says that it is the proved one."""
        with open(path, "rb") as file:
            digest = hashlib.sha256(file.read()).hexdigest()
        with open(os.path.join(os.path.dirname(path), "stamp"), "w", encoding="utf-8") as file:
            file.write(f"built a b\nsha256 {os.path.basename(os.path.realpath(path))} {digest}\n")

    def put_package(self, path):
        """Copies the package below the folder, without a library and scripts, and returns the folder that it lies in."""
        target = os.path.join(self.room, path)
        shutil.copytree(os.path.dirname(welungad.__file__), os.path.join(target, "welungad"),
                        ignore=shutil.ignore_patterns("__pycache__", "libwelungad.so", "stamp", "reviewer", "REFUSALS.md"))
        return target


class Places(Rooms):
    """Whether the library is found where it belongs, and a missing one is named with the places that were tried."""

    RUN = "import welungad; welungad.run(['help'])"
    PLACES = "from welungad import _library; print(*_library.library_places(), sep='\\n')"

    def test_a_named_one_that_is_missing(self):
        folder = self.put_package("x")
        said = say(folder, self.RUN, WELUNGAD_LIBRARY="/nowhere/libwelungad.so")
        self.assertIn("OSError: WELUNGAD_LIBRARY names /nowhere/libwelungad.so, and there is no such file", said)

    def test_none(self):
        folder = self.put_package("site-packages")
        said = say(folder, self.RUN)
        if "OSError" not in said:
            self.skipTest("the system's loader finds the library")
        self.assertIn(f"{folder}/welungad/libwelungad.so, {sys.prefix}/lib/libwelungad.so, and those of the system's loader", said)
        self.assertIn("install Welungad by ./install PREFIX, or let the environment variable WELUNGAD_LIBRARY name it", said)

    def test_a_checkout(self):
        folder = self.put_package("top/python")
        self.put("top/c/welungad.h")
        os.makedirs(os.path.join(self.room, "top", "crates"))
        self.assertIn(f"{self.room}/top/c/out/libwelungad.so", say(folder, self.PLACES).split("\n")[1])

    def test_a_prefix(self):
        folder = self.put_package("prefix/share/welungad/python")
        self.assertIn(f"{self.room}/prefix/lib/libwelungad.so", say(folder, self.PLACES).split("\n")[1])

    def test_what_is_none(self):
        text = self.put("libwelungad.so", b"no library")
        self.stamp(text)
        folder = self.put_package("x")
        self.assertIn(f"OSError: {text} cannot be loaded", say(folder, self.RUN, WELUNGAD_LIBRARY=text))

    @unittest.skipUnless(shutil.which("cc"), "cc is missing")
    def test_another_library(self):
        folder = self.put_package("x")
        for code, words in [("int other;\n", "is not Welungad's library"), (INTERFACE % 2 + RUN, "has interface 2, and this package needs 1"),
                            (INTERFACE % 1, "is not Welungad's library")]:
            source, made = self.put("lib.c", (SOURCE + code).encode()), os.path.join(self.room, "libwelungad.so")
            subprocess.run(["cc", "-shared", "-fPIC", "-o", made, source], check=True)
            self.stamp(made)
            self.assertIn(words, say(folder, self.RUN, WELUNGAD_LIBRARY=made))


@unittest.skipUnless(shutil.which("cc"), "cc is missing")
class Loaded(Rooms):
    """Whether the library that is found is held to its stamp before it is loaded, and what it answers is taken whole."""

    RUN = "import welungad; print(*welungad.run(['help'], '%s'))"

    def make(self, path, *code):
        """Compiles a library below the folder, and returns its path."""
        made = self.put(path)
        source = self.put("lib.c", (SOURCE + "".join(code)).encode())
        subprocess.run(["cc", "-shared", "-fPIC", "-o", made, source], check=True)
        return made

    def make_proved(self, path, *code):
        """Compiles a library with a stamp beside it, and returns its path."""
        made = self.make(path, *code)
        self.stamp(made)
        return made

    def put_stamp(self, path, library, content=None):
        """Writes a stamp of the library's name with the SHA-256 of what it holds, or of another content."""
        with open(library, "rb") as file:
            digest = hashlib.sha256(file.read() if content is None else content).hexdigest()
        self.put(path, f"sha256 libwelungad.so {digest}\n".encode())

    def test_it_is_held_before_it_is_loaded(self):
        for lib, stamp, folder in [("site-packages/welungad", "site-packages/welungad/stamp", "site-packages"),
                                   ("top/c/out", "top/c/out/stamp", "top/python"),
                                   ("prefix/lib", "prefix/share/welungad/identity", "prefix/share/welungad/python")]:
            with self.subTest(lib):
                folder = self.put_package(folder)
                self.put("top/c/welungad.h")
                os.makedirs(os.path.join(self.room, "top", "crates"), exist_ok=True)
                made = self.make(f"{lib}/libwelungad.so", INTERFACE % 1, RUN, LOADED)
                self.put_stamp(stamp, made)
                self.assertEqual(say(folder, self.RUN % ""), "loaded\n0 b''\n")
                self.put_stamp(stamp, made, b"another one")
                for environment in [{}, {"WELUNGAD_LIBRARY": made}]:
                    said = say(folder, self.RUN % "", **environment)
                    self.assertIn(f"OSError: {made} is not the file that was built", said)
                    self.assertNotIn("loaded", said)
                os.remove(os.path.join(self.room, stamp))
                said = say(folder, self.RUN % "")
                self.assertIn(f"OSError: {made} has no stamp beside it, and no installation names it: its SHA-256 is ", said)
                self.assertNotIn("loaded", said)
                os.remove(made)

    def test_a_link_that_names_it_by_its_interface(self):
        folder = self.put_package("x")
        for lib, stamp in [("top/c/out", "top/c/out/stamp"), ("prefix/lib", "prefix/share/welungad/identity")]:
            made = self.make(f"{lib}/libwelungad.so.0.1.0", INTERFACE % 1, RUN, LOADED)
            link = os.path.join(os.path.dirname(made), "libwelungad.so.1")
            os.symlink("libwelungad.so.0.1.0", link)
            for content, wanted in [(None, "loaded\n0 b''\n"), (b"another one", "is not the file that was built")]:
                self.put_stamp(stamp, made, content)
                for path in [made, link]:
                    with self.subTest((path, content)):
                        said = say(folder, self.RUN % "", WELUNGAD_LIBRARY=path)
                        self.assertIn(wanted, said)
                        self.assertEqual("loaded" in said, content is None)

    def test_one_that_the_loader_alone_knows(self):
        """Whether it is found by its soname, without the link that compilers take, which a system may lack."""
        folder = self.put_package("site-packages")
        for name in ("libwelungad.so.1", "libwelungad.so"):
            made = self.make_proved(f"{name} alone/{name}", INTERFACE % 1, RUN)
            self.assertEqual(say(folder, self.RUN % "", LD_LIBRARY_PATH=os.path.dirname(made)), "0 b''\n")
            with open(made, "ab") as file:
                file.write(b"\0")
            self.assertIn("is not the file that was built", say(folder, self.RUN % "", LD_LIBRARY_PATH=os.path.dirname(made)))
            os.remove(os.path.join(os.path.dirname(made), "stamp"))
            self.assertIn("has no stamp beside it", say(folder, self.RUN % "", LD_LIBRARY_PATH=os.path.dirname(made)))

    def test_an_installation_that_does_not_name_it(self):
        folder = self.put_package("prefix/share/welungad/python")
        made = self.make("prefix/lib/libwelungad.so", INTERFACE % 1, RUN)
        self.put("prefix/share/welungad/identity", b"release 0\nsha256 welungad 00\n")
        self.assertIn("identity has no line sha256 for libwelungad.so", say(folder, self.RUN % ""))
        os.remove(os.path.join(self.room, "prefix", "share", "welungad", "identity"))
        self.assertIn(f"{made} has no stamp beside it", say(folder, self.RUN % ""))

    def test_the_first_place_is_taken(self):
        folder = self.put_package("prefix/share/welungad/python")
        paths = [self.make_proved(path, INTERFACE % number, RUN) for number, path in
                 [(2, "prefix/share/welungad/python/welungad/libwelungad.so"), (3, "prefix/lib/libwelungad.so"), (4, "other.so")]]
        self.assertIn("has interface 4", say(folder, self.RUN % "", WELUNGAD_LIBRARY=paths[2]))
        self.assertIn("has interface 2", say(folder, self.RUN % ""))
        os.remove(paths[0])
        self.assertIn("has interface 3", say(folder, self.RUN % ""))

    def test_one_that_comes_later_reads_doubles(self):
        """Whether doubles are read by the library alone: not before there is one."""
        folder = self.put_package("x")
        reads = "uint8_t welungad_read(const uint64_t *b, uint64_t n, uint64_t *o, uint64_t k) { for (; k; k--) o[k - 1] = k % 2; return 0; }\n"
        made = self.make_proved("libwelungad.so", INTERFACE % 1, RUN, reads)
        statement = ("import os, welungad\nfor place in ['/nowhere/lib.so', %r]:\n    os.environ['WELUNGAD_LIBRARY'] = place\n"
                     "    try:\n        print(welungad.as_exact(0.3))\n    except OSError as error:\n        print(error)" % made)
        self.assertEqual(say(folder, statement), "WELUNGAD_LIBRARY names /nowhere/lib.so, and there is no such file\n1\n")
        self.make_proved("libwelungad.so", INTERFACE % 1, RUN)
        self.assertIn(f"{made} is an older library, which reads no doubles", say(folder, statement))

    def test_texts_of_each_length(self):
        folder = self.put_package("x")
        # the text has the length that the case names
        run = RUN_AS % """size_t length = 0;
          for (size_t k = 0; k < kase_len; k++) length = 10 * length + (kase[k] - '0');
          memset(out, 'a', length < out_len ? length : out_len); *needed = length; return length <= out_len ? 0 : 7;"""
        made = self.make_proved("libwelungad.so", INTERFACE % 1, run)
        statement = ("import welungad\nfor length in [0, 1, 65535, 65536, 65537, 70000, 300000, 2]:\n"
                     "    status, text = welungad.run(['help'], str(length))\n    print(status, text == b'a' * length)")
        self.assertEqual(say(folder, statement, WELUNGAD_LIBRARY=made), "0 True\n" * 8)

    def test_a_text_that_changes_its_length(self):
        folder = self.put_package("x")
        # the second text needs more room than the first, and the third is out of memory
        run = RUN_AS % """static size_t calls = 0;
          if (calls++ < 2) { *needed = 60000 + 10000 * calls; return 7; }
          memcpy(out, "no memory\\n", 10); *needed = 10; return 8;"""
        made = self.make_proved("libwelungad.so", INTERFACE % 1, run)
        self.assertEqual(say(folder, self.RUN % "", WELUNGAD_LIBRARY=made), "8 b'no memory\\n'\n")
        made = self.make_proved("libwelungad.so", INTERFACE % 1, RUN_AS % "*needed = out_len + 1; return 0;")
        self.assertIn("BadAnswer: the library gives 65536 of 65537 bytes of its text, which is no whole answer",
                      say(folder, self.RUN % "", WELUNGAD_LIBRARY=made))
        # a library that never has room enough
        for needed in ("3", "out_len"):
            made = self.make_proved("libwelungad.so", INTERFACE % 1, RUN_AS % f"*needed = {needed}; return 7;")
            self.assertRegex(say(folder, self.RUN % "", WELUNGAD_LIBRARY=made), "BadAnswer: the library asks for [0-9]+ bytes for its text, and had 65536")


class Programs(Rooms):
    """Whether the program is found where it belongs."""

    PLACES = "from welungad import _library; print(*_library.program_places(), sep='\\n')"

    def test_places(self):
        folder = self.put_package("prefix/share/welungad/python")
        self.assertEqual(say(folder, self.PLACES).split("\n")[0], f"{self.room}/prefix/bin/welungad")
        self.assertEqual(say(folder, self.PLACES, WELUNGAD="/a/b"), "/a/b\n")

    def test_the_search_path(self):
        folder, program = self.put_package("x"), self.put("bin/welungad", b"#!/bin/sh\n")
        # in an interpreter that has no program of its own, as a wheel gives it one
        own = f"import sys, sysconfig; sys.prefix = {self.room + '/own'!r}; sysconfig.get_path = lambda name: sys.prefix + '/scripts'; "
        statement = own + "from welungad import _library; print(_library.program_path())"
        os.chmod(program, 0o755)
        self.assertIn(f"{program} has no stamp beside it", say(folder, statement, PATH=os.path.dirname(program)))
        self.put("share/welungad/identity", f"sha256 welungad {hashlib.sha256(b'#!/bin/sh' + bytes([10])).hexdigest()}\n".encode())
        self.assertEqual(say(folder, statement, PATH=os.path.dirname(program)), f"{program}\n")
        self.assertEqual(say(folder, f"import os; os.chdir({self.room!r}); {statement}", PATH="bin"), f"{program}\n")
        os.chmod(program, 0o644)
        said = say(folder, statement, PATH=os.path.dirname(program))
        self.assertRegex(said, f"OSError: the program welungad is not found. The places tried: {self.room}/own/bin/welungad, "
                               f"{self.room}/own/scripts/welungad, and those of the search path. "
                               "Build it by ./welungad help, install Welungad by ./install PREFIX")

    def test_the_one_of_the_wheel(self):
        """Whether the program that pip has put into another folder is found by its list of files, and held to the stamp in the package."""
        folder, program = self.put_package("lib/site-packages"), self.put("bin/welungad", b"#!/bin/sh\necho proved\n")
        os.chmod(program, 0o755)
        self.put("lib/site-packages/welungad-0.2.0.dist-info/RECORD", b"../../bin/welungad,sha256=x,9\nwelungad/stamp,sha256=y,1\n")
        self.assertEqual(say(folder, self.PLACES).split("\n")[0], program)
        run = [sys.executable, "-m", "welungad", "test"]
        kept = {name: value for name, value in os.environ.items() if not name.startswith("WELUNGAD")}
        for content, wanted in [(b"#!/bin/sh\necho proved\n", (0, "proved\n")), (b"another", (125, ""))]:
            self.put("lib/site-packages/welungad/stamp", f"sha256 welungad {hashlib.sha256(content).hexdigest()}\n".encode())
            done = subprocess.run(run, env={**kept, "PYTHONPATH": folder}, cwd="/", stdout=subprocess.PIPE, stderr=subprocess.PIPE, check=False)
            self.assertEqual((done.returncode, done.stdout.decode()), wanted)
        self.assertIn(b"is not the file that was built", done.stderr)


class Stamps(Rooms):
    """Whether a library that is not what its stamp names is refused."""

    def stamp_of(self, content, name="libwelungad.so"):
        return f"built a b\nkit x\nsha256 libwelungad.a 00\nsha256 {name} {hashlib.sha256(content).hexdigest()}\n".encode()

    def test_the_one_that_was_built(self):
        library = self.put("lib/libwelungad.so", b"abc")
        self.put("lib/stamp", self.stamp_of(b"abc"))
        _library.hold(library)

    def test_a_link_to_it(self):
        self.put("lib/libwelungad.so.0.1.0", b"abc")
        self.put("lib/stamp", self.stamp_of(b"abc", "libwelungad.so.0.1.0"))
        link = os.path.join(self.room, "lib", "libwelungad.so")
        os.symlink("libwelungad.so.0.1.0", link)
        _library.hold(link)
        self.put("lib/libwelungad.so.0.1.0", b"abd")
        with self.assertRaisesRegex(OSError, "is not the file that was built"):
            _library.hold(link)

    def test_another_one(self):
        library = self.put("lib/libwelungad.so", b"abd")
        self.put("lib/stamp", self.stamp_of(b"abc"))
        with self.assertRaisesRegex(OSError, "libwelungad.so is not the file that was built: its SHA-256 is "):
            _library.hold(library)

    def test_a_stamp_without_it(self):
        library = self.put("lib/libwelungad.so", b"abc")
        for text in [b"edited\n", b"", b"sha256 libwelungad.a 00\n"]:
            self.put("lib/stamp", text)
            with self.subTest(text), self.assertRaisesRegex(OSError, "has no line sha256 for libwelungad.so"):
                _library.hold(library)

    def test_no_stamp(self):
        for place in ("lib/libwelungad.so", "c/out/libwelungad.so", "bin/welungad"):
            with self.subTest(place), self.assertRaisesRegex(OSError, "has no stamp beside it.*c/build.sh or ./welungad help|is not the file that was built"):
                _library.hold(self.put(place, b"abc"))

    def test_an_installation(self):
        library = self.put("prefix/lib/libwelungad.so", b"abc")
        self.put("prefix/share/welungad/identity", self.stamp_of(b"abc"))
        _library.hold(library)
        self.put("prefix/share/welungad/identity", self.stamp_of(b"abd"))
        with self.assertRaisesRegex(OSError, "is not the file that was built"):
            _library.hold(library)


if __name__ == "__main__":
    unittest.main()
