"""Tests of the package: its version, its names, and that it asks for nothing but Python."""
import os
import subprocess
import sys
import unittest

import places
import welungad

VERSION = os.path.join(places.TOP, "VERSION")
PACKAGE = os.path.dirname(os.path.abspath(welungad.__file__))


class Package(unittest.TestCase):
    """Whether the package is as its users expect one."""

    @unittest.skipUnless(os.path.isfile(VERSION), f"{VERSION} is missing")
    def test_the_version_is_that_of_the_release(self):
        with open(VERSION, encoding="ascii") as file:
            self.assertEqual(file.read().strip(), welungad.__version__)

    def test_its_names(self):
        self.assertEqual(sorted(welungad.__all__), welungad.__all__)
        for name in welungad.__all__:
            self.assertTrue(hasattr(welungad, name), name)
        public = {name for name in vars(welungad) if not name.startswith("_")}
        self.assertEqual(public, set(welungad.__all__))

    def test_it_is_typed(self):
        self.assertTrue(os.path.isfile(os.path.join(PACKAGE, "py.typed")))

    def test_every_public_name_says_what_it_is(self):
        for name in welungad.__all__:
            it = getattr(welungad, name)
            if callable(it) and getattr(it, "__module__", "").startswith("welungad"):
                self.assertTrue(it.__doc__ and "(" not in it.__doc__.split(" ")[0], name)
                for own, method in vars(it).items() if isinstance(it, type) else ():
                    if callable(method) and not own.startswith("_"):
                        self.assertTrue(method.__doc__, f"{name}.{own}")

    def test_it_asks_for_nothing(self):
        code = "import sys, welungad; print(sorted({'numpy', 'pandas', 'setuptools'} & set(sys.modules)))"
        folder = os.path.dirname(PACKAGE)
        done = subprocess.run([sys.executable, "-c", code], env={**os.environ, "PYTHONPATH": folder}, cwd="/", stdout=subprocess.PIPE, check=True)
        self.assertEqual(done.stdout, b"[]\n")

    @unittest.skipUnless(os.environ.get("WELUNGAD_INSTALLED"), "no environment that it is installed in")
    def test_it_is_the_installed_one(self):
        environment = os.path.realpath(os.environ["WELUNGAD_INSTALLED"])
        self.assertTrue(os.path.realpath(PACKAGE).startswith(environment + os.sep), PACKAGE)
        self.assertTrue(os.path.isfile(os.path.join(PACKAGE, "libwelungad.so")))
        self.assertTrue(os.path.isfile(os.path.join(PACKAGE, "stamp")))


if __name__ == "__main__":
    unittest.main()
