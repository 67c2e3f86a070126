#!/bin/sh
# Runs the tests of the package over c/out/libwelungad.so and the program, which it builds if they aren't built: in the checkout, and
# then in fresh environments without a network, into which it installs the package from the checkout and from an installation of it.
#
# PYTHON names the interpreter; else each part takes the first of python3 and /usr/bin/python3 that has what it needs. Ends with
# status 1 if a test fails, and with 77 if a tool is missing, after a line that names it and what was left out.
set -eu
here=$(dirname -- "$(readlink -f -- "$0")")
top=$(dirname -- "$here")
interpreters=${PYTHON:-python3 /usr/bin/python3}
missing=

# Ends the tests, since nothing can be tested without a tool.
skip() {
    echo "python/run_tests.sh: skipped, since $1 is missing"
    exit 77
}

# Notes a tool that is missing, and what is left out without it.
note() {
    missing="$missing${missing:+; }$1"
}

# Prints the first interpreter that runs these statements.
first_that() {
    for it in $interpreters; do
        if command -v "$it" >/dev/null && "$it" -c "$1" >/dev/null 2>&1; then
            echo "$it"
            return
        fi
    done
}

any=$(first_that 'import sys; assert sys.version_info >= (3, 10)')
[ -n "$any" ] || skip 'python3, 3.10 or later,'
if ! "$top/c/build.sh" || ! "$top/welungad" help >/dev/null; then
    for tool in rt cc ld ar objcopy; do
        command -v "$tool" >/dev/null || skip "$tool, by which the library and the program are built,"
    done
    exit 1
fi
unset WELUNGAD_LIBRARY WELUNGAD PYTHONPATH
room=$(mktemp -d)
trap 'rm -rf -- "$room"' EXIT
export PYTHONPYCACHEPREFIX="$room/cache"

# Runs the tests by an interpreter, in the folder that it is in.
run_tests() {
    "$1" -m unittest discover -q -s tests
}

# Makes a fresh environment. Fails if there is none with setuptools as the build needs it.
make_environment() {
    maker=$(first_that 'import venv, ensurepip')
    [ -n "$maker" ] || return 1
    rm -rf -- "$room/venv"
    "$maker" -m venv "$room/venv"
    "$room/venv/bin/python" -c 'import setuptools; assert int(setuptools.__version__.split(".")[0]) >= 61' 2>/dev/null
}

# Installs the package from a folder into a fresh environment, and runs a copy of the tests there, with the library and the program of
# its wheel.
try_installed() {
    rm -rf -- "$room/tests"
    make_environment
    "$room/venv/bin/python" -m pip install --quiet --no-index --no-build-isolation --disable-pip-version-check "$1"
    cp -R -- "$here/tests" "$room/tests"
    (cd -- "$room" && WELUNGAD_TOP=$top WELUNGAD_INSTALLED=$room/venv run_tests "$room/venv/bin/python")
}

# in the checkout
python=$(first_that 'import numpy, pandas')
[ -n "$python" ] || note 'numpy and pandas, without which the tests with their arrays are left out'
python=${python:-$any}
cd -- "$here"
"$python" -m compileall -q welungad tests backend.py
run_tests "$python"

# in environments of its own
if ! make_environment; then
    note 'venv with setuptools 61 or later, without which the package is not installed'
else
    try_installed "$here"
    if "$top/install" "$room/prefix" >"$room/said" 2>&1; then
        try_installed "$room/prefix/share/welungad/python"
    else
        note "an installation, from which the package is not installed ($(tail -n 1 "$room/said"))"
    fi
fi

if [ -n "$missing" ]; then
    echo "python/run_tests.sh: all other tests passed, and these tools are missing: $missing"
    exit 77
fi
