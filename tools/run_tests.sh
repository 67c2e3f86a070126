#!/bin/sh
# Runs the tests of the tools and of the scripts at the top. Ends with a status other than 0 if one fails, and with 77 and a line if a
# tool is missing: then the tests that need it are skipped, and the others are run.
set -eu
here=$(dirname -- "$(readlink -f -- "$0")")
cd -- "$here"

# Ends with the line of a check that is skipped, in part or as a whole.
skip() {
    echo "tools/run_tests.sh: skipped${2-}, since this is missing: $1"
    exit 77
}

command -v python3 >/dev/null || skip python3
missing=
for name in git man cc objcopy pkg-config valgrind shellcheck; do
    command -v "$name" >/dev/null || missing="${missing:+$missing, }$name"
done
[ -x ../crates/welungad/out/welungad ] || missing="${missing:+$missing, }the built program"
[ -f ../c/out/stamp ] || missing="${missing:+$missing, }the built C library"
PYTHONDONTWRITEBYTECODE=1 python3 -m unittest discover -p "test_*.py"
[ -z "$missing" ] || skip "$missing" " in part"
