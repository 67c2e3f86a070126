#!/bin/sh
# Builds the C library if it isn't built, and tests it. Ends with a status other than 0 if a test fails, and with 77 and a line if a
# tool is missing.
set -eu
here=$(dirname -- "$(readlink -f -- "$0")")
for tool in rt cc c++ ld ar nm objcopy readelf valgrind; do
    if ! command -v "$tool" >/dev/null; then
        echo "c/run_tests.sh: skipped, since $tool is missing"
        exit 77
    fi
done
"$here/build.sh"
exec "$here/test.sh"
