#!/bin/sh
# Builds the package and runs R CMD check with its tests. A way to the proved call has to be there:
# - the C library, in the folders that WELUNGAD_INCLUDE and WELUNGAD_LIB name, else under WELUNGAD_PREFIX, else in c/out;
# - the program, which WELUNGAD names, else crates/welungad/out/welungad, else that of WELUNGAD_PREFIX, else that of the path.
# Without knitr, rmarkdown or pandoc the vignettes are left out. Prints a line and ends with 77 if R or another package is missing;
# ends with another status if a test fails.
set -eu
here=$(dirname -- "$(readlink -f -- "$0")")
top=$(dirname -- "$here")

skip() {
    echo "r/run_tests.sh: skipped, since $1"
    exit 77
}

has_package() {
    Rscript --vanilla -e "quit(status = !requireNamespace('$1', quietly = TRUE))" >/dev/null 2>&1
}

for tool in R Rscript; do
    command -v "$tool" >/dev/null || skip "$tool is missing"
done
for package in gmp testthat; do
    has_package "$package" || skip "the R package $package is missing"
done

# the program
if [ -z "${WELUNGAD-}" ]; then
    for place in "$top/crates/welungad/out/welungad" "${WELUNGAD_PREFIX:-/nowhere}/bin/welungad" "$(command -v welungad || true)"; do
        if [ -n "$place" ] && [ -x "$place" ]; then
            WELUNGAD=$place
            break
        fi
    done
fi
export WELUNGAD="${WELUNGAD-}"

# the library
if [ -z "${WELUNGAD_LIB-}" ] && [ -z "${WELUNGAD_PREFIX-}" ] && [ -f "$top/c/out/libwelungad.a" ]; then
    export WELUNGAD_INCLUDE="$top/c" WELUNGAD_LIB="$top/c/out"
fi
if [ -z "$WELUNGAD" ] && [ -z "${WELUNGAD_LIB-}${WELUNGAD_PREFIX-}" ]; then
    skip "neither the program nor the C library is built"
fi
export WELUNGAD_EXAMPLES="$top/examples"

# the vignettes
vignettes=yes
command -v pandoc >/dev/null || vignettes=''
for package in knitr rmarkdown; do
    has_package "$package" || vignettes=''
done
without=''
if [ -z "$vignettes" ]; then
    echo "r/run_tests.sh: the vignettes are left out, since knitr, rmarkdown or pandoc is missing"
    without=yes
fi

room=$(mktemp -d)
trap 'rm -rf "$room"' EXIT
cp -R "$here" "$room/welungad"
cp "$top/docs/REFUSALS.md" "$room/welungad/inst/REFUSALS.md"
cd "$room"

# An installation with a folder that has no library fails.
for variable in WELUNGAD_PREFIX WELUNGAD_INCLUDE WELUNGAD_LIB; do
    if (cd welungad && unset WELUNGAD_PREFIX WELUNGAD_INCLUDE WELUNGAD_LIB && env "$variable=$room" ./configure) >/dev/null 2>&1; then
        echo "r/run_tests.sh: configure accepts $variable without a library"
        exit 1
    fi
done
R CMD build ${without:+--no-build-vignettes} welungad >build.log 2>&1 || { cat build.log; exit 1; }

# The check wants none of the package index, and runs the tests.
status=0
_R_CHECK_FORCE_SUGGESTS_=false _R_CHECK_CRAN_INCOMING_=false R CMD check --no-manual ${without:+--ignore-vignettes} welungad_*.tar.gz >check.log 2>&1 || status=$?
grep -q -E '^Status: .*(WARNING|ERROR)' check.log && status=1
if [ "$status" -ne 0 ]; then
    cat check.log
    cat welungad.Rcheck/tests/testthat.Rout.fail welungad.Rcheck/00install.out 2>/dev/null || true
    exit 1
fi
echo "r/run_tests.sh: R CMD check: $(grep '^Status:' check.log); the package was installed $(sed -n 's/^welungad: //p' welungad.Rcheck/00install.out)"
sed -n '/NOTE$/,/^\* /p' check.log
sed -n 's/^\(\[ FAIL.*\)$/r\/run_tests.sh: \1/p' welungad.Rcheck/tests/testthat.Rout
