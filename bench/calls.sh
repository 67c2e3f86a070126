#!/bin/sh
# Measures a call of `test` from C, Python and R: in process, and by the program, started for each call. Prints a table in
# microseconds, the least of five rounds: the processor time of a call in process, and the elapsed time of a started program. R's
# tables follow (calls.R), if R and the package gmp are there: elapsed times of a decision, and of 100,000 trials. They are those of
# the package of this checkout, which is installed in bench/out. Before them are 100,000 rows of p-values decided in one call of C
# (rows.c). It all takes a minute or two. The gate requires none of these figures.
set -eu
here=$(dirname -- "$(readlink -f -- "$0")")
out=$here/out
mkdir -p "$out"
python3 "$here/cases.py" "$out"
cp "$here/../examples/holm.txt" "$out/holm-3.txt"
"$here/../c/build.sh"
"$here/../welungad" test <"$out/holm-3.txt" >/dev/null
program=$here/../crates/welungad/out/welungad
cc -O2 -Wall -Wextra -o "$out/calls" "$here/calls.c" "$here/../c/out/libwelungad.a"

# Prints a row of the table.
row() {
    printf '%-24s %10s %14s %16s\n' "$@"
}

row 'microseconds a call' case 'in process' 'started program'
# shellcheck disable=SC2086
for sizes in 'holm-3 2000 50' 'full-16 200 50' 'full-64 5 10'; do
    set -- $sizes
    file=$out/$1.txt
    # each script prints its columns
    from_c=$("$out/calls" "$program" "$file" "$2" "$3")
    from_python=$(WELUNGAD_LIBRARY=$here/../c/out/libwelungad.so python3 "$here/calls.py" "$program" "$file" "$2" "$3")
    row C "$1" ${from_c% *} ${from_c#* }
    name=$1
    set -- $from_python
    row 'Python run' "$name" "$1" "$3"
    row 'Python test' "$name" "$2" "$3"
    row 'Python Graph.test' "$name" "$4" "$3"
done

cc -O2 -Wall -Wextra -o "$out/rows" "$here/rows.c" "$here/../c/out/libwelungad.a"
for name in holm-3 full-16; do "$out/rows" "$out/$name.txt" 100000; done

if ! command -v Rscript >/dev/null || ! Rscript --vanilla -e 'library(gmp)' >/dev/null 2>&1; then
    echo "bench/calls.sh: no rows from R, since R or its package gmp is missing"
    exit
fi
rm -rf "$out/library" "$out/r"
mkdir "$out/library"
cp -R "$here/../r" "$out/r"
cp "$here/../docs/REFUSALS.md" "$out/r/inst/REFUSALS.md"
WELUNGAD_INCLUDE=$here/../c WELUNGAD_LIB=$here/../c/out R CMD INSTALL --no-docs --library="$out/library" "$out/r" >"$out/install.log" 2>&1 || {
    cat "$out/install.log"
    exit 1
}
R_LIBS=$out/library Rscript --vanilla "$here/calls.R" "$program"
