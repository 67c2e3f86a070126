#!/bin/sh
# Measures the most memory that the program takes over inputs of 4 MiB of one kind: of two million empty records, or two million
# values `0`, among others. Prints it, by the byte of the input, with the status and the line of the run, and ends with status 1
# if it is above 60 bytes a byte. The gate does not run it. Needs /usr/bin/time; ends with 77 and a line if it or the program is missing.
#
#     bench/memory.sh [PROGRAM]
set -eu
here=$(dirname -- "$(readlink -f -- "$0")")
program=${1:-$here/../crates/welungad/out/welungad}
missing=
[ -x /usr/bin/time ] || missing=/usr/bin/time
[ -x "$program" ] || missing="${missing:+$missing, }the built program"
if [ -n "$missing" ]; then
    echo "bench/memory.sh: skipped, since this is missing: $missing"
    exit 77
fi
out=$here/out
mkdir -p "$out"
python3 - "$out" <<'END'
import sys

LONGEST = 4194304
CASE = '{"alpha":1,"hypotheses":["A"],'


def filled(front, piece, back):
    return (front + piece * ((LONGEST - len(front) - len(back)) // len(piece)) + back).encode()


def write(name, text):
    with open(f"{sys.argv[1]}/{name}", "wb") as file:
        file.write(text)


# two million records of an empty field, and the same number after a header that makes them surplus
write("wide-records.csv", filled("", '""\n', ""))
write("wide-short.csv", filled(",weight,p,A\n", ",\n", ""))
write("wide-commas.csv", filled(",weight,p", ",", "\n"))
write("wide-quotes.csv", filled(",weight,p,A\n", '"', ""))
write("wide-feeds.csv", filled("", "\n", ""))
write("wide-names.csv", filled(",weight,p", ",A", "\n"))
# two million values, where the first value is the wrong one, and where each is read
write("wide-zeros.json", filled("[", "0,", "0]"))
write("wide-p.json", filled(CASE + '"p":[', "0,", "0]}"))
write("wide-nulls.json", filled(CASE + '"p":[', "null,", "0]}"))
write("wide-weights.json", filled(CASE + '"components":[{"weights":[', "0,", '0],"edges":[]}]}'))
write("wide-texts.json", filled(CASE + '"p":[', '"",', "0]}"))
write("wide-lists.json", filled("[", "[],", "0]"))
write("wide-objects.json", filled("[", "{},", "0]"))
write("wide-names.json", filled('{"alpha":1,"hypotheses":[', '"A",', '"A"],"components":[]}'))
write("wide-keys.json", filled("{", '"":0,', '"":0}'))
write("wide-edges.json", filled(CASE + '"components":[{"weights":[1],"edges":[', "{},", "{}]}]}"))
# texts
write("wide-words.txt", filled("alpha 1\nhypotheses A\np", " 0", "\n"))
write("wide-names.txt", filled("alpha 1\nhypotheses", " A", "\n"))
write("wide-lines.txt", filled("", "\n", ""))
write("wide-edges.txt", filled("alpha 1\nhypotheses A\nweights 1\n", "edge A A 0\n", ""))
write("wide-parts.txt", filled("alpha 1\nhypotheses A\nweights 1\n", "component 0\n", ""))
write("wide-looks.txt", filled("alpha 1\nhypotheses A\nweights 1\nstages 1\nspend A 1\n", "arrive A 1 0\n", ""))
write("wide-steps.txt", filled("alpha 1\nhypotheses A\nweights 1\nstages 1\n", "table A 1 0\n", ""))
write("wide-sum.txt", filled("alpha 1\nhypotheses A B\nweights 1 0\nedge A B 0", "+0", "\n"))
END

worst=0
printf '%-18s %10s %10s %8s %7s   %s\n' input bytes KiB by-byte status line
for file in "$out"/wide-*; do
    case $file in
    *.csv) words='test --form csv --alpha 0.05' ;;
    *.json) words='test --form json' ;;
    *) words='test' ;;
    esac
    status=0
    # shellcheck disable=SC2086
    /usr/bin/time -o "$out/most" -f %M "$program" $words <"$file" >"$out/printed" || status=$?
    most=$(tail -1 "$out/most")
    bytes=$(wc -c <"$file")
    printf '%-18s %10d %10d %8.1f %7d   %.60s\n' "$(basename "$file")" "$bytes" "$most" \
        "$(awk "BEGIN { print $most * 1024 / $bytes }")" "$status" "$(head -c 60 "$out/printed" | head -1)"
    if [ $((most * 1024)) -gt $((60 * bytes)) ]; then worst=1; fi
    rm -f "$file"
done
exit $worst
