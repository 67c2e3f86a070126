#!/bin/sh
# Measures the program on generated cases, and the same work in C++ if that can read the case. Prints tables:
# - the least of five times;
# - the instructions that valgrind counts, which repeat from run to run;
# - the figures that are wanted;
# - the time of reading 4 MiB of one kind of line, compared with 4 MiB of edges, and of reading sheets of 4 MiB.
# The gate requires none of these figures. Needs g++, /usr/bin/time and, for the instructions, valgrind.
set -eu
here=$(dirname -- "$(readlink -f -- "$0")")
out=$here/out
mkdir -p "$out"
python3 "$here/cases.py" "$out"
g++ -O2 -o "$out/decide" "$here/decide.cpp"
"$here/../welungad" test <"$here/../examples/two-hypotheses.txt" >/dev/null
program=$here/../crates/welungad/out/welungad
plain='full-64 lines-1 lines-2 lines-4'
all="$plain parallel-8 parallel-32 quarter-16 quarter-32 quarter-64"

# the least of five times, in microseconds
least() {
    file=$1
    shift
    for _ in 1 2 3 4 5; do
        start=$(date +%s%N)
        "$@" <"$file" >"$out/printed" || true
        end=$(date +%s%N)
        echo $(((end - start) / 1000))
    done | sort -n | head -1
}

# instructions, in millions
counted() {
    file=$1
    shift
    valgrind --tool=callgrind --callgrind-out-file=/dev/null "$@" <"$file" 2>&1 >/dev/null |
        awk '/Collected/ { printf "%.1f\n", $4 / 1000000 }'
}

# whether both print the same decision and the same adjusted values
same() {
    "$program" test <"$out/$1.txt" >"$out/ours"
    "$out/decide" <"$out/$1.txt" >"$out/theirs"
    if cmp -s "$out/ours" "$out/theirs"; then echo yes; else echo no; fi
}

is_plain() {
    case " $plain " in *" $1 "*) true ;; *) false ;; esac
}

table() {
    measure=$1
    printf '%-14s %12s %12s %8s   %s\n' "$2" ours C++ ratio 'same text'
    for name in $all; do
        ours=$($measure "$out/$name.txt" "$program" test)
        if is_plain "$name"; then
            theirs=$($measure "$out/$name.txt" "$out/decide")
            awk -v n="$name" -v a="$ours" -v b="$theirs" -v s="$(same "$name")" -v u="$3" \
                'BEGIN { printf "%-14s %12.1f %12.1f %8.2f   %s\n", n, a / u, b / u, a / b, s }'
        else
            awk -v n="$name" -v a="$ours" -v u="$3" 'BEGIN { printf "%-14s %12.1f\n", n, a / u }'
        fi
    done
}

table least milliseconds 1000
echo
# all sets of sixteen hypotheses
printf '%-24s %12s\n' 'all sets' milliseconds
for name in parallel-8 quarter-16; do
    for command in weights bounds; do
        least "$out/$name.txt" "$program" "$command" |
            awk -v n="$command $name" '{ printf "%-24s %12.1f\n", n, $1 / 1000 }'
    done
done
# and of plain full graphs, beside the C++ program
printf '\n%-14s %12s %12s %8s %10s   %s\n' bounds ours C++ ratio MiB 'same text'
for name in full-15 full-16; do
    ours=$(least "$out/$name.txt" "$program" bounds)
    "$program" bounds <"$out/$name.txt" >"$out/ours"
    theirs=$(least "$out/$name.txt" "$out/decide" bounds)
    "$out/decide" bounds <"$out/$name.txt" >"$out/theirs"
    if cmp -s "$out/ours" "$out/theirs"; then answer=yes; else answer=no; fi
    most=$(/usr/bin/time -f %M "$program" bounds <"$out/$name.txt" 2>&1 >/dev/null)
    bounds_ours=$ours
    bounds_theirs=$theirs
    bounds_most=$most
    awk -v n="$name" -v a="$ours" -v b="$theirs" -v m="$most" -v s="$answer" \
        'BEGIN { printf "%-14s %12.1f %12.1f %8.2f %10.1f   %s\n", n, a / 1000, b / 1000, a / b, m / 1024, s }'
done
if command -v valgrind >/dev/null; then
    echo
    table counted 'million instr.' 1
fi

# a figure beside the most that is wanted of it
wanted() {
    awk -v n="$1" -v a="$2" -v b="$3" -v w="$4" -v u="$5" \
        'BEGIN { printf "%-30s %10s %10s %10s   %-18s %s\n", n, a, b, w, u, (a + 0 <= w + 0) ? "yes" : "no" }'
}

echo
printf '%-30s %10s %10s %10s   %-18s %s\n' wanted ours C++ 'at most' of reached
if command -v valgrind >/dev/null; then
    "$program" catalogue improved-parallel --size 5 --second 5 >"$out/improved-5.txt"
    wanted 'weights improved-parallel 5 5' "$(counted "$out/improved-5.txt" "$program" weights)" - 120 'million instr.'
    wanted 'test full-64' "$(counted "$out/full-64.txt" "$program" test)" "$(counted "$out/full-64.txt" "$out/decide")" 130 'million instr.'
fi
# full-16 is the last case of the table of bounds
wanted 'bounds full-16, time' "$(awk -v a="$bounds_ours" -v b="$bounds_theirs" 'BEGIN { printf "%.2f", a / b }')" 1.00 0.50 'time in C++'
wanted 'bounds full-16, memory' "$(awk -v m="$bounds_most" 'BEGIN { printf "%.1f", m / 1024 }')" - 40 MiB

# what `test` takes of texts that are refused once they are read, beside the text of edges
echo
printf '%-14s %12s %8s\n' reading milliseconds ratio
edges=$(least "$out/read-edges.txt" sh -c '"$1" test; true' sh "$program" 2>/dev/null)
for kind in edges arrivals tables names; do
    time=$(least "$out/read-$kind.txt" sh -c '"$1" test; true' sh "$program" 2>/dev/null)
    awk -v n="$kind" -v a="$time" -v e="$edges" 'BEGIN { printf "%-14s %12.1f %8.2f\n", n, a / 1000, a / e }'
done

# the same of sheets: one whose first surplus record ends the reading, one with a long header, and one of many rows; and the
# most memory, by the byte of the sheet
echo
printf '%-14s %12s %8s %8s\n' sheet milliseconds ratio bytes
for kind in surplus header rows; do
    file=$out/sheet-$kind.csv
    time=$(least "$file" sh -c '"$1" test --form csv --alpha 0.05; true' sh "$program" 2>/dev/null)
    memory=$(/usr/bin/time -f %M "$program" test --form csv --alpha 0.05 <"$file" 2>&1 >/dev/null | tail -1)
    awk -v n="$kind" -v a="$time" -v e="$edges" -v m="$memory" -v s="$(wc -c <"$file")" \
        'BEGIN { printf "%-14s %12.1f %8.2f %8.1f\n", n, a / 1000, a / e, m * 1024 / s }'
done
