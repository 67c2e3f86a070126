#!/bin/sh
# Runs the program on cases of examples with the first, the second, the third and each later allocation refused: first with that one
# alone, then with all from that one on. Each run has to end in one of three ways:
# - with status 8 and `no memory`;
# - with status 8 and nothing, if `main` has no memory for its words or its file;
# - as the case ends with all the memory that it requests.
# Prints how often each came, and each run that ends otherwise. Its status is 1 if there is one, and if a case has no allocation to
# refuse. Stops a case after 2,000 allocations or ten minutes, with --short after 30 allocations or six seconds. Needs glibc and cc, and a
# program that takes its memory from glibc; ends with 77 and a line if cc or the program is missing.
#
#     bench/allocations.sh [--short] [PROGRAM]
#
# (`rt try --fail-alloc N -- test` does one such run with every access checked, but builds the program anew for each N.)
set -eu
here=$(dirname -- "$(readlink -f -- "$0")")
most=2000
seconds=600
if [ "${1-}" = --short ]; then
    most=30
    seconds=6
    shift
fi
program=${1:-$here/../crates/welungad/out/welungad}
missing=
command -v cc >/dev/null || missing=cc
[ -x "$program" ] || missing="${missing:+$missing, }the built program"
if [ -n "$missing" ]; then
    echo "bench/allocations.sh: skipped, since this is missing: $missing"
    exit 77
fi
examples=$here/../examples
out=$here/out
mkdir -p "$out"
cc -shared -fPIC -O2 -o "$out/refuse.so" "$here/refuse.c"

cat >"$out/looks.txt" <<'END'
alpha 0.05
hypotheses H1 H2
weights 1/2 1/2
edge H1 H2 1
edge H2 H1 1
stages 2
spend H1 1/2 1/2
spend H2 1/2 1/2
arrive H1 1 0.02
arrive H2 1 0.03
arrive H1 2 0.01
arrive H2 2 0.02
END
cat >"$out/proof.txt" <<'END'
evidence 2
step H1
step H3
flow 1 H1 1/2
step H4
flow 1 H1 [1]/[2,-1]
flow 1 H3 [1]/[4,-2]
step H2
flow 1 H1 1
flow 1 H3 [1]/[0,2]
flow 1 H4 [1]/[0,2]
end
END
cat >"$out/study.txt" <<'END'
look H1 1 0.02
look H2 1 0.03
look H1 1 0.01
show
look H1 2 0.01
look H2 2 0.02
show
END
grep -v '^arrive ' "$out/looks.txt" >"$out/open.txt"
echo '{"alpha":"0.025","hypotheses":["H1"],"p":["0.01"],"components":[{"weights":[1],"edges":[]}]}' >"$out/one.json"
ended=0
runs=0

# one run: its number, `one` or `on`, the file and the words; the status follows the text
ran() {
    number=$1
    kind=$2
    file=$3
    shift 3
    if [ "$kind" = on ]; then export REFUSE_ON=1; else unset REFUSE_ON; fi
    status=0
    LD_PRELOAD=$out/refuse.so REFUSE_AT=$number REFUSE_COUNT=$out/count "$program" "$@" <"$file" >"$out/printed" 2>&1 ||
        status=$?
    echo "status $status" >>"$out/printed"
}

# what a run was: as the case, out of memory, out of memory with nothing printed, or something else
kind_of() {
    if cmp -s "$out/printed" "$out/wanted"; then
        echo own
    elif printf 'no memory\nstatus 8\n' | cmp -s - "$out/printed"; then
        echo memory
    elif printf 'status 8\n' | cmp -s - "$out/printed"; then
        echo silent
    else
        echo other
    fi
}

# all runs of a case
tried() {
    name=$1
    file=$2
    shift 2
    rm -f "$out/count"
    ran 0 one "$file" "$@"
    if ! grep -q '^status 0$' "$out/printed"; then
        echo "$name: the program does not answer the case"
        ended=1
        return 0
    fi
    mv "$out/printed" "$out/wanted"
    count=$(cat "$out/count" 2>/dev/null || echo 0)
    if [ "$count" -eq 0 ]; then
        echo "$name: no allocation is seen, so none can be refused"
        ended=1
        return 0
    fi
    begun=$(date +%s)
    for kind in one on; do
        own=0 memory=0 silent=0 other=0 number=1
        while [ "$number" -le "$count" ] && [ "$number" -le "$most" ] && [ $(($(date +%s) - begun)) -lt "$seconds" ]; do
            ran "$number" "$kind" "$file" "$@"
            case $(kind_of) in
            own) own=$((own + 1)) ;;
            memory) memory=$((memory + 1)) ;;
            silent) silent=$((silent + 1)) ;;
            *)
                other=$((other + 1))
                ended=1
                echo "$name: allocation $number ($kind) ends otherwise:"
                head -c 400 "$out/printed"
                ;;
            esac
            number=$((number + 1))
        done
        runs=$((runs + number - 1))
        printf '%-12s %-4s %6d %6d %10d %7d %6d\n' "$name" "$kind" "$count" "$own" "$memory" "$silent" "$other"
    done
}

printf '%-12s %-4s %6s %6s %10s %7s %6s\n' case '' asked own no-memory silent other
tried holm "$examples/holm.txt" test
tried improved "$examples/improved-gatekeeping.txt" test
tried sheet "$examples/sheet.csv" canon --form csv --alpha 0.025
tried sheet-csv "$examples/sheet.csv" canon --form csv --alpha 0.025 --to csv
tried sheet-json "$examples/sheet.csv" canon --form csv --alpha 0.025 --to json
tried json "$out/one.json" test --form json
tried evidence "$examples/improved-gatekeeping.txt" evidence
tried check "$examples/improved-gatekeeping.txt" check "$out/proof.txt"
tried bounds "$examples/gatekeeping.txt" bounds
tried sequence "$examples/fixed-sequence.txt" bounds
tried weights "$examples/holm.txt" weights
tried simes "$examples/gatekeeping.txt" simes
tried stages "$out/looks.txt" stages
tried study "$out/open.txt" study "$out/study.txt"
echo "$runs runs"
exit $ended
