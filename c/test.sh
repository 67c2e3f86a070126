#!/bin/sh
# Tests c/out/libwelungad.a and c/out/libwelungad.so, which c/build.sh makes: the names that they export and those that they take from
# outside, that they have no variables, the soname, the header as C and as C++, each call of test_calls.c, of test_numbers.c and of
# test_update.c under valgrind, 10,000 hostile calls among those of each of the last two, the examples, and refused allocations. Ends with a status other than 0 if one fails.
set -eu
here=$(dirname -- "$(readlink -f -- "$0")")
top=$(dirname -- "$here")
out=$here/out
release=$(cat "$top/VERSION")
names='welungad_interface welungad_read welungad_run welungad_test_rows welungad_update welungad_version'

# Ends the tests.
fail() {
    echo "c/test.sh: $1" >&2
    exit 1
}

# Prints the global names that nm lists, without their versions.
listed() {
    nm "$@" --defined-only | awk 'NF == 3 && $2 ~ /[B-Z]/ { sub("@.*", "", $3); print $3 }' | sort | tr '\n' ' ' | sed 's/ $//'
}

# compiled PROGRAM FILE FLAG..: compiles a C program into c/out.
compiled() {
    program=$1
    shift
    cc -std=c99 -D_POSIX_C_SOURCE=200809L -g -O1 -Wall -Wextra -Wpedantic -Werror -I"$here" -DRELEASE="\"$release\"" \
        -o "$out/$program" "$@" || fail "$program doesn't compile"
}

# Runs a program under valgrind.
watched() {
    valgrind -q --error-exitcode=9 --leak-check=full --show-leak-kinds=all --errors-for-leak-kinds=all "$@"
}

[ "$(listed -D "$out/libwelungad.so")" = "$names" ] || fail "libwelungad.so exports $(listed -D "$out/libwelungad.so")"
[ "$(listed -g "$out/libwelungad.a")" = "$names" ] || fail "libwelungad.a exports $(listed -g "$out/libwelungad.a")"
readelf -d "$out/libwelungad.so" | grep -q 'soname: \[libwelungad.so.1\]' || fail "libwelungad.so has another soname"
[ "$(nm -D "$out/libwelungad.so" | grep -c ' T welungad_.*@@WELUNGAD_1$')" = "$(echo "$names" | wc -w)" ] || fail "libwelungad.so has names without a version"
grep -q "^#define WELUNGAD_VERSION \"$release\"$" "$here/welungad.h" || fail "welungad.h has another release than VERSION"
readelf -d "$out/libwelungad.so" | grep -q 'BIND_NOW' || fail "libwelungad.so does not bind its names when it is loaded"
readelf -lW "$out/libwelungad.so" | grep -q 'GNU_RELRO' || fail "libwelungad.so leaves writable what is bound"
for name in $(nm -u "$out/libwelungad.a" | awk 'NF == 2 { print $2 }'); do
    case $name in
    malloc | realloc | free | memcpy | memmove | memset | _GLOBAL_OFFSET_TABLE_) ;;
    __*ti3) ;; # a division of 128 bits
    *) fail "libwelungad.a takes $name from outside" ;;
    esac
done
# The kit's allocation functions have a byte `nothing`, of which they use the address alone.
variables=$(nm "$out/libwelungad.a" | awk 'NF == 3 && $2 ~ /[bBcCdD]/ && $3 != "nothing" { print $3 }')
[ -z "$variables" ] || fail "libwelungad.a has the variables $variables"
cc -x c -std=c99 -Wall -Wextra -Wpedantic -Werror -fsyntax-only "$here/welungad.h"
cc -x c++ -std=c++11 -Wall -Wextra -Wpedantic -Werror -fsyntax-only "$here/welungad.h"

compiled test_calls "$here/test_calls.c" "$out/libwelungad.a" -lpthread
compiled test_calls_shared "$here/test_calls.c" -L"$out" -lwelungad -Wl,-rpath,"$out" -lpthread
compiled test_numbers "$here/test_numbers.c" "$out/libwelungad.a" -lpthread
compiled test_numbers_shared "$here/test_numbers.c" -L"$out" -lwelungad -Wl,-rpath,"$out" -lpthread
compiled test_update "$here/test_update.c" "$out/libwelungad.a" -lpthread
compiled test_update_shared "$here/test_update.c" -L"$out" -lwelungad -Wl,-rpath,"$out" -lpthread
compiled test_memory -Wl,--wrap=malloc,--wrap=realloc,--wrap=free "$here/test_memory.c" "$out/libwelungad.a"
compiled decide "$here/examples/decide.c" "$out/libwelungad.a"
compiled update "$here/examples/update.c" "$out/libwelungad.a"
c++ -std=c++11 -Wall -Wextra -Wpedantic -Werror -I"$here" -o "$out/test_header" "$here/test_header.cc" "$out/libwelungad.a" ||
    fail "a program in C++ doesn't compile"
"$out/test_header" || fail "a program in C++"
watched "$out/test_calls" || fail "test_calls under valgrind"
"$out/test_calls_shared" || fail "test_calls over libwelungad.so"
watched "$out/test_numbers" 10000 || fail "test_numbers under valgrind"
"$out/test_numbers_shared" 10000 || fail "test_numbers over libwelungad.so"
watched "$out/test_update" 10000 || fail "test_update under valgrind"
"$out/test_update_shared" 10000 || fail "test_update over libwelungad.so"
"$out/test_memory" || fail "test_memory"
watched "$out/test_memory" 2>/dev/null || fail "test_memory under valgrind"
watched "$out/decide" "$top/examples/holm.txt" >"$out/printed" || fail "the example under valgrind"
grep -qx 'rejected H1 H2 H3' "$out/printed" || fail "the example prints something else"
watched "$out/update" "$top/examples/diabetes.txt" 1 0 >"$out/printed" || fail "the example of an update under valgrind"
grep -qx 'edge H3 H4 1' "$out/printed" || fail "the example of an update prints something else"
if [ -c /dev/full ]; then
    status=0
    "$out/decide" "$top/examples/holm.txt" >/dev/full 2>"$out/printed" || status=$?
    [ "$status" -eq 125 ] || fail "the example ends with $status if its text cannot be written"
fi
