#!/bin/sh
# Proves the library and builds it in c/out: libwelungad.a, and libwelungad.so.RELEASE with its two links. They export the calls of
# welungad.h alone, which welungad.map lists.
#
#   c/build.sh          builds if the library isn't built, or was built from other sources than those of the commit that is
#                       checked out, or was changed since
#   c/build.sh --force  builds in any case, from the sources as they are
#
# Needs rt, cc and the binutils ld, ar and objcopy. The file c/out/stamp names what the library was built from, and its checksums
# (tools/stamps.sh).
set -eu
here=$(dirname -- "$(readlink -f -- "$0")")
top=$(dirname -- "$here")
script=c/build.sh
. "$top/tools/stamps.sh"
crate=$top/crates/welungad_c
out=$here/out
stamp=$out/stamp

# Proves the crate, which makes $crate/out/libwelungad_c.a.
prove() {
    echo "welungad: proving and building the library, about half an hour the first time; see $out/build.log" >&2
    if ! (cd "$crate" && rt lib </dev/null >"$out/build.log" 2>&1); then
        cat "$out/build.log" >&2
        exit 1
    fi
}

# Prints the names that the library exports.
exported() {
    sed 's/.*global://; s/local:.*//' "$here/welungad.map" | tr -d ';' | xargs -n 1
}

# Makes one object of the proved code, the kit's three allocation functions and calls.c, in which only the exported names are
# global, and both libraries of it.
link_libraries() {
    kit=$(dirname -- "$(dirname -- "$(readlink -f -- "$(command -v rt)")")")
    objcopy --redefine-syms="$here/proved.names" "$crate/out/libwelungad_c.a" "$room/proved.a"
    cc -std=c99 -O2 -fPIC -Wall -Wextra -Wpedantic -Werror -DWELUNGAD_RELEASE="\"$release\"" -c -o "$room/calls.o" "$here/calls.c"
    ld -r -o "$room/welungad.o" "$room/calls.o" --whole-archive "$room/proved.a" "$kit/c/liblibc_c.a"
    exported >"$room/exported"
    objcopy --keep-global-symbols="$room/exported" "$room/welungad.o"
    ar rcs "$room/libwelungad.a" "$room/welungad.o"
    # the version of the names is that of the interface
    sed "s/^{/WELUNGAD_$interface {/" "$here/welungad.map" >"$room/versions"
    cc -shared -o "$room/libwelungad.so.$release" -Wl,-soname,"libwelungad.so.$interface" -Wl,-z,defs -Wl,-z,now -Wl,-z,relro \
        -Xlinker --version-script="$room/versions" "$room/welungad.o"
    ln -s "libwelungad.so.$release" "$room/libwelungad.so.$interface"
    ln -s "libwelungad.so.$interface" "$room/libwelungad.so"
}

case $#${1-} in
0 | 1--force) ;;
*)
    echo "usage: c/build.sh [--force]" >&2
    exit 2
    ;;
esac
# shellcheck disable=SC2086 # a list of paths without blanks
now=$(trees $library_sources)
if [ "${1-}" != --force ] && [ -z "$(finding "$stamp" "$now" "$out/libwelungad.so" "$out/libwelungad.a")" ]; then
    exit 0
fi
for tool in rt cc ld ar objcopy; do
    command -v "$tool" >/dev/null || refuse "the library isn't built, and $tool isn't on the path: see 'To build' in $here/README.md"
done
if ! mkdir -p "$out" "$crate/out" 2>/dev/null || ! [ -w "$out" ]; then
    refuse "the library isn't built, and $out can't be written: build it in a checkout of your own"
fi
release=$(cat "$top/VERSION")
interface=$(sed -n 's/^#define WELUNGAD_INTERFACE //p' "$here/welungad.h")
# shellcheck disable=SC2086
before=$(sources $library_sources)
rm -f "$stamp"
prove
room=$(mktemp -d "$out/new.XXXXXX")
trap 'rm -rf "$room"' EXIT
trap 'exit 130' INT
trap 'exit 143' TERM
link_libraries
# shellcheck disable=SC2086
stamp_of "$before" "$(sources $library_sources)" "$room/libwelungad.so" "$room/libwelungad.a" >"$room/stamp"
rm -f "$out"/libwelungad.*
mv "$room"/libwelungad.* "$out"
mv "$room/stamp" "$stamp"
