#!/bin/sh
# Installs this release below a folder: program, C library, manual page, documents, examples and scripts. Needs no kit and no compiler.
#
#     ./install.sh PREFIX
#     DESTDIR=FOLDER ./install.sh PREFIX      puts the files below FOLDER/PREFIX; they are used below PREFIX, where they are then moved
#
# Refuses if a file of the release isn't the one that its checksum names, or if a file is in the way that no installation has put there.
# PREFIX/share/welungad/uninstall removes what was put there.
set -eu
umask 022
here=$(dirname -- "$(readlink -f -- "$0")")
script=install.sh

# Ends the script with one line.
refuse() {
    echo "$script: $1" >&2
    exit 1
}

# shellcheck source=tools/placing.sh
. "$here/placing.sh"
if [ $# -ne 1 ]; then set -- ''; fi
case $1 in
'' | -*)
    echo "usage: ./install.sh PREFIX" >&2
    exit 2
    ;;
esac
case $(uname -s)-$(uname -m) in
Linux-x86_64) ;;
*) refuse "this release is for Linux on x86-64" ;;
esac
wrong=$(cd "$here" && sha256sum --quiet -c SHA256SUMS 2>&1 | head -n 1) || true
[ -z "$wrong" ] || refuse "a file is not the one of the release: $wrong"
read_places "$1"
# shellcheck disable=SC2034 # placing.sh writes it into the pkg-config file
release=$(cat "$here/files/share/welungad/VERSION")
make_room
cp -R -P "$here/files/." "$room"
chmod 755 "$room"
mkdir -p -- "$room/lib/pkgconfig"
pkg_config >"$room/lib/pkgconfig/welungad.pc"
place_files
echo "installed in $target: $target/bin/welungad, man -l $target/share/man/man1/welungad.1"
