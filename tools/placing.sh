# shellcheck shell=sh disable=SC2154
# Puts files below a folder: the functions that ./install and the install.sh of a release share.
#
# A script sources this file once it has set `script`, its name in messages, has `refuse`, and `release`, the release that it installs.
# read_places and make_room come first. Then the script fills `room` with what belongs below the folder, and calls place_files.

# The files that name what is installed, and list it.
identity=share/welungad/identity
list=share/welungad/installed

# Puts the place where the files are used into `prefix`, and the one where they are put into `target`.
read_places() {
    prefix=$1
    case $prefix in
    *"
"*) refuse "PREFIX has a line feed, with which nothing can be linked" ;;
    /*) ;;
    *)
        [ -z "${DESTDIR-}" ] || refuse "with DESTDIR, PREFIX has to begin with /"
        prefix=$PWD/$prefix
        ;;
    esac
    while [ "$prefix" != "${prefix%/}" ]; do prefix=${prefix%/}; done
    target=${DESTDIR-}$prefix
    [ -n "$target" ] || target=/
}

# Makes the new folder `room` in the nearest folder that is there. It is removed at the end, also after an interrupt.
make_room() {
    above=$target
    while [ ! -e "$above" ] && [ ! -L "$above" ]; do above=$(dirname -- "$above"); done
    [ -d "$above" ] || refuse "$above is not a folder"
    room=$(mktemp -d "${above%/}/.welungad-new.XXXXXX" 2>/dev/null) || refuse "$above can't be written"
    trap 'rm -rf -- "$room"' EXIT
    trap 'exit 129' HUP
    trap 'exit 130' INT
    trap 'exit 143' TERM
    chmod 755 "$room"
}

# Prints the pkg-config file. A blank in the prefix is written as the shell has it.
pkg_config() {
    cat <<PC
prefix=$(printf '%s' "$prefix" | sed 's/[^A-Za-z0-9_./+=:@%,-]/\\&/g')
libdir=\${prefix}/lib
includedir=\${prefix}/include

Name: welungad
Description: Graphical multiple tests in exact arithmetic, proved
Version: $release
Libs: -L\${libdir} -lwelungad
Cflags: -I\${includedir}
PC
}

# Puts what the room holds into `files` and `folders`, a path a line, and what an earlier installation has put below the target into
# `old`, where folders end with a slash. No path leads out of the target, whatever the list of that installation says.
list_files() {
    files=$(cd "$room" && find . ! -type d ! -path "./$list" | sed 's,^\./,,' | LC_ALL=C sort)
    folders=$(cd "$room" && find . -type d ! -name . | sed 's,^\./,,' | LC_ALL=C sort)
    old=
    if [ -f "$target/$list" ]; then old=$(sed '\,^\.\./,d; \,/\.\./,d' "$target/$list"); fi
}

# Refuses if a folder can't be written, or if a file is in the way that no installation has put there.
keep_others() {
    while IFS= read -r folder; do
        if [ -d "$target/$folder" ]; then
            [ -w "$target/$folder" ] || refuse "$target/$folder can't be written"
        elif [ -e "$target/$folder" ] || [ -L "$target/$folder" ]; then
            refuse "$target/$folder is not a folder"
        fi
    done <<FOLDERS
$folders
FOLDERS
    while IFS= read -r file; do
        if [ ! -e "$target/$file" ] && [ ! -L "$target/$file" ]; then continue; fi
        printf '%s\n' "$old" | grep -qxF -e "$file" ||
            refuse "$target/$file is there and no installation has put it there: remove it, or choose another PREFIX"
    done <<FILES
$files
FILES
}

# Prints these texts of lines as the list of what is installed.
print_list() {
    printf '%s\n' "$@" | sed '/^$/d' | LC_ALL=C sort -u
}

# Moves the room to its place, which is new.
move_room() {
    print_list ./ "$files" "$(printf '%s\n' "$folders" | sed 's,$,/,')" >"$room/$list"
    mkdir -p -- "$(dirname -- "$target")"
    mv -T -- "$room" "$target"
}

# Prints the folders that a target that is there does not have, each with a slash.
missing_folders() {
    while IFS= read -r folder; do
        if [ ! -d "$target/$folder" ]; then echo "$folder/"; fi
    done <<FOLDERS
$folders
FOLDERS
}

# Makes the folders of `made`, or none of them.
make_folders() {
    while IFS= read -r folder; do
        if [ -n "$folder" ] && ! mkdir -- "$target/$folder"; then
            printf '%s\n' "$made" | LC_ALL=C sort -r | while IFS= read -r folder; do rmdir -- "$target/$folder" 2>/dev/null || true; done
            exit 1
        fi
    done <<FOLDERS
$made
FOLDERS
}

# Moves each file of the room to its place below a target that is there. Until the end the list has the earlier files too, and there
# is no `identity`. Both lists are written to the room first, since a disk can be full.
move_files() {
    made=$(missing_folders)
    print_list "$old" "$files" "$made" >"$room/$list"
    print_list "$(printf '%s\n' "$old" | grep '/$')" "$files" "$made" >"$room/$list.end"
    make_folders
    mv -fT -- "$room/$list" "$target/$list"
    rm -f -- "$target/$identity"
    while IFS= read -r file; do
        if [ "$file" != "$identity" ]; then mv -fT -- "$room/$file" "$target/$file"; fi
    done <<FILES
$files
FILES
    remove_old
    mv -fT -- "$room/$list.end" "$target/$list"
    mv -fT -- "$room/$identity" "$target/$identity"
}

# Removes the files of the earlier installation that are not in this one, and its folders that are empty then.
remove_old() {
    printf '%s\n' "$old" | grep -v -e '/$' -e '^$' | grep -vxF -e "$files" | while IFS= read -r file; do
        rm -f -- "$target/$file"
    done
    printf '%s\n' "$old" | sed -n 's,\([^.]\)/$,\1,p' | LC_ALL=C sort -r | while IFS= read -r folder; do
        case $folder in share/welungad/*) rm -rf -- "$target/$folder/__pycache__" ;; esac
        rmdir -- "$target/$folder" 2>/dev/null || true
    done
}

# Moves what the room holds to its place, or refuses and leaves everything as it was.
place_files() {
    list_files
    keep_others
    trap '' HUP INT TERM
    if [ -d "$target" ]; then move_files; else move_room; fi
}
