# shellcheck shell=sh disable=SC2154
# What a build was made from: the functions that ./welungad, ./install, c/build.sh and .ci/run share.
#
# A script sources this file once it has set `top`, the folder of the checkout, and `script`, its name in messages. It may set
# `refused`, the status with which it refuses. No function writes a file.
#
# A stamp is a file of lines: `built` with the sources, `commit`, `kit`, and `sha256 NAME HEX` for each built file. The sources
# are their names in git, or one checksum over them if git has none; `edited` if some were not committed.

# The sources of the program, and those of the C library.
# shellcheck disable=SC2034 # the scripts use them
program_sources='crates crates.txt'
# shellcheck disable=SC2034
gate_sources="crates crates.txt HANDLES"
# shellcheck disable=SC2034
library_sources='crates crates.txt VERSION c/build.sh c/calls.c c/proved.names c/welungad.h c/welungad.map'

# Ends the script with one line.
refuse() {
    echo "$script: $1" >&2
    exit "${refused:-1}"
}

# Prints the SHA-256 of a file.
checksum() {
    sha256sum <"$1" | cut -d ' ' -f 1
}

# Prints one SHA-256 over the names and the bytes of all files at these paths, but for what is built there.
checksum_of_files() {
    (cd "$top" && find "$@" -name out -prune -o -type f -print0 | LC_ALL=C sort -z | xargs -0 sha256sum) | sha256sum | cut -d ' ' -f 1
}

# Runs git in the checkout. It writes nothing there, and takes no repository from the environment, where a hook puts one.
in_git() {
    (
        unset GIT_DIR GIT_COMMON_DIR GIT_WORK_TREE GIT_INDEX_FILE GIT_OBJECT_DIRECTORY GIT_PREFIX
        LC_ALL=C git --no-optional-locks -C "$top" "$@"
    )
}

# Whether the checkout is in a repository. Refuses if git is there and doesn't say.
is_in_git() {
    command -v git >/dev/null || return 1
    said=$(in_git rev-parse --git-dir 2>&1) && return
    case $said in
    *'not a git repository'*) return 1 ;;
    *'dubious ownership'*)
        refuse "git refuses to read $top, which another user owns: run git config --global --add safe.directory '$top'"
        ;;
    *) refuse "git cannot read $top: $(echo "$said" | head -n 1)" ;;
    esac
}

# Prints the names that the last commit has for these paths. Fails if it doesn't have them: the checkout may be a copy that lies
# in another repository.
names_in_git() {
    names=
    for path in "$@"; do
        name=$(in_git rev-parse --verify --quiet "HEAD:./$path") || return
        names="$names $name"
    done
    echo "${names# }"
}

# Prints what the sources at these paths are: `edited` if git has them and one isn't committed, else as in a stamp.
sources() {
    if is_in_git && names=$(names_in_git "$@"); then
        changes=$(in_git status --porcelain --untracked-files=normal -- "$@") || refuse "git cannot say what is edited in $top"
        if [ -n "$changes" ]; then echo edited; else echo "$names"; fi
    else
        echo "files-$(checksum_of_files "$@")"
    fi
}

# Prints the same, but takes edited sources for those of the commit.
trees() {
    if ! is_in_git || ! names_in_git "$@"; then echo "files-$(checksum_of_files "$@")"; fi
}

# Prints a stamp. The arguments are the sources as they were before the build and as they are after it, and the built files.
stamp_of() {
    built=$1
    [ "$1" = "$2" ] || built=edited
    shift 2
    commit=unknown
    case $built in
    files-*) ;;
    *) commit=$(in_git rev-parse --verify --quiet HEAD) || commit=unknown ;;
    esac
    printf 'built %s\ncommit %s\nkit %s\n' "$built" "$commit" "$(rt version)"
    for file in "$@"; do
        echo "sha256 ${file##*/} $(checksum "$file")"
    done
}

# Prints what follows a word in a stamp.
stamped() {
    sed -n "s/^$2 //p" "$1"
}

# Prints why built files are not those of a stamp and of these sources, or nothing if they are. The arguments are the stamp, the
# sources, and the files.
finding() {
    stamp=$1
    wanted=$2
    shift 2
    if [ ! -r "$stamp" ]; then
        echo "there is no stamp beside it"
        return
    fi
    case $(stamped "$stamp" built) in
    "$wanted") ;;
    edited) echo "it was built from sources that were edited and not committed" ;;
    *) echo "it was built from other sources than those of this commit" ;;
    esac
    for file in "$@"; do
        if [ ! -r "$file" ]; then
            echo "${file##*/} is missing"
            continue
        fi
        found=$(checksum "$file")
        if [ -z "$found" ]; then
            echo "${file##*/} has no checksum, since sha256sum says none"
        elif [ "$(stamped "$stamp" "sha256 ${file##*/}")" != "$found" ]; then
            echo "${file##*/} is not the file that was built"
        fi
    done
}
