#!/usr/bin/env bash
# Builds the static library of the doors from nothing at another path, and compares the bytes.
#
#     tests/reproducible.sh         this tree's library, and that of a clone of HEAD
#     tests/reproducible.sh two     the libraries of two clones of HEAD, at paths of different lengths
#
# In each clone the library is then built once more at the same path. Where bytes differ, it says in what the
# libraries differ: members, times, sections, symbols, paths. This tree's library is the one that LIBDOORS
# names, which has to be of this commit's crates; else it is built. All crates of a clone are checked and built
# anew, which takes many minutes. Needs rt, git and binutils; it is not part of the gate.
set -euo pipefail
export LC_ALL=C
if [ -n "${LIBDOORS:-}" ]; then LIBDOORS=$(realpath -m "$LIBDOORS"); fi
cd "$(dirname "${BASH_SOURCE[0]}")/.."
root=$PWD

main() {
    case ${1:-} in '' | two) ;; *) sed -n '2,11s/^# \{0,1\}//p' "${BASH_SOURCE[0]}"; exit 2 ;; esac
    work=$(mktemp -d)
    trap 'rm -rf "$work"' EXIT
    cloned_library "$work/one"
    if [ "${1:-}" = two ]; then
        other="$work/another-clone-at-a-path-of-another-length"
        cloned_library "$other"
        same "$work/one.a" "$other.a"
        said="two clones at different paths"
    else
        this_library
        same "$this" "$work/one.a"
        said="this tree and a clone at another path"
    fi
    echo "libdoors.a has the same $(stat -c %s "$work/one.a") bytes of $said," \
        "each clone built twice: sha256 $(sha256sum < "$work/one.a" | cut -d ' ' -f 1)"
}

fail() {
    echo "reproducible: $*" >&2
    exit 1
}

# Kept as FOLDER.a; then built once more, with the crates as they are proved. rt takes from other checkouts on
# this machine what they built of the same text, so a comment makes the clone's text its own.
cloned_library() { # FOLDER
    local built=$1/target/staticlib/libdoors.a
    git clone --quiet . "$1"
    echo "// $1" >> "$1/crates/shared/src/lib.rt"
    build "$1"
    cp "$built" "$1.a"
    rm "$built" "$1/crates/doors/out/libdoors.a"
    build "$1"
    same "$1.a" "$built"
}

this_library() {
    this=${LIBDOORS:-$root/target/staticlib/libdoors.a}
    [ -z "$(git status --porcelain -- crates crates.txt)" ] || fail "the crates have uncommitted changes"
    [ -n "${LIBDOORS:-}" ] || build "$root"
    [ -f "$this" ] || fail "there is no library $this"
}

build() { # FOLDER
    "$1/tools/build.sh" doors > "$work/log" 2>&1 || { cat "$work/log"; fail "no library in $1"; }
}

same() { # LIBRARY LIBRARY
    cmp "$1" "$2" && return
    differences "$1" "$2"
    fail "the libraries differ"
}

# Each comparison prints nothing where the two agree.
differences() { # LIBRARY LIBRARY
    compared "members: name, time, owner, group, mode, size" "$1" "$2" member_headers
    compared "sections" "$1" "$2" readelf --wide --sections
    compared "symbols" "$1" "$2" nm
    compared "code" "$1" "$2" objdump --disassemble --reloc
    compared "bytes of sections" "$1" "$2" objdump --full-contents
    for library in "$1" "$2"; do
        echo "== paths in $library:"
        strings -a "$library" | grep -E '/[[:alnum:]_.-]{2,}/[[:alnum:]_.-]{2,}' || echo none
    done
}

member_headers() { # LIBRARY
    strings -a "$1" | grep '`$'
}

# The command's output has the library's name, which is taken out; of many lines the first 20 are enough.
compared() { # WHAT LIBRARY LIBRARY COMMAND..
    local what=$1 first=$2 second=$3
    shift 3
    echo "== $what:"
    "$@" "$first" | sed "s|$first||" > "$work/first"
    "$@" "$second" | sed "s|$second||" > "$work/second"
    diff "$work/first" "$work/second" > "$work/diff" && echo the same
    head -n 20 "$work/diff"
}

main "$@"
