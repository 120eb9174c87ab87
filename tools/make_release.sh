#!/usr/bin/env bash
# Makes the release archive furzewrench-VERSION.tar.gz in target/release, or FOLDER, and says its sha256.
#
#     tools/make_release.sh [--dirty] [FOLDER]
#
# VERSION is the one of bindings/furzewrench/Cargo.toml. The same commit and library give the same bytes. It
# refuses a tree with uncommitted changes and a changelog with unreleased entries; with --dirty it makes the
# archive all the same, and the archive's name ends in -dirty. It builds the library first, unless LIBDOORS
# names one, which has to be of the same commit: nothing here can tell. Needs git, GNU tar, gzip, sha256sum,
# and rt where LIBDOORS names nothing.
set -euo pipefail
export LC_ALL=C

# What the archive has of the repository: all files that git knows at a path, and their place in the archive.
contents() {
    known_files include/furzewrench.h include/furzewrench.h
    known_files bindings/furzewrench rust/furzewrench
    known_files examples examples
    known_files docs/SPECIFICATION.md docs/SPECIFICATION.md
    known_files docs/TRUST.md docs/TRUST.md
    known_files CHANGELOG.md CHANGELOG.md
    known_files NOTICE NOTICE
}

main() {
    arguments "$@"
    cd "$(dirname "${BASH_SOURCE[0]}")/.."
    commit=$(git rev-parse --verify HEAD 2> /dev/null) || fail "the tree is no git repository with a commit"
    version=$(crate_version)
    check_changelog
    why=$(no_release)
    [ -z "$why" ] || [ -n "$dirty" ] || fail "$why; --dirty makes the archive all the same"
    name=furzewrench-$version${why:+-dirty}

    work=$(mktemp -d)
    trap 'rm -rf "$work"' EXIT
    stage=$work/$name
    mkdir "$stage"
    contents
    library
    readme
    sums
    pack "${folder:-$PWD/target/release}"
}

fail() {
    echo "make_release: $*" >&2
    exit 1
}

# The caller's paths are from where the caller stands.
arguments() {
    dirty='' folder=''
    for word in "$@"; do
        case $word in
        --dirty) dirty=yes ;;
        -*) fail "usage: tools/make_release.sh [--dirty] [FOLDER]" ;;
        *) folder=$(realpath -m "$word") ;;
        esac
    done
    for tool in git tar gzip sha256sum; do command -v "$tool" > /dev/null || fail "no $tool"; done
    if [ -n "${LIBDOORS:-}" ]; then LIBDOORS=$(realpath -m "$LIBDOORS"); fi
}

crate_version() {
    local manifest=bindings/furzewrench/Cargo.toml found
    [ -f "$manifest" ] || fail "there is no $manifest"
    found=$(awk -F '"' '/^\[/ { mine = /^\[package\]/ } mine && /^version *=/ { print $2; exit }' "$manifest")
    [ -n "$found" ] || fail "$manifest has no version"
    echo "$found"
}

check_changelog() {
    local newest
    [ -f CHANGELOG.md ] || fail "there is no CHANGELOG.md"
    newest=$(awk '/^## [0-9]/ { print $2; exit }' CHANGELOG.md)
    [ "$newest" = "$version" ] \
        || fail "the newest version of CHANGELOG.md is ${newest:-missing}, that of the crate $version"
}

# Prints why this is no release; nothing where it can be one.
no_release() {
    if [ -n "$(git status --porcelain)" ]; then
        echo "the tree has uncommitted changes"
    elif awk '/^## / { open = /Unreleased/; next } open && NF { n++ } END { exit !n }' CHANGELOG.md; then
        echo "CHANGELOG.md has unreleased entries"
    fi
}

known_files() { # PATH PLACE
    local files file to
    mapfile -d '' files < <(git ls-files -z -- "$1")
    [ ${#files[@]} -gt 0 ] || fail "git knows no $1"
    for file in "${files[@]}"; do
        [ -f "$file" ] || fail "there is no $file, which git knows"
        to=$stage/$2${file#"$1"}
        mkdir -p "$(dirname "$to")"
        cp "$file" "$to"
    done
}

library() {
    if [ -z "${LIBDOORS:-}" ]; then
        command -v rt > /dev/null || fail "no rt to build the library with, and LIBDOORS names none"
        tools/build.sh doors > /dev/null || fail "tools/build.sh doors failed, see target/doors.log"
    fi
    local built=${LIBDOORS:-target/staticlib/libdoors.a}
    [ -f "$built" ] || fail "there is no library $built"
    [ "$(head -c 7 "$built" | tr -d '\0')" = '!<arch>' ] || fail "$built is no static library"
    mkdir "$stage/lib"
    cp "$built" "$stage/lib/libdoors.a"
    chmod 644 "$stage/lib/libdoors.a"
}

readme() {
    local from=tools/archive_README.md
    [ -f "$from" ] || fail "there is no $from"
    sed "s/@VERSION@/$version/g; s/@COMMIT@/$commit${why:+; but $why}/g" "$from" > "$stage/README.md"
}

sums() {
    (cd "$stage" && find . -type f -printf '%P\n' | sort | xargs -d '\n' sha256sum) > "$work/sums"
    cp "$work/sums" "$stage/SHA256SUMS"
}

# Names in order, the commit's time, no owner, the two modes that git knows: nothing of the machine gets in.
pack() { # FOLDER
    local archive=$1/$name.tar.gz time
    time=$(git log -1 --format=%ct)
    tar --sort=name --format=ustar --owner=0 --group=0 --numeric-owner --mode=u=rwX,go=rX --mtime="@$time" \
        -C "$work" -cf - "$name" | gzip -9n > "$work/packed"
    mkdir -p "$1"
    cp "$work/packed" "$archive"
    echo "$archive: $(find "$stage" -type f | wc -l) files, $(stat -c %s "$archive") bytes"
    (cd "$1" && sha256sum "$name.tar.gz" | tee "$name.tar.gz.sha256")
}

main "$@"
