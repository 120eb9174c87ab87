#!/usr/bin/env bash
# Makes the release archive and tests it as a receiver has it; prints one line at the end.
#
# The archive is made twice, the second time under another umask and time zone, and in a clone where nothing
# is uncommitted here; the bytes are compared. Unpacked in a folder with a space in its name: the sums hold,
# the C examples compile against the archive alone and write what is stored beside them, the crate's tests
# pass with the archive's library, and no file has a path of this machine. The version stands in the crate,
# the changelog and the lock files alone, and is the same in each. What tools/make_release.sh has to refuse
# is refused. Builds the library first, unless LIBDOORS names one. Needs git, GNU tar, gzip, sha256sum,
# strings, gcc and cargo (nothing is fetched), on x86-64, and rt where LIBDOORS names nothing; it is not part
# of the gate.
set -euo pipefail
export LC_ALL=C
if [ -n "${LIBDOORS:-}" ]; then LIBDOORS=$(realpath -m "$LIBDOORS"); fi
cd "$(dirname "${BASH_SOURCE[0]}")/.."
root=$PWD

main() {
    work=$(mktemp -d)
    trap 'rm -rf "$work"' EXIT
    library
    versions
    make_twice
    unpack
    paths
    examples
    crate
    refusals
    echo "$name.tar.gz: $files files, the same bytes $twice; C examples run: $ran;" \
        "tests of the crate passed: $passed; refusals as they should be: $refused"
}

fail() {
    echo "run_release: $*" >&2
    exit 1
}

library() {
    if [ -z "${LIBDOORS:-}" ]; then tools/build.sh doors > /dev/null; fi
    export LIBDOORS=${LIBDOORS:-$root/target/staticlib/libdoors.a}
}

# The version is read here by other means than in tools/make_release.sh, so that neither stands for the other.
versions() {
    local newest lock others
    version=$(sed -n 's/^version = "\(.*\)"$/\1/p' bindings/furzewrench/Cargo.toml)
    newest=$(grep -m 1 '^## [0-9]' CHANGELOG.md | sed 's/^## //') || fail "CHANGELOG.md has no version"
    [ "$newest" = "$version" ] || fail "the changelog's newest version is $newest, the crate's $version"
    for lock in bindings/furzewrench/Cargo.lock harness/Cargo.lock; do
        grep -A 1 '^name = "furzewrench"$' "$lock" | grep -qxF "version = \"$version\"" \
            || fail "$lock has another version than the crate's, $version"
    done
    if others=$(git grep -lwF "$version" -- . ':!CHANGELOG.md' ':!*/Cargo.lock' \
        ':!bindings/furzewrench/Cargo.toml'); then
        fail "the version, $version, is also written in ${others//$'\n'/, }"
    fi
}

make_twice() {
    local place=$root
    twice="twice"
    clone=$work/clone
    (umask 077 && git clone --quiet . "$clone")
    if [ -z "$(git status --porcelain)" ]; then
        place=$clone
        twice="here and in a clone"
    fi
    tools/make_release.sh --dirty "$work/first" > "$work/said" || fail "tools/make_release.sh failed"
    (umask 077 && cd / && TZ=Asia/Tokyo "$place/tools/make_release.sh" --dirty "$work/second" > /dev/null)
    archive=$(echo "$work"/first/*.tar.gz)
    name=$(basename "$archive" .tar.gz)
    [ "${name%-dirty}" = "furzewrench-$version" ] || fail "the archive's name is $name"
    cmp "$archive" "$work/second/$name.tar.gz" || fail "two archives of one tree differ"
    [ "$(tail -n 1 "$work/said")" = "$(cd "$work/first" && sha256sum "$name.tar.gz")" ] \
        || fail "the last line of tools/make_release.sh is not the archive's sha256"
}

unpack() {
    local unsummed
    mkdir "$work/a receiver"
    tar -C "$work/a receiver" -xzf "$archive"
    top="$work/a receiver/$name"
    cd "$top"
    sha256sum --check --strict --quiet SHA256SUMS || fail "a sum of SHA256SUMS does not hold"
    unsummed=$(comm -3 <(find . -type f ! -path ./SHA256SUMS -printf '%P\n' | sort) \
        <(sed 's/^[0-9a-f]*  //' SHA256SUMS | sort))
    [ -z "$unsummed" ] || fail "SHA256SUMS is not over all files: $unsummed"
    files=$(find . -type f | wc -l)
    cmp lib/libdoors.a "$LIBDOORS" || fail "the archive has another library"
    ! grep -n '@[A-Z]*@' README.md || fail "a place of README.md is not filled in"
}

# The folders of the repository, this test, the user and the toolchain; in the library, every full path.
paths() {
    local folder kit='' found
    if command -v rt > /dev/null; then kit=$(dirname "$(dirname "$(readlink -f "$(command -v rt)")")"); fi
    for folder in "$root" "$work" "${HOME%/}/" "$kit"; do
        [ "${#folder}" -gt 1 ] || continue
        if found=$(grep -rlaF -e "$folder" .); then fail "$folder is named in ${found//$'\n'/, }"; fi
    done
    if found=$(strings -a lib/libdoors.a | grep -E '/[[:alnum:]_.-]{2,}/[[:alnum:]_.-]{2,}'); then
        fail "the library has paths: $found"
    fi
}

examples() {
    local source stored
    ran=0
    for source in examples/*.c; do
        [ -f "$source" ] || fail "the archive has no example in C"
        stored=${source%.c}.out
        [ -f "$stored" ] || fail "there is no $stored, what $source has to write"
        gcc -std=c11 -Wall -Wextra -Werror -pedantic -Iinclude "$source" lib/libdoors.a -o "$work/example" \
            || fail "$source does not compile"
        "$work/example" > "$work/example.out" || fail "$source exits with $?"
        cmp "$work/example.out" "$stored" || fail "$source writes something else than is stored"
        ran=$((ran + 1))
    done
}

# The library is found by its place in the archive alone.
crate() {
    local log=$work/cargo.log
    (cd rust/furzewrench && unset FURZEWRENCH_LIB_DIR CARGO_TARGET_DIR \
        && RUSTFLAGS='-D warnings' cargo test --offline --locked --quiet) > "$log" 2>&1 \
        || { cat "$log"; fail "the crate's tests fail in the archive"; }
    passed=$(awk '/^test result: ok/ { n += $4 } END { print n + 0 }' "$log")
    [ "$passed" -gt 0 ] || fail "no test of the crate ran"
    sha256sum --check --strict --quiet SHA256SUMS || fail "a use of the archive changes its files"
}

# Each with one line that says why, and without an archive. The clone takes the files as they stand here.
refusals() {
    refused=0
    cd "$root"
    git ls-files -z | xargs -0 cp --parents -t "$clone"
    cd "$clone"
    git config user.name release && git config user.email release
    commit
    echo >> NOTICE
    refuses "the tree has uncommitted changes"
    tools/make_release.sh --dirty "$work/dirty" > /dev/null || fail "--dirty does not make an archive"
    [ -f "$work/dirty/furzewrench-$version-dirty.tar.gz" ] || fail "a dirty archive's name does not say so"
    sed -i "s/^## $version/## Unreleased\n\n- A change.\n\n&/" CHANGELOG.md
    commit
    refuses "CHANGELOG.md has unreleased entries"
    LIBDOORS=nowhere.a refuses "there is no library" --dirty
    LIBDOORS=NOTICE refuses "is no static library" --dirty
    refuses "usage:" --other
    git rm --quiet include/furzewrench.h
    refuses "git knows no include/furzewrench.h" --dirty
    sed -i "s/^## $version/## $version.1/" CHANGELOG.md
    refuses "the newest version of CHANGELOG.md is $version.1, that of the crate $version" --dirty
}

commit() {
    git add --all && git commit --quiet --allow-empty --message "for the test"
}

refuses() { # WORDS ARGUMENT..
    local words=$1 said
    shift
    if said=$(tools/make_release.sh "$@" "$work/refused" 2>&1); then fail "no refusal: $words"; fi
    [[ $said == "make_release: "*"$words"* && $said != *$'\n'* ]] || fail "instead of '$words' it says: $said"
    [ ! -e "$work/refused" ] || fail "an archive in spite of: $words"
    refused=$((refused + 1))
}

main
