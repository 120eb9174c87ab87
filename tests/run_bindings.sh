#!/usr/bin/env bash
# Runs the tests of the Rust crate over the C doors, the examples of its documentation too; looks at the
# crate's form, its documentation, the example lexer's stored outputs and how its build script finds the
# library; and prints how many tests passed. Builds the static library first, unless LIBDOORS names one, a
# libdoors.a. Needs rt and cargo, on x86-64; it is not part of the gate.
set -e -o pipefail
cd "$(dirname "${BASH_SOURCE[0]}")/.."
mkdir -p target
target=$PWD/target
log=$target/bindings.log
if [ -z "${LIBDOORS:-}" ]; then tools/build.sh doors > /dev/null; fi
folder=$(cd "$(dirname "${LIBDOORS:-target/staticlib/libdoors.a}")" && pwd)
cd bindings/furzewrench
unset FURZEWRENCH_LIB_DIR

fail() {
    echo "$1"
    exit 1
}

# quietly COMMAND..: runs it, and shows what it said where it fails.
quietly() {
    "$@" > "$log" 2>&1 || { cat "$log"; exit 1; }
}

# says FOLDER TEXT: with FURZEWRENCH_LIB_DIR=FOLDER the build fails and says TEXT.
says() {
    if FURZEWRENCH_LIB_DIR=$1 cargo build --offline --quiet > "$log" 2>&1; then
        fail "with FURZEWRENCH_LIB_DIR=$1 the crate builds"
    fi
    grep --quiet --fixed-strings "$2" "$log" || fail "with FURZEWRENCH_LIB_DIR=$1 the build does not say: $2"
}

# A copy of the crate where a release archive has it, and no variable set.
in_an_archive() {
    local archive=$target/archive
    rm -rf "$archive"
    mkdir -p "$archive/lib" "$archive/rust/furzewrench"
    cp -r Cargo.toml Cargo.lock build.rs src examples "$archive/rust/furzewrench"
    cd "$archive/rust/furzewrench"
    if cargo build --offline --quiet > "$log" 2>&1; then
        fail 'the crate builds where no library is'
    fi
    grep --quiet 'there is no .*/target/staticlib/libdoors.a and no .*/lib/libdoors.a. Run `tools/build.sh' "$log" ||
        fail 'where no library is, the build does not name its two places'
    cp "$folder/libdoors.a" "$archive/lib"
    quietly cargo test --offline --quiet --lib
}

says /nowhere 'there is no /nowhere/libdoors.a. Run `tools/build.sh doors`'
says nowhere 'name the folder by an absolute path'
if cargo fmt --version > /dev/null 2>&1; then
    quietly cargo fmt --check
fi
export RUSTFLAGS='-D warnings' RUSTDOCFLAGS='-D warnings'
(in_an_archive)
export FURZEWRENCH_LIB_DIR=$folder
quietly cargo doc --offline --quiet --no-deps
cargo run --offline --quiet --example lexer -- examples/sample.rl | diff - examples/sample.out
cargo run --offline --quiet --example lexer < examples/commented.rl | diff - examples/commented.out
quietly cargo test --offline --quiet
awk '/^test result: ok/ { n += $4 } END { print n " tests of the Rust crate passed" }' "$log"
