#!/usr/bin/env bash
# Proves and builds what is used outside the gate, and puts it where the tests, the harness and the Rust crate
# look for it. What is proved is not proved again. Needs rt, on x86-64.
#
#     tools/build.sh doors     the static library of the C doors, target/staticlib/libdoors.a
#     tools/build.sh layout    the program, target/bin/layout, once it writes what is stored for its sheet
set -euo pipefail
cd "$(dirname "${BASH_SOURCE[0]}")/.."
target=$PWD/target

fail() {
    cat "$target/$1.log" >&2
    echo "build: $2" >&2
    exit 1
}

case "$*" in
doors)
    mkdir -p "$target/staticlib"
    (cd crates/doors && rt lib) > "$target/doors.log" 2>&1 \
        || fail doors "the doors are not proved, or not built"
    built=$target/staticlib/libdoors.a
    cp crates/doors/out/libdoors.a "$built"
    ;;
layout)
    mkdir -p "$target/bin"
    {
        (cd crates/layout && rt run < stdin) | cmp - crates/layout/stdout
    } 2> "$target/layout.log" \
        || fail layout "the program is not proved, or does not write crates/layout/stdout"
    built=$target/bin/layout
    cp crates/layout/out/layout "$built"
    ;;
*)
    sed -n '2,6s/^# \{0,1\}//p' "${BASH_SOURCE[0]}"
    exit 2
    ;;
esac
echo "${built#"$PWD/"} has $(stat -c %s "$built") bytes"
