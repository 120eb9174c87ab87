#!/usr/bin/env bash
# What README.md shows works as written: its sketches for C and Rust compile against the static library of the
# doors and write the text that they name, and the program's answer is the stored one. Builds the library
# first, unless LIBDOORS names one. Needs rt, gcc and cargo, on x86-64; it is not part of the gate.
set -euo pipefail
if [ -n "${LIBDOORS:-}" ]; then LIBDOORS=$(realpath -m "$LIBDOORS"); fi
cd "$(dirname "${BASH_SOURCE[0]}")/.."
root=$PWD
work=$root/target/readme
rm -rf "$work" && mkdir -p "$work/src"
if [ -z "${LIBDOORS:-}" ]; then tools/build.sh doors > /dev/null; fi
library=${LIBDOORS:-$root/target/staticlib/libdoors.a}

# The one block of a language.
sketch() { # LANGUAGE
    awk -v fence="\`\`\`$1" '$0 == "```" { on = 0 } on { print } $0 == fence { on = 1 }' README.md
}

writes() { # TEXT COMMAND..
    local text=$1
    shift
    if [ "$("$@")" != "$text" ]; then
        echo "README.md: a sketch does not write '$text'"
        exit 1
    fi
}

in_c() {
    { printf '#include "furzewrench.h"\n#include <stdio.h>\nint main(void)\n{\n'; sketch c; echo '}'; } > "$work/sketch.c"
    gcc -std=c11 -Wall -Wextra -Werror -pedantic -Iinclude "$work/sketch.c" "$library" -o "$work/sketch"
    writes 'stop;' "$work/sketch"
}

in_rust() {
    {
        echo 'fn main() -> Result<(), furzewrench::Refusal> {'
        sketch rust
        echo 'print!("{}", String::from_utf8_lossy(&out[..read.layout.length]));'
        echo 'Ok(())'
        echo '}'
    } > "$work/src/main.rs"
    cat > "$work/Cargo.toml" <<END
[package]
name = "sketch"
version = "0.0.0"
edition = "2021"
[dependencies]
furzewrench = { path = "$root/bindings/furzewrench" }
[workspace]
END
    cd "$work"
    FURZEWRENCH_LIB_DIR=$(dirname "$library") RUSTFLAGS='-D warnings' writes 'stop;' cargo run --offline --quiet
}

# The lines after the command that runs the program, without their indent.
the_program() {
    awk '/^    \$ target\/bin\/layout/ { on = 1; next } on && !/^    / { exit } on' README.md | sed 's/^    //' \
        > "$work/answer"
    if [ "$(cat "$work/answer")" != "$(cat crates/layout/stdout)" ]; then
        echo "README.md: the program's answer is not the stored one"
        exit 1
    fi
}

the_program
in_c
(in_rust)
echo "README.md: the program's answer is the stored one, and 2 sketches write what they should"
