#!/usr/bin/env bash
# Prints where format.rs is: the file that FORMAT_RS names, else the one at its usual place. Where there is
# none, one line says what is missing, with status 1. All that need format.rs ask here: the scripts, and by
# format_rs.rs the builds.
file=${FORMAT_RS:-$(dirname "${BASH_SOURCE[0]}")/../../shared/docs/src/crates/rl-tooling/src/format.rs}
if [ ! -f "$file" ]; then
    echo "no format.rs at $(realpath -m "$file"): FORMAT_RS names it; it is" \
        "crates/rl-tooling/src/format.rs of rl-lang/rl-lang at commit 7f8bdf9ecc" >&2
    exit 1
fi
realpath "$file"
