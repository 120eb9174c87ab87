#!/usr/bin/env bash
# Counts instructions: valgrind's callgrind counts a run with two samples and one with one, and the difference
# is taken.
set -e
usage() {
    echo "harness/count.sh         instructions a token, the Rust's and ours, as Markdown; needs valgrind"
    echo "harness/count.sh help    this text; FORMAT_RS and LIBDOORS are those of harness/run.sh"
}
case "$*" in
'') ;;
help | -h | --help) usage; exit 0 ;;
*) usage >&2; exit 2 ;;
esac
command -v valgrind > /dev/null || { echo "no valgrind" >&2; exit 1; }
# shellcheck source=harness/prepare.sh
source "$(dirname "${BASH_SOURCE[0]}")/prepare.sh"
cargo build --release --offline --quiet -p compare
program=${CARGO_TARGET_DIR:-target}/release/compare

count() { # SIDE INPUT TIMES
    valgrind --tool=callgrind --callgrind-out-file=/dev/null "$program" calls "$@" 2>&1 > /dev/null |
        sed -n 's/.*Collected : //p'
}

echo "| input | Rust | ours | ours / Rust |"
echo "|---|---|---|---|"
for input in 1 2 3 4 5 6 7 8 9 10; do
    read -r tokens name < <("$program" calls ours "$input" 1)
    rust=$(($(count rust "$input" 2) - $(count rust "$input" 1)))
    ours=$(($(count ours "$input" 2) - $(count ours "$input" 1)))
    echo "| $name | $((rust / tokens)) | $((ours / tokens)) | $((100 * ours / rust)) % |"
done
