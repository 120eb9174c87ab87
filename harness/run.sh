#!/usr/bin/env bash
# Builds the harness and runs it beside the Rust.
set -e
usage() {
    cat <<'END'
harness/run.sh                compares everything
harness/run.sh STEP           compares one in STEP of the cases, without the 4 GiB bounds, for development
harness/run.sh bounds         compares at the 4 GiB bounds alone
harness/run.sh bench [SAMPLES [usual]]
                              the benchmark's tables, as Markdown, of 15 samples or so many; with `usual`
                              without the hostile lists
harness/run.sh pairs SAMPLES  the lists of two kinds in turns on which ours is slower, as Markdown
harness/run.sh calls rust|ours INPUT TIMES
                              lays out one of the benchmark's usual inputs, counted from 1, so many times,
                              for a tool that counts
harness/run.sh help           this text

FORMAT_RS names format.rs: crates/rl-tooling/src/format.rs of rl-lang/rl-lang at commit 7f8bdf9ecc.
LIBDOORS names a libdoors.a; without it `tools/build.sh doors` makes one.
END
}
n='[1-9][0-9]{0,8}'
case "$*" in help | -h | --help) usage; exit 0 ;; esac
if ! [[ "$*" =~ ^($n|bounds|bench( $n( usual)?)?|pairs $n|calls (rust|ours) $n $n)?$ ]]; then
    usage >&2
    exit 2
fi
# shellcheck source=harness/prepare.sh
source "$(dirname "${BASH_SOURCE[0]}")/prepare.sh"
exec cargo run --release --offline --quiet -p compare -- "$@"
