#!/usr/bin/env bash
# Runs everything that is outside the gate. At the end stands a table: what ran, how long and with which
# counts, what failed, and what could not be run and why. The exit status is 1 if a part ran and failed.
#
#     tests/run_all.sh          a short form: one in 20 of the harness's cases, 250 lists for each script
#     tests/run_all.sh whole    everything: the instructions a token too, and the library built at another path
#
# The whole of it needs x86-64, python3, rt, gcc, g++, nm, strings, git, cargo (nothing is fetched), valgrind,
# and
#   - format.rs, which FORMAT_RS names unless it is where harness/find_format.sh looks for it;
#   - the crates proved, by `rt check`: else the parts `library` and `program` prove them, which takes many
#     minutes;
#   - what the gate printed, in a file that GATE_LOG names.
# What a part prints is kept under target/run_all/.
if [ -n "${FORMAT_RS:-}" ]; then FORMAT_RS=$(realpath -m "$FORMAT_RS"); fi
if [ -n "${GATE_LOG:-}" ]; then GATE_LOG=$(realpath -m "$GATE_LOG"); fi
cd "$(dirname "${BASH_SOURCE[0]}")/.." || exit 1
whole=${1:-}
case $whole in '' | whole) ;; *) sed -n '2,15s/^# \{0,1\}//p' "${BASH_SOURCE[0]}"; exit 2 ;; esac
logs=target/run_all
rm -rf "$logs" && mkdir -p "$logs"
rows=() failed=0

# Prints why a part cannot be run: the first of its needs that is not there.
missing() { # NEED..
    for need in "$@"; do
        case $need in
        x86-64) [ "$(uname -m)" = x86_64 ] || { echo "not on x86-64"; return; } ;;
        library) [ -f "$logs/library.ok" ] || { echo "no static library of the doors"; return; } ;;
        format.rs) harness/find_format.sh > /dev/null 2>&1 || { echo "no format.rs: harness/run.sh help"; return; } ;;
        program) [ -f "$logs/program.ok" ] || { echo "no program"; return; } ;;
        gate-log) [ -f "${GATE_LOG:-}" ] || { echo "no output of the gate: GATE_LOG names it"; return; } ;;
        whole) [ "$whole" = whole ] || { echo "only by: tests/run_all.sh whole"; return; } ;;
        *) command -v "$need" > /dev/null || { echo "no $need"; return; } ;;
        esac
    done
}

# Instructions a token; the last line says how far the ratios reach.
# shellcheck disable=SC2317
count() {
    harness/count.sh | awk -F '|' '{ print }
        $5 + 0 { n++; r = $5 + 0; if (!low || r < low) low = r; if (r > high) high = r }
        END { print n " inputs: ours takes " low " to " high " % of the instructions of the Rust" }'
}

# Runs a command if its needs are there, and notes its last line.
part() { # NAME 'NEEDS' COMMAND..
    local name=$1 why began=$SECONDS said
    # shellcheck disable=SC2086
    why=$(missing $2)
    shift 2
    if [ -n "$why" ]; then
        rows+=("$name | not run | | $why")
        return
    fi
    echo "== $name: $*"
    if "$@" > "$logs/$name.log" 2>&1; then
        touch "$logs/$name.ok"
        said=$(grep -v '^ *$' "$logs/$name.log" | tail -n 1)
        rows+=("$name | ok | $((SECONDS - began)) s | $said")
        echo "$said"
    else
        failed=1
        rows+=("$name | FAILED | $((SECONDS - began)) s | see $logs/$name.log")
        tail -n 20 "$logs/$name.log"
    fi
}

if [ "$whole" = whole ]; then
    cases=() lists=(1000 1) texts=(2000 5) walks=(300000 7)
else
    cases=(20) lists=(250 1) texts=(250 5) walks=(20000 1)
fi
export PYTHONDONTWRITEBYTECODE=1
set -o pipefail

echo "What the parts need:"
for need in x86-64 python3 rt gcc g++ nm strings git cargo valgrind format.rs gate-log; do
    why=$(missing "$need")
    echo "  $need: ${why:-there}"
done
part find_dead 'python3' python3 tests/find_dead.py
part lines_to_believe 'python3' python3 tests/lines_to_believe.py
part check_docs 'python3' python3 tests/check_docs.py
part check_trust 'python3 rt' python3 tests/check_trust.py
part gate_table 'python3 gate-log' python3 tests/gate_table.py "${GATE_LOG:-}"
part library 'x86-64 rt' tools/build.sh doors
part program 'x86-64 rt' tools/build.sh layout
export LIBDOORS=$PWD/target/staticlib/libdoors.a
part run_doors 'library gcc g++ nm' tests/run_doors.sh
part run_examples 'library gcc' tests/run_examples.sh
part run_readme 'library gcc cargo' tests/run_readme.sh
part symbols 'library nm' tests/symbols.sh
part run_bindings 'library cargo' tests/run_bindings.sh
part run_release 'library git strings gcc cargo' tests/run_release.sh
part reproducible 'whole library rt git strings' tests/reproducible.sh
part harness 'library cargo format.rs' harness/run.sh "${cases[@]}"
part count 'whole library cargo format.rs valgrind' count
part specification_beside_rust 'python3 cargo format.rs' \
    python3 tests/specification_beside_rust.py "${walks[@]}"
part definition_beside_rust 'x86-64 rt python3 cargo format.rs' \
    python3 tests/definition_beside_rust.py "${lists[@]}"
part program_beside_rust 'x86-64 python3 cargo format.rs program' \
    python3 tests/program_beside_rust.py "${texts[@]}"
part differences_beside_rust 'python3 cargo format.rs' python3 tests/differences_beside_rust.py

printf '\n| part | result | time | counts, or why not |\n|---|---|---|---|\n'
printf '| %s |\n' "${rows[@]}"
exit $failed
