#!/usr/bin/env bash
# Times `Run::step` beside the same machines in C: nanoseconds a step, the median of several rounds.
#
#   bench/steps/time.sh [STEPS [ROUNDS]]
#
# Both build the same script in memory, run it, and print a sum of the word and of all entries,
# which must agree. The program is built by `rt run` in crates/timings.
set -euo pipefail
here=$(cd "$(dirname "$0")" && pwd)
program=$here/../../crates/timings/out/timings
steps=${1:-1000000} rounds=${2:-9}

[ -x "$program" ] || { echo "no $program: run 'rt run' in crates/timings" >&2; exit 1; }
room=$(mktemp -d)
trap 'rm -rf "$room"' EXIT
cc -O2 -I "$here/../common" -o "$room/steps_c" "$here/steps.c"

for width in 0 16; do
    : > "$room/lines"
    for ((round = 0; round < rounds; round++)); do
        echo "steps_c $("$room/steps_c" "$steps" "$width" 2>&1)" >> "$room/lines"
        echo "timings $("$program" steps "$steps" "$width" 2>&1)" >> "$room/lines"
    done
    echo "width $width"
    python3 "$here/table.py" "$room/lines"
done
