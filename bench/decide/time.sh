#!/usr/bin/env bash
# Times `decide` beside the same call table in C: nanoseconds a call, the median of several rounds.
#
#   bench/decide/time.sh [CALLS [ROUNDS]]
#
# Both make the same calls, each on the word that the calls before it left, and print a sum of all
# replies, which must agree. The program is built by `rt run` in crates/timings.
set -euo pipefail
here=$(cd "$(dirname "$0")" && pwd)
program=$here/../../crates/timings/out/timings
calls=${1:-10000000} rounds=${2:-9}

[ -x "$program" ] || { echo "no $program: run 'rt run' in crates/timings" >&2; exit 1; }
room=$(mktemp -d)
trap 'rm -rf "$room"' EXIT
cc -O2 -I "$here/../common" -o "$room/decide_c" "$here/decide.c"

for ((round = 0; round < rounds; round++)); do
    echo "decide_c $("$room/decide_c" "$calls" 2>&1)" >> "$room/lines"
    echo "timings $("$program" decide "$calls" 2>&1)" >> "$room/lines"
done
python3 "$here/table.py" "$room/lines"
