#!/usr/bin/env bash
# Times calls through the static library beside the same call table in C, and pairs of try_read and unlock_read on
# the lock of examples/c beside the same accesses by hand: nanoseconds, medians of several rounds. A round's
# figure is the least of eight short runs, so that other work on the machine counts for little.
#
#   bench/archive/time.sh [CALLS [PAIRS [ROUNDS]]]
#
# All make the same calls, and their sums must agree. The archive is built by `rt lib` in crates/stamped_c.
set -euo pipefail
here=$(cd "$(dirname "$0")" && pwd)
crate=$here/../../crates/stamped_c
archive=${ARCHIVE:-$crate/out/libstamped_c.a}
calls=${1:-100000} pairs=${2:-5000} rounds=${3:-15}

[ -f "$archive" ] || { echo "no $archive: run 'rt lib' in crates/stamped_c" >&2; exit 1; }
room=$(mktemp -d)
trap 'rm -rf "$room"' EXIT
cc -O2 -I "$crate/include" -o "$room/archive" "$here/archive.c" "$archive"
cc -O2 -I "$here/../common" -o "$room/decide_c" "$here/../decide/decide.c"
cc -O2 -pthread -o "$room/lock_c" "$here/../lock/lock.c"

told() { sed "s/^/$round $1 /" >> "$room/lines"; }
for ((round = 0; round < rounds; round++)); do
    for run in {1..8}; do
        "$room/decide_c" "$calls" 2>&1 | told by_hand
        "$room/archive" decide "$calls" 2>&1 | told archive
        "$room/lock_c" "$pairs" 1 2>&1 | grep '^read ' | told by_hand
        "$room/archive" pairs "$pairs" 1 2>&1 | told archive
    done
done
python3 "$here/table.py" "$room/lines"
