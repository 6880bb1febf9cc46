#!/usr/bin/env bash
# Times pairs of calls on a StampedValue beside the same accesses in C11, a field under the JDK's StampedLock, and,
# in the same program, std's RwLock and the kit's counted_slot: nanoseconds a pair, of many short rounds, the programs
# alternating, each of ours and of C's at four places.
#
#   bench/value/time.sh [PAIRS [ROUNDS [OFTEN]]]
#
# The program is built by `rt run` in crates/timings.
set -euo pipefail
here=$(cd "$(dirname "$0")" && pwd)
object=$here/../../crates/timings/out/timings.o
pairs=${1:-50000} rounds=${2:-3} often=${3:-60}
source "$here/../common/placements.sh"

[ -f "$object" ] || { echo "no $object: run 'rt run' in crates/timings" >&2; exit 1; }
room=$(mktemp -d)
trap 'rm -rf "$room"' EXIT
place_rattle "$object" "$room" timings
place_c "$here/value.c" "$room" value_c
moved "$room/timings" guarded::reads
moved "$room/value_c" read_pairs
javac -d "$room" "$here/StampedValueBench.java"

told() { sed "s/^/$1 /" >> "$room/lines"; }
for run in 1 2 3; do
    for place in "${places[@]}"; do
        "$room/timings.$place" value "$pairs" "$rounds" "$often" 2>&1 | told "timings.$place"
        "$room/value_c.$place" "$pairs" "$rounds" "$often" 2>&1 | told "value_c.$place"
    done
    java -cp "$room" StampedValueBench "$pairs" "$rounds" "$often" 2>&1 | told StampedLock
done
python3 "$here/table.py" "$room/lines"
