#!/usr/bin/env bash
# Times gets and puts of a running record, and gets and updates by a handle, beside the same accesses in C11,
# words under the JDK's StampedLock, and the kit's SeqCell: nanoseconds a call, of many short rounds, the
# programs alternating, each of ours and of C's at four places. Of threads that update one record no update
# may be lost.
#
#   bench/record/time.sh [CALLS [ROUNDS [OFTEN]]]
#
# The program is built by `rt run` in crates/timings, and times the SeqCell too.
set -euo pipefail
here=$(cd "$(dirname "$0")" && pwd)
object=$here/../../crates/timings/out/timings.o
calls=${1:-50000} rounds=${2:-5} often=${3:-20}
source "$here/../common/placements.sh"

[ -f "$object" ] || { echo "no $object: run 'rt run' in crates/timings" >&2; exit 1; }
room=$(mktemp -d)
trap 'rm -rf "$room"' EXIT
place_rattle "$object" "$room" timings
place_c "$here/record.c" "$room" record_c
moved "$room/timings" handles::gets
moved "$room/record_c" gets
javac -d "$room" "$here/StampedRecordBench.java"

told() { sed "s/^/$1 /" >> "$room/lines"; }
for run in 1 2 3; do
    for place in "${places[@]}"; do
        "$room/timings.$place" record "$calls" "$rounds" "$often" 2>&1 | told "timings.$place"
        "$room/record_c.$place" "$calls" "$rounds" "$often" 2>&1 | told "record_c.$place"
    done
    java -cp "$room" StampedRecordBench "$calls" "$rounds" "$often" 2>&1 | told StampedLock
done
python3 "$here/table.py" "$room/lines"
