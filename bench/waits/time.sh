#!/usr/bin/env bash
# Times how eight threads on one core wait for a lock that one of them holds for a millisecond at a
# time: wall and processor time until so many acquisitions, beside the JDK's StampedLock, alternating.
#
#   bench/waits/time.sh [EACH [RUNS [NAME=PROGRAM..]]]
#
# The program is built by `rt run` in crates/timings. Each NAME=PROGRAM is another build of it to
# be timed beside it, as one whose lock waits in another way.
set -euo pipefail
here=$(cd "$(dirname "$0")" && pwd)
program=$here/../../crates/timings/out/timings
each=${1:-300} runs=${2:-3}
shift $(($# < 2 ? $# : 2))

[ -x "$program" ] || { echo "no $program: run 'rt run' in crates/timings" >&2; exit 1; }
room=$(mktemp -d)
trap 'rm -rf "$room"' EXIT
javac -d "$room" "$here/StampedWaitsBench.java"

for run in $(seq "$runs"); do
    for mode in write read; do
        for named in "LockHandle=$program" "$@"; do
            taskset -c 0 python3 "$here/once.py" "${named%%=*}" "${named#*=}" "${mode}_waits" "$each"
        done
        taskset -c 0 java -cp "$room" StampedWaitsBench "$mode" "$each" 2>&1 | sed 's/^/StampedLock /'
    done
done >> "$room/lines"
python3 "$here/table.py" "$room/lines"
