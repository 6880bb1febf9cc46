#!/usr/bin/env bash
# Times the walk of `check` beside the same walk in C: nanoseconds an entry, the median of several
# rounds, for records of the lock's calls alone and for those with a guarded record.
#
#   bench/check/time.sh [ROUNDS]
#
# Both make the same records, with entries of the same size, and walk over them again and again; the
# verdicts must agree. The program is built by `rt run` in crates/timings.
set -euo pipefail
here=$(cd "$(dirname "$0")" && pwd)
program=$here/../../crates/timings/out/timings
rounds=${1:-9}

[ -x "$program" ] || { echo "no $program: run 'rt run' in crates/timings" >&2; exit 1; }
room=$(mktemp -d)
trap 'rm -rf "$room"' EXIT
cc -O2 -I "$here/../common" -o "$room/check_c" "$here/check.c"

# Calls, walks, and the width of the guarded record.
for record in "2000 2000 0" "160000 20 0" "2000 2000 2" "160000 20 2" "160000 20 16"; do
    for ((round = 0; round < rounds; round++)); do
        # shellcheck disable=SC2086
        echo "$record check_c $("$room/check_c" $record 2>&1)" >> "$room/lines"
        # shellcheck disable=SC2086
        echo "$record timings $("$program" check $record 2>&1)" >> "$room/lines"
    done
done
python3 "$here/table.py" "$room/lines"
