#!/usr/bin/env bash
# Times `stamped check` beside a python program that judges the same history of 16 MiB, and
# `stamped check` alone on histories of 10,000, 40,000 and 160,000 entries.
#
#   bench/judge/time.sh [PROGRAM [ROUNDS]]
#
# PROGRAM is what `rt run` left in crates/stamped/out, if none is given. Both must judge alike, four
# broken histories too.
set -euo pipefail
here=$(cd "$(dirname "$0")" && pwd)
program=${1:-$here/../../crates/stamped/out/stamped}
rounds=${2:-7}
export PYTHONDONTWRITEBYTECODE=1 PYTHONPATH=$here/../common

[ -x "$program" ] || { echo "no $program: run 'rt run' in its crate, or give its path" >&2; exit 1; }
room=$(mktemp -d)
trap 'rm -rf "$room"' EXIT
python3 "$here/make_history.py" "$room/history.json"
for count in 10000 40000 160000; do
    python3 "$here/make_history.py" "$room/$count.json" "$count"
done
for cause in interval order overlap reply; do
    python3 "$here/make_history.py" "$room/$cause.json" 40000 2 "$cause"
done
python3 "$here/table.py" "$program" "$here/judge.py" "$room" "$rounds"
