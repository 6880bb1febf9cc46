#!/usr/bin/env bash
# Times `stamped replay` beside python's json, which reads and prints the same file.
#
#   bench/replay/time.sh [PROGRAM [CALLS [ROUNDS]]]
#
# PROGRAM is what `rt run` left in crates/stamped/out, if none is given.
set -euo pipefail
here=$(cd "$(dirname "$0")" && pwd)
program=${1:-$here/../../crates/stamped/out/stamped}
calls=${2:-640000} rounds=${3:-7}

[ -x "$program" ] || { echo "no $program: run 'rt run' in its crate, or give its path" >&2; exit 1; }
room=$(mktemp -d)
trap 'rm -rf "$room"' EXIT
python3 "$here/make_replay.py" "$room/replay.json" "$calls"
python3 "$here/table.py" "$program" "$room/replay.json" "$calls" "$rounds"
