#!/usr/bin/env bash
# Times `stamped run` beside the same machines in python and in C, which run the same script.
#
#   bench/run/time.sh [PROGRAM [STEPS [ROUNDS]]]
#
# PROGRAM is what `rt run` left in crates/stamped/out, if none is given. C reads by hand and, where
# the library jansson is there (Debian: libjansson-dev), by that too. All must print the same line,
# with and without --report.
set -euo pipefail
here=$(cd "$(dirname "$0")" && pwd)
program=${1:-$here/../../crates/stamped/out/stamped}
steps=${2:-1000000} rounds=${3:-7}
export PYTHONDONTWRITEBYTECODE=1 PYTHONPATH=$here/../common

[ -x "$program" ] || { echo "no $program: 'rt run' in its crate, or give its path" >&2; exit 1; }
room=$(mktemp -d)
trap 'rm -rf "$room"' EXIT
cc -O2 -I "$here/../common" -o "$room/by_hand" "$here/run_script.c"
if echo '#include <jansson.h>' | cc -E -x c - > "$room/found" 2>&1; then
    cc -O2 -DJANSSON -I "$here/../common" -o "$room/by_jansson" "$here/run_script.c" -ljansson
else
    echo "no jansson.h (Debian: libjansson-dev): no row for C that reads by it"
fi
for mix in lock record; do
    python3 "$here/make_script.py" "$room/script.json" "$steps" "$mix"
    echo "$mix"
    python3 "$here/table.py" "$program" "$here/run_script.py" "$room" "$steps" "$rounds"
done
