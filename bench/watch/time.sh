#!/usr/bin/env bash
# Times `stamped_watch` beside the same judge in C++ on streams of the JDK's class, and beside `stamped_explain --judge`
# on as much of each as that takes; and its peak memory on runs of 1, 4 and 16 million calls.
#
#   bench/watch/time.sh [PROGRAM [EXPLAIN [ROUNDS [CALLS]]]]
#
# PROGRAM is what `rt run` left in crates/stamped_watch/out, and EXPLAIN what it left in crates/stamped_explain/out, if
# none is given. It wants c++, javac and java. Each load of tests/watch/Loads.java is recorded once, with 4, 16 and 64
# threads.
set -euo pipefail
here=$(cd "$(dirname "$0")" && pwd)
top=$here/../..
program=${1:-$top/crates/stamped_watch/out/stamped_watch}
explain=${2:-$top/crates/stamped_explain/out/stamped_explain}
rounds=${3:-5} calls=${4:-1000000}

for built in "$program" "$explain"; do
    [ -x "$built" ] || { echo "no $built: run 'rt run' in its crate, or give its path" >&2; exit 1; }
done
room=$(mktemp -d)
trap 'rm -rf "$room"' EXIT
c++ -std=c++17 -O2 -o "$room/watch" "$here/watch.cpp"
javac -d "$room" "$top"/recorders/java/*.java "$top/tests/watch/Loads.java"
python3 -B "$here/table.py" "$program" "$room/watch" "$explain" "$top/recorders" "$room" "$rounds" "$calls"
