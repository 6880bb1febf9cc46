#!/usr/bin/env bash
# Times `stamped_explain` beside the same search in C++ (explain.cpp), whole processes: observed runs of the
# JDK's class by 16 threads, of 12,500, 50,000 and 200,000 calls, and cases that are hard for a search.
#
#   bench/explain/time.sh [PROGRAM [STAMPED [ROUNDS]]]
#
# PROGRAM and STAMPED are what `rt run` left in crates/stamped_explain/out and crates/stamped/out, if none
# are given. It wants c++, javac and java. Both must tell the same of each case that both read, and `stamped
# check` must accept what explains a run, where its 16 MiB hold it.
set -euo pipefail
here=$(cd "$(dirname "$0")" && pwd)
top=$here/../..
program=${1:-$top/crates/stamped_explain/out/stamped_explain}
stamped=${2:-$top/crates/stamped/out/stamped}
rounds=${3:-5}

for built in "$program" "$stamped"; do
    [ -x "$built" ] || { echo "no $built: run 'rt run' in its crate, or give its path" >&2; exit 1; }
done
room=$(mktemp -d)
trap 'rm -rf "$room"' EXIT
c++ -std=c++17 -O2 -o "$room/explain" "$here/explain.cpp"
javac -d "$room" "$top"/recorders/java/*.java
faulty='{"call":["optimistic"],"first":288230376151711743,"last":0,"reply":256,"thread":63}'
for calls in 12500 50000 200000; do
    java -cp "$room" ObservedRun 16 "$calls" 1 > "$room/$calls.json"
    sed 's/],"format"/,'"$faulty"'],"format"/' "$room/$calls.json" > "$room/$calls.faulty"
done
python3 -B "$here/make_cases.py" "$room"
python3 -B "$here/table.py" "$program" "$room/explain" "$stamped" "$room" "$rounds"
