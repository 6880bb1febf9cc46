#!/usr/bin/env bash
# Compares what `stamped replay` and the JDK's StampedLock answer to the same calls of one thread, and
# prints the counts and each kind of difference with its smallest sequence (docs/JDK.md).
#
#   bench/jdk/compare.sh [PROGRAM [SEQUENCES [SEED]]]
#
# PROGRAM is what `rt run` left in crates/stamped/out, if none is given. SEQUENCES is the number of
# random sequences (100,000). It needs `javac` and `java` on the path, and takes some minutes.
set -euo pipefail
here=$(cd "$(dirname "$0")" && pwd)
program=${1:-$here/../../crates/stamped/out/stamped}
sequences=${2:-100000} seed=${3:-1}
export PYTHONDONTWRITEBYTECODE=1

[ -x "$program" ] || { echo "no $program: run 'rt run' in its crate, or give its path" >&2; exit 1; }
room=$(mktemp -d)
trap 'rm -rf "$room"' EXIT
javac -d "$room" "$here/Replays.java"
java -version 2>&1 | sed -n 2p
python3 "$here/compare.py" "$program" "$room" "$sequences" "$seed"
