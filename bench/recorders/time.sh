#!/usr/bin/env bash
# Times calls of a lock that are recorded beside calls that aren't: ObservedStampedLock with its tapes in memory, and
# with a stream to /dev/null and to a file, and the header in C with such streams. The programs alternate.
#
#   bench/recorders/time.sh [CALLS [ROUNDS [RUNS]]]
#
# It wants cc, javac and java. With another folder of classes as OTHER=FOLDER, its ObservedStampedLock is timed as the
# row `other`, in memory.
set -euo pipefail
here=$(cd "$(dirname "$0")" && pwd)
top=$here/../..
calls=${1:-1000000} rounds=${2:-3} runs=${3:-3}

room=$(mktemp -d)
trap 'rm -rf "$room"' EXIT
javac -d "$room" "$top"/recorders/java/*.java "$here/RecorderBench.java"
cc -std=gnu11 -O2 -pthread -I "$top/bench/common" -I "$top/recorders/c" -o "$room/recorder" "$here/recorder.c"
for ((run = 0; run < runs; run++)); do
    for way in none tapes /dev/null "$room/stream"; do
        java -Xmx1g -cp "$room" RecorderBench "$way" "$calls" "$rounds" | sed "s|^|java ${way##*/} |"
        [ "$way" = tapes ] || "$room/recorder" "$way" "$calls" "$rounds" | sed "s|^|c ${way##*/} |"
        rm -f "$room/stream"
    done
    [ -z "${OTHER:-}" ] ||
        java -Xmx1g -cp "$OTHER:$room" RecorderBench tapes "$calls" "$rounds" | sed "s|^|java other |"
done > "$room/lines"
python3 -B "$here/table.py" "$room/lines"
