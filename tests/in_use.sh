#!/usr/bin/env bash
# Stage 4 of ./test: tries the programs in use.
#
#   tests/in_use.sh ROOM [TRY..]
#
# ROOM is a folder for what the tries need and leave. The first three need no program that is built here. Then it
# waits for a line of the pipe ROOM/built, if there is one, copies the programs from crates/NAME/out, but for those
# that ROOM has, and makes the others. ROOM/libraries/stamp_core is that library, as the gate has built it. With the
# names of tries it makes these alone; archive.py and c_streams.py need what build.sh leaves in ROOM.
#
# How many passed, and the names of those that failed, go to the file ROOM/in_use. No try depends on how fast the
# machine is, or how busy (tests/busy.py): none has a limit of time below an hour, for what hangs.
set -uo pipefail
cd "$(dirname "$0")/.." || exit 2
room=$1
shift
wanted=" $* "
passed=0 failed=""
# Where it is interrupted, its temporary files go with this folder.
export TMPDIR="$room"

# Runs a check and counts it.
count() {
    local name=$1
    shift
    if "$@"; then passed=$((passed + 1)); else failed="$failed $name"; fi
}

# The same, if it is wanted.
try() {
    if [ "$wanted" = "  " ] || [[ $wanted = *" $1 "* ]]; then count "$@"; fi
}

# Copies of the programs are tried, since the gate clears what it built if it is started again.
prepared() {
    local name
    for name in stamped stamped_explain stamped_picture stamped_watch refused_memory recorded_run observed_handles; do
        [ -e "$room/$name" ] || cp "crates/$name/out/$name" "$room" || return
    done
    cc -O1 -shared -fPIC -o "$room/refuse.so" tests/hostile/refuse_malloc.c -ldl &&
        cc -O1 -shared -fPIC -o "$room/narrow.so" tests/hostile/narrow_io.c -ldl
}

try first_run.sh tests/pages/first_run.sh
try own_repository.sh tests/pages/own_repository.sh try
try small_workspace.py python3 -B tests/edits/small_workspace.py
[ ! -p "$room/built" ] || read -r _ <> "$room/built"
count programs prepared
try build.sh tests/archive/build.sh "$room/archive" "$room/libraries/stamp_core"
try commands.py python3 -B tests/pages/commands.py "$room/stamped" "$room/stamped_explain" "$room/stamped_picture"
try judging.py python3 -B tests/pages/judging.py \
    "$room/stamped" "$room/stamped_explain" "$room/stamped_picture" "$room/observed_handles" "$room/stamped_watch"
try stamped.py python3 -B tests/program/stamped.py "$room/stamped"
try explained.py python3 -B tests/program/explained.py "$room/stamped_explain"
try archive.py python3 -B tests/archive/archive.py "$room/archive/crates/stamped_c/out/libstamped_c.a" "$room/stamped"
try recorded_run.py python3 -B tests/recorded_run.py "$room/recorded_run" "$room/stamped"
try pictures.py python3 -B tests/pictures.py "$room/stamped_picture"
try refused_memory.py python3 -B tests/hostile/refused_memory.py \
    "$room/refuse.so" "$room/stamped" "$room/stamped_explain" "$room/stamped_watch" "$room/stamped_picture" \
    "$room/refused_memory"
try large_script.py python3 -B tests/hostile/large_script.py "$room/refused_memory"
try failing_io.py python3 -B tests/hostile/failing_io.py \
    "$room/narrow.so" "$room/refuse.so" "$room/stamped" "$room/stamped_explain" "$room/stamped_watch" \
    "$room/stamped_picture"
try broken_inputs.py python3 -B tests/hostile/broken_inputs.py \
    "$room/refuse.so" "$room/stamped" "$room/stamped_explain"
try brute_force.py python3 -B tests/explain/brute_force.py "$room/stamped_explain" "$room/stamped" 2000
try runs.py python3 -B tests/explain/runs.py "$room/stamped_explain" "$room/stamped"
try until.py python3 -B tests/explain/until.py "$room/stamped_explain"
try handles.py python3 -B tests/explain/handles.py "$room/observed_handles" "$room/stamped_explain" "$room/stamped"
try planted.py python3 -B tests/explain/planted.py "$room/stamped_explain" "$room/stamped"
try small.py python3 -B tests/explain/small.py "$room/stamped_explain" "$room/stamped"
try wrong_updates.py python3 -B tests/explain/wrong_updates.py "$room/stamped_explain" "$room/stamped"
try round_trips.py python3 -B tests/watch/round_trips.py "$room/stamped_explain"
try watch.py python3 -B tests/watch/watch.py "$room/stamped_watch" "$room/stamped_explain"
try data.py python3 -B tests/watch/data.py "$room/stamped_watch" "$room/stamped_explain"
try c_streams.py python3 -B tests/watch/c_streams.py \
    "$room/stamped_explain" "$room/archive/crates/stamped_c/out/libstamped_c.a" "$room/stamped_watch"
try beside.py python3 -B tests/watch/beside.py "$room/stamped_watch" "$room/stamped_explain"
try late_bugs.py python3 -B tests/watch/late_bugs.py "$room/stamped_watch" "$room/stamped_explain"
if command -v javac > /dev/null; then
    try jdk.py python3 -B tests/explain/jdk.py "$room/stamped_explain" "$room/stamped"
    try java_streams.py python3 -B tests/watch/java_streams.py "$room/stamped_explain" "$room/stamped_watch"
    try java_recorder.py python3 -B tests/watch/java_recorder.py "$room/stamped_explain"
    try live.py python3 -B tests/watch/live.py "$room/stamped_watch"
fi
echo "$passed $failed" > "$room/in_use"
