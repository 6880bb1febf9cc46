#!/usr/bin/env bash
# Builds the static library and a C program by the two commands of docs/C.md, in a copy that is as a fresh
# clone: in FOLDER, which is made. The program must print what the page says.
#
#   tests/archive/build.sh FOLDER [LIBRARY]
#
# LIBRARY is the folder of stamp_core's library, as the gate has built it; without it stamp_core is proved anew (some
# minutes). The archive is then FOLDER/crates/stamped_c/out/libstamped_c.a.
set -euo pipefail
top=$(cd "$(dirname "$0")/../.." && pwd)
library=${2:+$(cd "$2" && pwd -P)}
mkdir "$1"
cd "$1"

fail() {
    echo "build.sh: $*" >&2
    exit 1
}

# What was built here is left out, since the gate may be changing it.
(cd "$top" && find crates -mindepth 2 -maxdepth 2 ! -name out -print0 | tar -c --null -T - crates.txt HANDLES examples) |
    tar -x
if [ -n "$library" ]; then
    mkdir crates/stamp_core/out
    cp -r "$library" crates/stamp_core/out/rlib
fi

awk '$0 == "## Build and link" { below = 1 } /^## Is / { below = 0 } below && /^    / { print substr($0, 5) }' \
    "$top/docs/C.md" > lines
[ "$(wc -l < lines)" = 4 ] || fail "docs/C.md has no two commands, with a run and its output, under its first heading"
head -n 2 lines > commands
bash -eu commands > told 2>&1 || { cat told >&2; fail "a command of docs/C.md failed"; }
[ "$(sed -n 3p lines)" = '$ ./count' ] || fail "docs/C.md runs something else"
[ "$(./count)" = "$(sed -n 4p lines)" ] || fail "count doesn't print what docs/C.md says"
nm --undefined-only --no-sort crates/stamped_c/out/libstamped_c.a > names || fail "nm can't read the archive"
! grep ' U ' names || fail "the archive needs other libraries"
echo "build.sh: the two commands of docs/C.md build count, which prints $(./count); the archive needs no other library"
