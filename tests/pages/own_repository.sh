#!/usr/bin/env bash
# Makes a repository of its own for the program of docs/USING.md: in an empty folder, by the lines and
# with the program that stand on that page. It must print what the page says.
#
#   tests/pages/own_repository.sh [try]
#
# It proves the libraries too, where this clone hasn't built them (many minutes). With `try` nothing is
# proved, and nothing that was built here is used; it takes about a minute.
set -euo pipefail
top=$(cd "$(dirname "$0")/../.." && pwd)
mode=${1:-run}

fail() {
    echo "own_repository.sh: $*" >&2
    exit 1
}

# The first block of a language below a heading of the page.
block() {
    awk -v heading="## $1" -v fence="\`\`\`$2" '
        inside && $0 == "```" { exit }
        inside { print }
        $0 == heading { below = 1 }
        below && $0 == fence { inside = 1 }
    ' "$top/docs/USING.md"
}

room=$(mktemp -d)
trap 'rm -rf "$room"' EXIT
mkdir "$room/own"
cd "$room/own"

export STAMPED=$top
if [ "$mode" = try ]; then
    # As a fresh clone is. The folders above are not read, since the gate may be changing them.
    STAMPED=$room/stamped
    mkdir "$STAMPED"
    (cd "$top" && find crates -mindepth 2 -maxdepth 2 ! -name out -print0 | tar -c --null -T - crates.txt HANDLES) |
        tar -C "$STAMPED" -x
fi

block "From a repository of your own" sh > "$room/lines"
[ "$(wc -l < "$room/lines")" = 5 ] || fail "the page has no block of five lines"
[ "$(tail -n 1 "$room/lines")" = "cd crates/counter && rt run" ] || fail "the last line runs something else"
head -n 4 "$room/lines" > "$room/first"
bash -eu "$room/first"

block "A program" rust > crates/counter/src/main.rt
cmp crates/counter/src/main.rt "$top/crates/counter/src/main.rt" || fail "the page's program is not that of crates/counter"
block "A program" text > "$room/wanted"
cmp "$room/wanted" "$top/crates/counter/stdout" || fail "the page's output is not that of crates/counter"

cd crates/counter
rt "$mode" > "$room/printed" 2> "$room/told" || { cat "$room/told" >&2; fail "rt $mode failed"; }
cmp "$room/printed" "$room/wanted" || { cat "$room/printed" "$room/told" >&2; fail "it printed something else"; }
echo "own_repository.sh: rt $mode printed what docs/USING.md says"
