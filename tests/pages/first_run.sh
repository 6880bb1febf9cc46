#!/usr/bin/env bash
# Runs the first command of README.md in a copy that is as a fresh clone: it must print what the page says, and say on
# standard error that nothing is proved. Then, where javac is, the lines that judge a Java program's run: they must end
# with `ok` and a number of calls.
#
#   tests/pages/first_run.sh
set -euo pipefail
top=$(cd "$(dirname "$0")/../.." && pwd)
room=$(mktemp -d)
trap 'rm -rf "$room"' EXIT
mkdir "$room/clone"
cd "$room/clone"

fail() {
    echo "first_run.sh: $*" >&2
    exit 1
}

# The folders above are not used, since the gate is at work in them: a command there waits for its end.
(cd "$top" && find crates -mindepth 2 -maxdepth 2 ! -name out -print0 | tar -c --null -T - crates.txt HANDLES examples recorders) |
    tar -x
wanted=$(awk '/^    examples\/first-run/ { below = 1 } below && /^    \{/ { print substr($0, 5); exit }' "$top/README.md")
[ -n "$wanted" ] || fail "README.md doesn't say what examples/first-run prints"
examples/first-run > ../printed 2> ../told || { cat ../told >&2; fail "examples/first-run failed"; }
[ "$(cat ../printed)" = "$wanted" ] || { cat ../printed >&2; fail "examples/first-run prints something else"; }
grep -q "nothing is proved" ../told || fail "examples/first-run doesn't say that nothing is proved"
echo "first_run.sh: examples/first-run printed what README.md says"

command -v javac > /dev/null || exit 0
awk '/^## / { below = /Java program/ } below && /^    / { print substr($0, 5) }' "$top/README.md" > ../lines
[ "$(wc -l < ../lines)" = 3 ] || fail "README.md has no three lines that judge a Java program"
bash -eu ../lines > ../judged 2> ../told || { cat ../told >&2; fail "a line that judges a Java program failed"; }
grep -qxE 'ok [0-9]+' ../judged || { cat ../judged >&2; fail "a Java program's run isn't ok"; }
echo "first_run.sh: the lines that judge a Java program print $(cat ../judged)"
