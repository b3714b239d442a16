#!/usr/bin/env bash
# Runs each plan of plans/, of tests/rows/ and of tests/long/, whose runs are too long to be compared after every step, by the command in its first
# lines, over grant locks, which are the default, and over ticket locks. It compares standard output and then standard error with the file of its name in
# expected/ next to it, which tests/plain_tower.rs wrote: a plain program of the step table. (`plans/kernel.py PLAN > expected/NAME.txt 2>&1` writes the
# same.) It takes seconds; .ci/run calls it after rt ci. The last line is 'plans: N passed, M failed'.
#
#   tests/plans.sh [PROGRAM..]
#
# The default is each build of mctower that `rt ci` or `rt run` left.
if [ "${1:-}" = --help ]; then sed -n '2,/^[^#]/ s/^# \{0,1\}//p' "$0"; exit; fi
set -u
cd "$(dirname "$0")/.."
room=$(mktemp -d); trap 'rm -rf "$room"' EXIT
[ $# -gt 0 ] || set -- $(ls crates/mctower/out/mctower crates/mctower/out/mctower.by-rattle 2> /dev/null)
passed=0; failed=0
for program; do
  for plan in plans/*.toml tests/rows/*.toml tests/long/*.toml; do
    expected=$(dirname "$plan")/expected/$(basename "$plan" .toml).txt
    schedule=$(sed -n "s/^# *mctower run --schedule '\(.*\)' <.*/\1/p" "$plan")
    for lock in '' 'lock = "ticket"'; do
      { echo "$lock"; cat "$plan"; } > "$room/plan"
      "$program" run --schedule "$schedule" < "$room/plan" > "$room/out" 2> "$room/states" && cat "$room/states" >> "$room/out"
      if cmp -s "$room/out" "$expected"; then
        passed=$((passed + 1))
      else
        echo "plans: $program does not print what $expected says, with '$lock'"; failed=$((failed + 1))
        diff "$expected" "$room/out" | head -n 6
      fi
    done
  done
done
echo "plans: $passed passed, $failed failed"
[ "$passed" -gt 0 ] && [ "$failed" = 0 ]
