#!/usr/bin/env bash
# Compares each build of mctower with tests/plain_tower.rs, a plain program of the step table, after every step: over the plans of plans/ and
# tests/rows/ with either lock, and over 200 random ones of at most 200 steps (the same ones each time), every other of which names ticket locks.
# From step to step the order of the calls must be extended as there, by at most one call, of the CPU that stepped. `check` must print yes for each
# trace. Then it runs 50 random plans until they are quiet, and checks that no thread could make progress. .ci/run calls it after rt ci.
#
#   tests/every-step.sh [PROGRAM..]
#
# The default is each build of mctower that `rt ci` or `rt run` left. It needs rustc: without it, it compares nothing, says so and fails.
if [ "${1:-}" = --help ]; then sed -n '2,/^[^#]/ s/^# \{0,1\}//p' "$0"; exit; fi
set -eu
cd "$(dirname "$0")/.."
room=$(mktemp -d); trap 'rm -rf "$room"' EXIT
[ $# -gt 0 ] || set -- $(ls crates/mctower/out/mctower crates/mctower/out/mctower.by-rattle 2> /dev/null)
PATH=$PATH:$HOME/.cargo/bin
command -v rustc > /dev/null || { echo "every step: not compared, since no rustc is here to build the plain program"; exit 1; }
rustc -O -o "$room/plain_tower" tests/plain_tower.rs
rustc -O -o "$room/every_step" tests/every_step.rs
mkdir "$room/plans"
python3 tests/random_plan.py "$room/plans" 1 200 200
mkdir "$room/tickets"
for plan in plans/*.toml tests/rows/*.toml; do
  { echo 'lock = "ticket"'; cat "$plan"; } > "$room/tickets/$(echo "$plan" | tr / -)"
done
for seed in $(seq 2 2 200); do
  sed -i '1i lock = "ticket"' "$room/plans/$seed.toml"
done
passed=0
for program; do
  "$room/every_step" "$program" "$room/plain_tower" plans/*.toml tests/rows/*.toml "$room"/tickets/*.toml "$room"/plans/*.toml
  python3 tests/quiet_often.py "$program" 1 50
  passed=$((passed + 1))
done
[ "$passed" -gt 0 ] || { echo "every step: build the program first: (cd crates/mctower && rt run -- count --cpus 1 --times 1)"; exit 1; }
