#!/usr/bin/env bash
# Builds the program without proofs and runs it: this script in place of `mctower`.
#
#   tools/try.sh run --schedule '0*21' < plans/one-send.toml
#   MCTOWER=tools/try.sh plans/run.sh plans/one-send.toml      the same: plans/run.sh reads the schedule in the plan's first lines
#
# It builds as `rt try` does, which takes about two minutes of processor time on each call and prints nothing until the program ends. Nothing is
# proved, and data races are not checked. tools/prove-all.py proves and builds the program once, and leaves it in crates/mctower/out.
if [ "${1:-}" = --help ]; then sed -n '2,/^[^#]/ s/^# \{0,1\}//p' "$0"; exit; fi
set -u
type -P rt > /dev/null || { echo "try: there is no rt here, the toolchain's command: plans/kernel.py runs plans without it" >&2; exit 1; }
echo "try: builds mctower without proofs and then runs it: about two minutes of processor time, in silence" >&2
cd "$(dirname "$0")/../crates/mctower" && exec ../../tools/unproved.py -- "$@"
