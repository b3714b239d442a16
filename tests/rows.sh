#!/usr/bin/env bash
# Tests the program without proofs: builds it as `rt try --cases` does, and runs each plan and each row over both locks, and each row of the tables of traces,
# plans and programs. It takes about five minutes. It is no gate: nothing is proved, and no mutant is tried.
#
#   tests/rows.sh [SHARES]
#
# SHARES builds of 1 GB run in parallel, each over its share of the cases. The default is the number of processors, at most four. The last line is
# 'rows: N passed, M failed'.
if [ "${1:-}" = --help ]; then sed -n '2,/^[^#]/ s/^# \{0,1\}//p' "$0"; exit; fi
set -u
cd "$(dirname "$0")/.."
shares=${1:-$(nproc)}
[[ "$shares" =~ ^[1-9][0-9]?$ ]] || { echo "rows: SHARES is '$shares': expected 1 to 99"; exit 2; }
[ $# -gt 0 ] || [ "$shares" -le 4 ] || shares=4
type -P rt > /dev/null || { echo "rows: there is no rt here, the toolchain's command: plans/kernel.py runs plans without it"; exit 1; }
echo "rows: builds mctower without proofs and runs all plans and rows, in $shares parallel builds: about five minutes, in silence"
room=$(mktemp -d); trap 'rm -rf "$room"' EXIT
python3 tests/row_cases.py lay "$room" "$shares" || exit 1
for share in $(seq 0 $((shares - 1))); do
  (cd crates/mctower && exec ../../tools/unproved.py mctower --cases "$room/$share") > "$room/$share.out" 2> "$room/$share.err" &
done
wait
for share in $(seq 0 $((shares - 1))); do
  grep -q '^case=' "$room/$share.err" || { echo "rows: the build failed:"; tail -n 15 "$room/$share.err" "$room/$share.out"; break; }
done
python3 tests/row_cases.py judge "$room" "$shares"
