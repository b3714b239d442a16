#!/usr/bin/env bash
# Measures the proved program against the plain ones in bench/: alternates whole commands (turns.py), and prints of each measurement the medians, the
# ratios (the plain program's time divided by ours), and the peak memory of both. It takes no argument and about three minutes; the machine should be quiet.
# Build first: (cd crates/mctower && rt run -- count --cpus 1 --times 1).
if [ "${1:-}" = --help ]; then sed -n '2,/^[^#]/ s/^# \{0,1\}//p' "$0"; exit; fi
set -eu
cd "$(dirname "$0")"
. ./measure.sh
for plain in ../tests/plain_tower ../tests/plain_check fast_check plain_count; do rustc -O -o "$work/${plain##*/}" "$plain.rs"; done
./make.py plan > "$work/plan"; ./make.py plan through > "$work/through"; ./make.py schedule > "$work/schedule"
./make.py trace > "$work/trace"; : > "$work/nothing"

schedule=$(cat "$work/schedule")
mine=("$ours" run --schedule "$schedule")
for plan in plan through; do
  for log in "" log; do
    plain=("$work/plain_tower" "$schedule" $log)
    run plain "$work/$plan"; mv "$work/out" "$work/text"; mv "$work/err" "$work/states"; run mine "$work/$plan"
    cmp "$work/text" "$work/out" && cmp "$work/states" "$work/err" || echo "the two kernels differ"
    measure "run, 1,048,576 steps${log:+, the plain one stores its events}$([ $plan = plan ] || echo ', messages get through')" "$work/$plan" 21 30
  done
done

plain=("$work/plain_check"); mine=("$ours" check)
run mine "$work/trace"; [ "$(cat "$work/out")" = yes ] || echo "check rejects the trace"
measure "check, 524,288 entries" "$work/trace" 21 30
plain=("$work/fast_check")
run plain "$work/trace"; [ "$(cat "$work/out")" = yes ] || echo "the checker written for speed refuses the trace"
measure "check, 524,288 entries, beside a checker written for speed" "$work/trace" 21 30

# Eight threads on fewer processors can take very long over a fair lock, so each turn ends after 10 seconds.
plain=(timeout 10 "$work/plain_count" 8 1000 1 ticket); mine=(timeout 10 "$ours" count --cpus 8 --times 1000 --lock ticket)
run mine "$work/nothing"; grep -q '^table 8000$' "$work/out" || echo "count loses sections"
measure "count, 8 CPUs, 1,000 times, tickets" "$work/nothing" 1000 60
