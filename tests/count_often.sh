#!/bin/sh
# Runs what is too slow for the gate next to other work: a hundred counts of eight threads with each lock, and a count in which each start of a thread
# fails in turn. Prints what it found.
#
#   (cd crates/mctower && rt run -- count --cpus 1 --times 1) && tests/count_often.sh
if [ "${1:-}" = --help ]; then sed -n '2,/^[^#]/ s/^# \{0,1\}//p' "$0"; exit; fi
set -eu
cd "$(dirname "$0")/.."
program=crates/mctower/out/mctower
room=$(mktemp -d)
trap 'rm -rf "$room"' EXIT
rustc --edition 2024 -O -C panic=abort --crate-type cdylib -o "$room/librefuse.so" tests/refuse.rs
printf 'plain 8000\ntable 8000\n' > "$room/wanted"
printf 'refused\nerror: NoThread(5)\n' > "$room/fault"
for lock in ticket grant; do
    for round in $(seq 100); do
        "$program" count --cpus 8 --times 1000 --lock $lock > "$room/out"
        cmp "$room/out" "$room/wanted" || { echo "count $round with the lock $lock is wrong"; exit 1; }
    done
done
echo "a hundred counts of 8 threads with each lock, 1,000 sections each: 8000 each time"
for number in 1 2 3 4 5 6 7 8; do
    status=0
    REFUSE_THREAD=$number LD_PRELOAD=$room/librefuse.so "$program" count --cpus 8 --times 1000 > "$room/out" 2> "$room/err" || status=$?
    [ $status = 1 ] && [ ! -s "$room/out" ] && cmp "$room/err" "$room/fault" || { echo "thread $number refused: status $status"; exit 1; }
done
echo "each of 8 threads refused: NoThread(5), and nothing on standard output"
