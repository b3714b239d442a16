#!/usr/bin/env bash
# Prints what the machine itself allows (limits.rs), each the median of 11 goes: nanoseconds that a word takes from one processor to
# another, that a change of threads takes on one processor, and that a byte of a trace text takes which is read once. It takes seconds, on
# a quiet machine, or ahead of all other work: chrt --rr 1 bench/limits.sh.
if [ "${1:-}" = --help ]; then sed -n '2,/^[^#]/ s/^# \{0,1\}//p' "$0"; exit; fi
set -eu
cd "$(dirname "$0")"
work=$(mktemp -d); trap 'rm -rf "$work"' EXIT
rustc -O -o "$work/limits" limits.rs
./make.py trace > "$work/trace"
eleven() { for go in 1 2 3 4 5 6 7 8 9 10 11; do "$@"; done | sort -n | sed -n 6p; }
echo "a word from processor to processor: $(eleven "$work/limits" lines 200000) ns"
echo "a change of threads on one processor: $(eleven taskset -c 0 "$work/limits" switches 20000) ns"
echo "a byte of a text that is read once: $(eleven "$work/limits" bytes "$work/trace") ns, of $(wc -c < "$work/trace")"
