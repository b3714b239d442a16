#!/usr/bin/env bash
# Measures messages of one word per second through one buffer: over embed/ (tower), a pthread mutex with two condition variables (mutex), std's sync_channel
# (std) and crossbeam-channel (crossbeam; Debian: librust-crossbeam-channel-dev), alternating. A row has the processors, whether a busy loop runs beside it for
# each of them, the producers and consumers, the capacity, and the best and the median rate of each, in thousands. Then it measures one caller: a send with a
# receive, a rejected call, an opening for 16 callers. Build first: embed/build.py. A measurement takes SECONDS_EACH, or 0.5, so it takes RUNS minutes. The
# first line says how busy the machine is.
#
#   bench/embed.sh [RUNS [CPUS..]]             3 runs, on the processors 0,1 and 0-3, quiet and busy
#   LOADS=quiet bench/embed.sh 5 2,3           5 runs, on the processors 2 and 3, with no busy loops
if [ "${1:-}" = --help ]; then sed -n '2,/^[^#]/ s/^# \{0,1\}//p' "$0"; exit; fi
set -eu
export LC_ALL=C
cd "$(dirname "$0")"
runs=${1:-3}; shift || true
[ $# -gt 0 ] || set -- 0,1 0-3
library=../embed/out
[ -f $library/libtower.a ] || { echo "build embed/out first: embed/build.py"; exit 1; }
work=$(mktemp -d); loops=()
ends() { [ ${#loops[@]} = 0 ] || kill "${loops[@]}"; loops=(); }
trap 'ends; rm -rf "$work"' EXIT
cc -O2 -I$library embed.c $library/libtower.a -lpthread -o "$work/tower"
cc -O2 -DPLAIN embed.c -lpthread -o "$work/mutex"
programs=(tower mutex)
if command -v rustc > /dev/null; then
  rustc --edition 2021 -O -o "$work/std" embed.rs && programs+=(std)
else
  echo "left out: std's sync_channel and crossbeam, since there is no rustc here"
fi

# Compiles Debian's crossbeam-utils and crossbeam-channel, whose sources are in the folder of its registry.
crossbeam() {
  local registry=/usr/share/cargo/registry utils channel
  utils=$(ls -d $registry/crossbeam-utils-*/ | tail -n 1)src/lib.rs
  channel=$(ls -d $registry/crossbeam-channel-*/ | tail -n 1)src/lib.rs
  rustc --edition 2021 -O --cap-lints allow --crate-type rlib --crate-name crossbeam_utils --cfg 'feature="std"' \
    --extern cfg_if="$work/libcfg_if.rlib" -o "$work/libcrossbeam_utils.rlib" "$utils"
  rustc --edition 2021 -O --cap-lints allow --crate-type rlib --crate-name crossbeam_channel --cfg 'feature="std"' -L "$work" \
    --extern crossbeam_utils="$work/libcrossbeam_utils.rlib" --extern cfg_if="$work/libcfg_if.rlib" -o "$work/libcrossbeam_channel.rlib" "$channel"
  rustc --edition 2021 -O --cfg crossbeam -L "$work" --extern crossbeam_channel="$work/libcrossbeam_channel.rlib" -o "$work/crossbeam" embed.rs
}
if [ -d /usr/share/cargo/registry ] && ls -d /usr/share/cargo/registry/crossbeam-channel-* > /dev/null 2>&1 && command -v rustc > /dev/null; then
  rustc --edition 2021 -O --cap-lints allow --crate-type rlib --crate-name cfg_if -o "$work/libcfg_if.rlib" \
    "$(ls -d /usr/share/cargo/registry/cfg-if-*/ | tail -n 1)src/lib.rs" && crossbeam && programs+=(crossbeam)
else
  echo "left out: crossbeam-channel, since librust-crossbeam-channel-dev is not installed"
fi

# The best and the median of the numbers in the file $1, in thousands; a run that did not end in time counts as 0.
best_and_median() {
  sort -n "$1" | awk 'function told(n) { return sprintf(n < 9950 ? "%.1f" : "%.0f", n / 1000) }
    { all[NR] = $1 } END { printf "%s (%s)", told(all[NR]), told(all[int((NR + 1) / 2)]) }'
}

# Prints a row.
row() {
  rm -f "$work"/*.rates
  for _ in $(seq "$runs"); do
    for program in "${programs[@]}"; do
      rate=$(timeout 60 taskset -c "$cpus" "$work/$program" $pairs $pairs $capacity "${SECONDS_EACH:-0.5}") || rate="0 0"
      echo "${rate% *}" >> "$work/$program.rates"
    done
  done
  printf '| %s' "$cpus" "$load" "$pairs:$pairs" "$capacity"
  for program in "${programs[@]}"; do printf ' | %s' "$(best_and_median "$work/$program.rates")"; done; echo ' |'
}

echo "load $(cut -d' ' -f1-3 /proc/loadavg) on $(nproc) processors; thousands of messages per second, best (median) of $runs"
printf '| %s' processors load pairs capacity "${programs[@]}"; echo ' |'
for cpus in "$@"; do
  for load in ${LOADS:-quiet busy}; do
    if [ "$load" = busy ]; then
      for _ in $(seq "$(taskset -c "$cpus" nproc)"); do
        taskset -c "$cpus" bash -c 'while :; do :; done' &
        loops+=($!)
      done
    fi
    for pairs in 1 2 4; do
      for capacity in 1 32; do
        row
      done
    done
    ends
  done
done
read -r pair rejected opening < <("$work/tower" alone)
echo "one caller: a send with a receive $pair ns, a rejected call $rejected ns, an opening and an end for 16 callers and buffers $((opening / 1000)) us"
