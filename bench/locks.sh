#!/usr/bin/env bash
# Measures `count` with both locks in 2, 4 and 8 threads, compared with each other and with plain Rust locks of the same kind (plain_count.rs): it
# alternates the four whole commands of 1,000 sections a thread. Prints for each number of threads the medians, the ratio of each plain lock's median to
# ours (1 is the plain program's rate, below 1 is slower), and that of the ticket lock's median to the grant lock's, of ours and of the plain ones. It
# takes two minutes at most; the machine should be quiet.
# Build first: (cd crates/mctower && rt run -- count --cpus 1 --times 1).
#
#   bench/locks.sh [--peers] [--busy] [TURNS]
#
# With --peers it measures 2, 4, 8 and 16 threads, also compared with the locks that a program would take instead (lock_peers.rs): pthread_mutex, the
# standard library's Mutex, pthread_spin up to 8 threads, an MCS lock, and tickets whose waiters sleep, at once or after 10,000 polls. Prints what turns.py
# prints, and takes four minutes at most. With --busy as many busy loops run beside it as there are processors (not with chrt, which they would inherit).
if [ "${1:-}" = --help ]; then sed -n '2,/^[^#]/ s/^# \{0,1\}//p' "$0"; exit; fi
set -eu
cd "$(dirname "$0")"
. ./measure.sh
peers=no; [ "${1:-}" != --peers ] || { peers=yes; shift; }
busy=no; [ "${1:-}" != --busy ] || { busy=yes; shift; }
turns=${1:-200}
rustc -O -o "$work/plain" plain_count.rs
rustc -O -o "$work/lock_peers" lock_peers.rs
[ $busy = no ] || crowd

# Runs a command, and adds to the file $1 what it took, in microseconds.
timed() {
  local file=$1 start=${EPOCHREALTIME/./}
  shift
  timeout 10 "$@" > "$work/out" || echo "$* ended with status $?"
  echo $((${EPOCHREALTIME/./} - start)) >> "$file"
  grep -q "^table $((cpus * 1000))\$" "$work/out" || echo "$* loses sections"
}
median() { sort -n "$1" | sed -n "$((($(wc -l < "$1") + 1) / 2))p"; }

# Measures all locks with $1 threads by turns. The last command is ours, with the lock of `threads`, so ratios are to that one.
beside() {
  local cpus=$1 peer words commands=()
  local names=('pthread_mutex' "std's Mutex" 'MCS' 'tickets that sleep at once' 'tickets that sleep' 'plain tickets' 'plain grant words' 'ours, tickets')
  local lines=("$work/lock_peers pthread_mutex $cpus 1000" "$work/lock_peers std $cpus 1000" "$work/lock_peers mcs $cpus 1000"
    "$work/lock_peers parked $cpus 1000 0" "$work/lock_peers parked $cpus 1000" "$work/plain $cpus 1000 1 ticket" "$work/plain $cpus 1000 1 grant"
    "$ours count --cpus $cpus --times 1000 --lock ticket")
  [ "$cpus" -gt 8 ] || { names+=('pthread_spin'); lines+=("$work/lock_peers pthread_spin $cpus 1000"); }
  names+=('ours, grant words'); lines+=("$ours count --cpus $cpus --times 1000 --lock grant")
  for peer in "${!names[@]}"; do
    read -ra words <<< "${lines[peer]}"
    timed "$work/first" "${words[@]}"
    commands+=(-- "${names[peer]}" timeout 10 "${words[@]}")
  done
  echo "$cpus threads, 1,000 sections each:"
  ./turns.py --turns "$turns" --seconds 60 /dev/null "${commands[@]:1}"
}

if [ $peers = yes ]; then
  for cpus in 2 4 8 16; do beside $cpus; done
  exit
fi
for cpus in 2 4 8; do
  rm -f "$work"/*.times; end=$((SECONDS + 40)); done=0
  while [ $done -lt "$turns" ] && [ $SECONDS -lt $end ]; do
    for lock in ticket grant; do
      timed "$work/plain-$lock.times" "$work/plain" $cpus 1000 1 $lock
      timed "$work/ours-$lock.times" "$ours" count --cpus $cpus --times 1000 --lock $lock
    done
    done=$((done + 1))
  done
  awk -v cpus=$cpus -v turns=$done -v pt="$(median "$work/plain-ticket.times")" -v pg="$(median "$work/plain-grant.times")" \
    -v ot="$(median "$work/ours-ticket.times")" -v og="$(median "$work/ours-grant.times")" 'BEGIN {
      printf "%d threads, %d turns: plain over ours %.2f with tickets, %.2f with grant words; ", cpus, turns, pt / ot, pg / og
      printf "tickets over grant words %.2f of ours, %.2f of the plain ones; ", ot / og, pt / pg
      printf "ms: ours %.1f and %.1f, plain %.1f and %.1f\n", ot / 1000, og / 1000, pt / 1000, pg / 1000 }'
done
