#!/usr/bin/env bash
# Measures how many messages `mctower threads` moves between CPUs, compared with plain_threads.rs, which does the same sections in its own threads and
# writes the same text, with and without backoff (manners.rs). It alternates whole commands (turns.py). First through one buffer between two CPUs and
# through four buffers on eight, also compared with messages.rs, with a Mutex and two Condvars for each buffer and no text.
#
#   bench/messages.sh [--patterns | --peers] [--busy] [MESSAGES] [CAPACITY] [LOCK] [TURNS]
#
# MESSAGES go through each buffer, at most 32,768 (default: 5,000); a buffer holds CAPACITY (default: as many as one may). LOCK is the plan's key,
# `ticket` or `grant` (default: grant). With --patterns it measures, on two processors and on one: a pair, a pair with one home CPU, a ping-pong of two
# buffers, a pipe of three CPUs, two senders and two receivers on four CPUs at one buffer, and four pairs on eight CPUs and on four; a pair and four
# pairs through buffers of one place too. It takes some minutes. Measure threads that wait for each other on a quiet machine, or with priority: chrt
# --rr 1 bench/messages.sh. With --peers it measures, on all processors, a pair and four pairs through buffers of CAPACITY places and of one place,
# compared with what a program would take instead: a Mutex with two Condvars, and the standard library's sync_channel. It takes four minutes at most.
# With --busy as many busy loops run beside what is measured as there are processors (not with chrt, which they would inherit).
# Build first: (cd crates/mctower && rt run -- count --cpus 1 --times 1).
if [ "${1:-}" = --help ]; then sed -n '2,/^[^#]/ s/^# \{0,1\}//p' "$0"; exit; fi
set -eu
cd "$(dirname "$0")"
. ./measure.sh
patterns=no; [ "${1:-}" != --patterns ] || { patterns=yes; shift; }
peers=no; [ "${1:-}" != --peers ] || { peers=yes; shift; }
busy=no; [ "${1:-}" != --busy ] || { busy=yes; shift; }
messages=${1:-5000}
eval "$(../tools/limit-table.py --shell)"
capacity=${2:-$CAPACITY}
lock=${3:-grant}
turns=${4:-51}
rustc -O -o "$work/messages" messages.rs
rustc -O -o "$work/plain_threads" plain_threads.rs
[ $busy = no ] || crowd
same=(timeout 60 "$work/plain_threads" "$lock")
polite=("${same[@]}" manners)
mine=(timeout 60 "$ours" threads --turns 1000000000)

# Writes the head of a plan with $1 CPUs and $2 buffers.
head_of() { printf 'lock = "%s"\ncpus = %d\ntrace = %d\nbuffers = [%s]\n' "$lock" "$1" "$TRACE" "$(yes "$capacity" | head -n "$2" | paste -sd ,)"; }
# Writes a thread of CPU $1 that does the calls behind it, so many times.
thread() { printf '[[thread]]\ncpu = %d\nprogram = ["set r0 %d", "set r1 1", %s, "sub r0 r1", "jnz r0 2"]\n' "$1" "$messages" "${*:2}"; }
# Writes the plan of $1 pairs: of each the first thread sends to a buffer of their own and the second receives, on $2 CPUs each.
pairs() {
  local pair
  head_of $(($1 * $2)) "$1"
  for ((pair = 0; pair < $1; pair++)); do
    thread $((pair * $2)) "\"send $pair r0\""
    thread $((pair * $2 + $2 - 1)) "\"recv $pair r2\""
  done
}
ping_pong() { head_of 2 2; thread 0 '"send 0 r0", "recv 1 r2"'; thread 1 '"recv 0 r2", "send 1 r2"'; }
pipe() { head_of 3 2; thread 0 '"send 0 r0"'; thread 1 '"recv 0 r2", "send 1 r2"'; thread 2 '"recv 1 r2"'; }
four_at_one() { head_of 4 1; for cpu in 0 1; do thread $cpu '"send 0 r0"'; thread $((cpu + 2)) '"recv 0 r2"'; done; }

# Stops where the text of the array $1 is none of a run in which all $2 messages got through.
judge() {
  run "$1" "$work/plan"
  [ "$("$ours" check < "$work/out")" = yes ] && [ "$(grep -c ' recv ' "$work/out")" = "$2" ] || { echo "messages of $1 are lost"; exit 1; }
}
# Measures the plan, called $1, through which $2 messages go; the rest is for turns.py.
beside() {
  judge same "$2"; judge polite "$2"; judge mine "$2"
  echo "$1, $2 messages through buffers of $capacity places, $lock locks:"
  ./turns.py --turns "$turns" --seconds 60 "${@:3}" "$work/plan" 'the same sections' "${same[@]}" \
    -- 'the same with manners' "${polite[@]}" -- ours "${mine[@]}"
}

# Measures $1 pairs on two CPUs each, compared with what a program would take instead.
instead() {
  local others=("$1" "$capacity" "$messages")
  pairs "$1" 2 > "$work/plan"
  judge mine $(($1 * messages))
  echo "$1 pairs, $(($1 * messages)) messages through buffers of $capacity places:"
  ./turns.py --turns "$turns" --seconds 60 "$work/plan" 'a Mutex with two Condvars' timeout 60 "$work/messages" "${others[@]}" \
    -- sync_channel timeout 60 "$work/messages" "${others[@]}" sync_channel -- ours "${mine[@]}"
}

if [ $peers = yes ]; then
  for buffers in 1 4; do instead $buffers; done
  capacity=1
  for buffers in 1 4; do instead $buffers; done
  exit
fi
if [ $patterns = no ]; then
  for buffers in 1 4; do
    pairs $buffers 2 > "$work/plan"
    judge same $((buffers * messages)); judge polite $((buffers * messages)); judge mine $((buffers * messages))
    echo "$((buffers * messages)) messages through $buffers buffers of $capacity places on $((2 * buffers)) CPUs, $lock locks:"
    ./turns.py --turns "$turns" --seconds 60 "$work/plan" 'the same sections' "${same[@]}" -- 'the same with manners' "${polite[@]}" \
      -- 'a Mutex with two Condvars' timeout 60 "$work/messages" $buffers "$capacity" "$messages" -- ours "${mine[@]}"
  done
  exit
fi
for cores in 0,1 0; do
  echo "on processors $cores"
  pairs 1 2 > "$work/plan"; beside 'a pair' "$messages" --cores $cores
  pairs 1 1 > "$work/plan"; beside 'a pair at home on one CPU' "$messages" --cores $cores
  ping_pong > "$work/plan"; beside 'a ping-pong' $((2 * messages)) --cores $cores
  pipe > "$work/plan"; beside 'a pipe of three CPUs' $((2 * messages)) --cores $cores
  four_at_one > "$work/plan"; beside 'four CPUs at one buffer' $((2 * messages)) --cores $cores
  pairs 4 2 > "$work/plan"; beside 'four pairs on eight CPUs' $((4 * messages)) --cores $cores
  pairs 4 1 > "$work/plan"; beside 'four pairs, each at home on one CPU' $((4 * messages)) --cores $cores
  places=$capacity; capacity=1
  pairs 1 2 > "$work/plan"; beside 'a pair' "$messages" --cores $cores
  pairs 4 2 > "$work/plan"; beside 'four pairs on eight CPUs' $((4 * messages)) --cores $cores
  capacity=$places
done
