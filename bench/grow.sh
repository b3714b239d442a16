#!/usr/bin/env bash
# Measures how a step's cost grows with the system: instructions a step (callgrind) of `mctower run`, from one CPU and one thread to the limits, and
# the peak of memory of full traces. Each number is the difference of two whole runs of which one takes 65,536 steps more, so opening is left out; what
# gathers and writes entries is in. It takes some minutes, and other work does not disturb the counts.
# Build first: (cd crates/mctower && rt run -- count --cpus 1 --times 1).
#
#   bench/grow.sh [PROGRAM]
#
# The kinds of steps: `calls`, where each thread sends, receives and yields in turn, at a buffer that only its CPU uses; `yields`, where each thread only
# yields; `idle`, where all wait at an empty buffer and the CPUs poll their pending queues; `last`, where all steps are of one CPU, whose one thread has the
# last number and waits; `ended`, where all threads have ended and no step is taken.
if [ "${1:-}" = --help ]; then sed -n '2,/^[^#]/ s/^# \{0,1\}//p' "$0"; exit; fi
set -eu
export LC_ALL=C
cd "$(dirname "$0")/.."
program=$(realpath "${1:-crates/mctower/out/mctower}" 2> /dev/null) && [ -x "$program" ] || {
  echo "build mctower first: (cd crates/mctower && rt run -- count --cpus 1 --times 1)"; exit 1
}
work=$(mktemp -d); trap 'rm -rf "$work"' EXIT
more=65536
eval "$(tools/limit-table.py --shell)"

# The plan of $1 for $2 CPUs and $3 threads.
plan() {
  local t cpu lines
  printf 'cpus = %d\ntrace = %d\nbuffers = [%s]\n' "$2" "$TRACE" "$(yes "$CAPACITY" | head -n "$BUFFERS" | paste -sd ,)"
  for ((t = 0; t < $3; t++)); do
    cpu=$((t % $2))
    [ "$1" != last ] || cpu=$((t == $3 - 1 ? $2 - 1 : 0))
    case $1 in
      calls) lines="\"set r1 1\", \"send $((t % BUFFERS)) r1\", \"recv $((t % BUFFERS)) r2\", \"yield\", \"jnz r1 1\"" ;;
      yields) lines='"set r1 1", "yield", "jnz r1 1"' ;;
      ended) lines='"exit"' ;;
      *) lines="\"recv $((t % BUFFERS)) r0\"" ;;
    esac
    printf '\n[[thread]]\ncpu = %d\nprogram = [%s]\n' $cpu "$lines"
  done
}
# Steps of the CPUs from $1 to $2, in rounds of 128 steps each, $3 in all.
schedule() {
  local round cpu comma=
  for ((round = 0; round < $3 / 128 / ($2 - $1 + 1); round++)); do
    for ((cpu = $1; cpu <= $2; cpu++)); do printf '%s%d*128' "$comma" "$cpu"; comma=,; done
  done
}
# The instructions of a whole run of the plan under the schedule $1.
instructions() {
  valgrind --tool=callgrind --callgrind-out-file="$work/out" "$program" run --schedule "$1" < "$work/plan" > /dev/null 2> "$work/err"
  awk '$1 == "summary:" || $1 == "totals:" { print $2; exit }' "$work/out"
}
# Prints the instructions a step of $1 for $2 CPUs and $3 threads.
step() {
  local first=0 before after
  plan "$1" "$2" "$3" > "$work/plan"
  [ "$1" != last ] || first=$(($2 - 1))
  # all threads begin their calls, or end, before the steps that are counted
  before=$(instructions "$(schedule $first $(($2 - 1)) 65536)")
  after=$(instructions "$(schedule $first $(($2 - 1)) $((65536 + more)))")
  printf ' %6d' $(((after - before) / more))
}

for kind in calls yields idle ended; do
  printf '%-7s with 32 threads, on 1, 2, 4, 8, %d CPUs:' $kind "$CPUS"
  for cpus in 1 2 4 8 "$CPUS"; do step $kind $cpus 32; done; echo
done
for kind in calls yields idle ended; do
  printf '%-7s on one CPU, with 1, 4, 16, 64, %d threads:' $kind "$THREADS"
  for threads in 1 4 16 64 "$THREADS"; do step $kind 1 $threads; done; echo
done
printf '%-7s on two CPUs, with 2, 4, 16, 64, %d threads:' last "$THREADS"
for threads in 2 4 16 64 "$THREADS"; do step last 2 $threads; done; echo

# A system with as many CPUs and threads as there may be: opened, run by workers until each trace is full, and the text judged.
plan calls "$CPUS" "$THREADS" > "$work/plan"
# Runs the program on the file $2, and tells of it as $1.
tells() {
  local name=$1 input=$2; shift 2
  /usr/bin/time -q -f '%e %M' -o "$work/cost" "$program" "$@" < "$input" > "$work/out" 2> "$work/err" || true
  awk -v name="$name" '{ printf "%s: %s s, %.0f MB at most\n", name, $1, $2 / 1024 }' "$work/cost"
}
tells "$CPUS CPUs, $THREADS threads, traces of $TRACE entries, opened" "$work/plan" run
tells 'until each trace is full, by workers' "$work/plan" threads --turns 1000000000
mv "$work/out" "$work/text"
printf '  %d entries, %d traces full\n' "$(grep -c '^e ' "$work/text")" "$(grep -c TraceFull "$work/err")"
tells 'its text, judged' "$work/text" check
printf '  %s\n' "$(cat "$work/out")"
