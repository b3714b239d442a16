#!/usr/bin/env bash
# Measures large inputs: prints for each its size, the first line of the result, processor seconds, and the peak of memory next to the size. Each input
# runs twice, ten times as large the second time, so that a cost that is not proportional shows.
#
#   bench/large.sh [PROGRAM]
if [ "${1:-}" = --help ]; then sed -n '2,/^[^#]/ s/^# \{0,1\}//p' "$0"; exit; fi
set -eu
export LC_ALL=C
cd "$(dirname "$0")/.."
program=$(realpath "${1:-crates/mctower/out/mctower}")
room=$(mktemp -d)
trap 'rm -rf "$room"' EXIT

# Measures the program on the file `in`: $1 names the input, the rest are the program's words.
measure() {
  local name=$1 size user system kilobytes
  shift
  size=$(wc -c < "$room/in")
  /usr/bin/time -q -f '%U %S %M' -o "$room/cost" timeout 300 "$program" "$@" < "$room/in" > "$room/out" 2>&1 || true
  read -r user system kilobytes < "$room/cost"
  printf '%-32s %10d bytes  %6.2f s  memory %5.1f times the size  %s\n' "$name" "$size" "$(awk -v u="$user" -v s="$system" 'BEGIN { print u + s }')" \
    "$(awk -v k="$kilobytes" -v s="$size" 'BEGIN { print k * 1024 / s }')" "$(head -n 1 "$room/out")"
}
head_of_plan=$'cpus = 1\ntrace = 4\nbuffers = [1]\n'
thread=$'[[thread]]\ncpu = 0\nprogram = ["exit"]\n'

for n in 200000 2000000; do
  awk -v n=$n 'BEGIN { printf "mctower-trace 1\nbuffers 1\ncap 0 1\n"
    for (i = 0; i < n; i++) printf "e 0 0 send 0 7 %d %d\ne 0 0 recv 0 7 %d %d\n", 2 * i, i, 2 * i + 1, i
    printf "left 0\nend\n" }' > "$room/in"
  measure 'a trace text' check
done
for n in 10000000 100000000; do
  head -c $n /dev/zero | tr '\0' e > "$room/in"
  measure 'one line' check
done
for n in 1000000 10000000; do
  { head -c $n /dev/zero | tr '\0' '#'; echo; printf '%s%s' "$head_of_plan" "$thread"; } > "$room/in"
  measure 'a plan with a long comment' run
done
for n in 60000 600000; do
  { printf '%s' "$head_of_plan"; awk -v n=$n 'BEGIN { for (i = 0; i < n; i++) printf "key%d = %d\n", i, i }'; printf '%s' "$thread"; } > "$room/in"
  measure 'a plan with many other keys' run
done
for n in 100000 1000000; do
  { printf 'cpus = 1\ntrace = 4\nbuffers = [1'; awk -v n=$n 'BEGIN { for (i = 0; i < n; i++) printf ",1" }'; echo ']'; } > "$room/in"
  measure 'a plan with many buffers' run
done
for n in 100000 1000000; do
  { printf '%s' "$head_of_plan"; awk -v n=$n 'BEGIN { for (i = 0; i < n; i++) printf "[table%d]\n", i }'; printf '%s' "$thread"; } > "$room/in"
  measure 'a plan with many other tables' run
done
for n in 24000 240000; do
  { printf '%s' "$head_of_plan"; yes "${thread%$'\n'}" | head -n $((3 * n)); } > "$room/in"
  measure 'a plan with many threads' run
done
for n in 140000 1400000; do
  { printf '%s' "$head_of_plan${thread%]*}"; yes ', "exit"' | head -n $n; echo ']'; } > "$room/in"
  measure 'a plan with many instructions' run
done
for n in 1000000 10000000; do
  { printf '%s' "$head_of_plan${thread%\"*}"; head -c $n /dev/zero | tr '\0' x; echo '"]'; } > "$room/in"
  measure 'a plan with a long instruction' run
done
for n in 1000 10000; do
  { printf 'x = '; head -c $n /dev/zero | tr '\0' '['; head -c $n /dev/zero | tr '\0' ']'; echo; } > "$room/in"
  measure 'brackets within brackets' run
  { printf 'x = '; yes '{a=' | head -n $n | tr -d '\n'; printf 1; head -c $n /dev/zero | tr '\0' '}'; echo; } > "$room/in"
  measure 'tables within tables' run
  { yes a | head -n $n | paste -sd .; echo '= 1'; } | tr -d '\n' > "$room/in"
  measure 'keys within keys' run
done
