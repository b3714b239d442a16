#!/usr/bin/env bash
# Counts the instructions (callgrind) of `mctower run` on the plans and schedules of make.py, over grant words, compared with plain_tower.rs, which
# stores the same log of events. Prints for each kind the ratio of the whole commands, and that of only the steps: without what one step of the same
# plan takes, which is opening, and without what gathers and writes the text. Next to them is the ratio to the plain program in the build where a
# failed poll stands for all following steps of its CPU (--cfg stretch). Then it measures the wall-clock time of each kind, on one processor (turns.py),
# *misses* and *through* with both locks. Counts take a minute, and other work does not disturb them; for times the machine should be quiet, or use
# priority: chrt --rr 1 bench/steps.sh.
# Build first: (cd crates/mctower && rt run -- count --cpus 1 --times 1).
#
#   bench/steps.sh [TURNS]   how often each time is measured (default: 21); 0: only counts
if [ "${1:-}" = --help ]; then sed -n '2,/^[^#]/ s/^# \{0,1\}//p' "$0"; exit; fi
set -eu
cd "$(dirname "$0")"
. ./measure.sh
turns=${1:-21}
# the functions that gather and write the text: of the plain program, and of ours by their names in the proved binary
text_of_plain='step_table::write_trace'
text_of_ours='trace_texts::write_text'
rustc -O -o "$work/plain_tower" ../tests/plain_tower.rs
rustc -O --check-cfg 'cfg(stretch)' --cfg stretch -o "$work/plain_stretch" ../tests/plain_tower.rs

# Counts the command of the array $1 on the plan $2: leaves in `whole` its instructions, and in `text` those within functions that match $3.
count() {
  local -n words=$1
  valgrind --tool=callgrind --callgrind-out-file="$work/counted" "${words[@]}" < "$2" > /dev/null 2> "$work/err"
  callgrind_annotate --inclusive=yes --threshold=100 "$work/counted" 2> /dev/null | cut -c1-400 > "$work/annotated"
  whole=$(awk '/PROGRAM TOTALS/ { gsub(",", "", $1); print $1 }' "$work/annotated")
  text=$(awk -v pattern="$3" '/\]|:/ && $0 ~ pattern { gsub(",", "", $1); sum += $1 } END { print sum + 0 }' "$work/annotated")
}

printf '%-8s %8s %8s %7s %12s %19s\n' kind plain ours ratio 'steps alone' 'plain in stretches'
for kind in misses through across turns singly once; do
  { echo 'lock = "grant"'; ./make.py plan $kind; } > "$work/plan"
  for program in plain ours stretch; do
    for schedule in "$(./make.py schedule $kind)" 0; do
      case $program in
        plain) command=("$work/plain_tower" "$schedule" log); pattern=$text_of_plain ;;
        stretch) command=("$work/plain_stretch" "$schedule" log); pattern=$text_of_plain ;;
        ours) command=("$ours" run --schedule "$schedule"); pattern=$text_of_ours ;;
      esac
      count command "$work/plan" "$pattern"
      echo "$program $whole $text"
    done
  done | awk -v kind=$kind '{ if ($1 != last) { whole[$1] = $2; alone[$1] = $2 - $3 } else alone[$1] -= $2 - $3; last = $1 }
    END { printf "%-8s %6.1f M %6.1f M %7.2f %12s %19.2f\n", kind, whole["plain"] / 1e6, whole["ours"] / 1e6, whole["plain"] / whole["ours"],
      (alone["ours"] > 1e6 ? sprintf("%.2f", alone["plain"] / alone["ours"]) : "-"), whole["stretch"] / whole["ours"] }'
done

[ "$turns" -gt 0 ] || exit 0
core=$(($(nproc) - 1))
for kind in misses through across turns singly once; do
  for lock in grant ticket; do
    [ $lock = grant ] || case $kind in misses | through) ;; *) continue ;; esac
    { echo "lock = \"$lock\""; ./make.py plan $kind; } > "$work/plan"
    schedule=$(./make.py schedule $kind)
    plain=("$work/plain_tower" "$schedule" log); mine=("$ours" run --schedule "$schedule")
    measure "$kind over $lock locks" "$work/plan" "$turns" 30 --cores $core
  done
done
