#!/usr/bin/env bash
# Puts docs/third-lock.patch, by which a plan may name a third lock, onto a copy of the tree, and runs the program over it with no proof: a plan
# under a schedule, a plan in threads, and a count. Each prints what it prints over the other locks. .ci/run calls it; it takes a minute of
# processor time, most of it to compile the copy.
#
#   tests/third-lock.sh
if [ "${1:-}" = --help ]; then sed -n '2,/^[^#]/ s/^# \{0,1\}//p' "$0"; exit; fi
set -euo pipefail
cd "$(dirname "$0")/.."
copy=$(mktemp -d); trap 'rm -rf "$copy"' EXIT
tar --exclude=out -cf - crates crates.txt HANDLES | tar -xf - -C "$copy"
(cd "$copy" && git apply "$OLDPWD/docs/third-lock.patch")
cases="$copy/cases"; mkdir "$cases"
arguments() { local name=$1; shift; printf '%s\n' "$@" > "$cases/$name.args"; }
over_stored() { sed '/^#/d; 1,/^cpus/{s/^cpus/lock = "stored"\ncpus/}' "$1"; }
over_stored plans/woken-from-afar.toml > "$cases/run"
arguments run run --schedule '0*13,1*24,0*20'
sed '/^end$/q' plans/expected/woken-from-afar.txt > "$cases/run.stdout"
cp "$cases/run" "$cases/threads"
arguments threads threads --turns 1000000
cp "$cases/run.stdout" "$cases/threads.stdout"
: > "$cases/count"
arguments count count --cpus 4 --times 100 --lock stored
printf 'plain 400\ntable 400\n' > "$cases/count.stdout"
unproved=$PWD/tools/unproved.py
cd "$copy/crates/mctower"
if "$unproved" mctower --cases "$cases" > "$copy/log" 2>&1; then
  echo "third-lock: $(tail -1 "$copy/log")"
else
  tail -20 "$copy/log"; echo "third-lock: failed"; exit 1
fi
