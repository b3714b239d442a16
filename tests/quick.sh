#!/usr/bin/env bash
# Tries a change of one crate: lays out its files, proves it over kept work, runs its tests and those of the layers with no proof, and tries its
# wrong bodies. Over kept work it takes some minutes, most of them in cpu, cpu_workers, mctower and plain_layers. It is not the gate: that is .ci/run.
#
#   tests/quick.sh CRATE
#
# It stops at the first step that fails, with the end of what that step said. The last line is 'quick: CRATE passed, N seconds'.
if [ "${1:-}" = --help ]; then sed -n '2,/^[^#]/ s/^# \{0,1\}//p' "$0"; exit; fi
set -u
cd "$(dirname "$0")/.."
crate=${1:-}
[ $# = 1 ] && [ -d "crates/$crate/src" ] || { echo "quick: name one crate of crates.txt, as: tests/quick.sh thread_blocks"; exit 2; }
said=$(mktemp); trap 'rm -f "$said"' EXIT

# Runs a step, called $1, in the crate's folder, and tells how long it took; stops where it fails.
step() {
  local name=$1 began=$SECONDS; shift
  if (cd "crates/$crate" && "$@") > "$said" 2>&1; then
    echo "quick: $name: $((SECONDS - began)) s"
  else
    tail -n 30 "$said"; echo "quick: $crate: $name FAILED"; exit 1
  fi
}

before=$(git diff -- "crates/$crate" | cksum)
step layout rt fmt
[ "$before" = "$(git diff -- "crates/$crate" | cksum)" ] || echo "quick: files of crates/$crate were laid out: look at git diff"
step proof rt check
if grep -rq '^ *#\[test\]' "crates/$crate/src"; then step tests rt try --test; fi
if grep -qw "$crate" tests/layers/stands-on.txt; then step 'tests of layers' ../../tests/layers.sh; fi
[ ! -d "crates/$crate/wrong" ] || step 'wrong bodies' ../../tests/wrong-bodies.py "$crate"
echo "quick: $crate passed, $SECONDS seconds"
