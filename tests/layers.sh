#!/usr/bin/env bash
# Runs the tests of the layers, tests/layers, without proof: it adds them to a copy of the tree as a separate crate (`layer_tests`, with the line of
# tests/layers/stands-on.txt), builds that, and runs each test in its own process. .ci/run calls it; it takes three minutes of processor time,
# most of it to compile the copy.
#
#   tests/layers.sh            prints each test, and of a failed one the file and line, what was seen (left) and expected (right)
#   tests/layers.sh --format   formats the files of tests/layers as `rt fmt` formats those of a crate, and runs nothing
#   tests/layers.sh --lay FOLDER MODULE..   copies the tree into FOLDER, with a crate of only these modules, and runs nothing
#
# Their names end in .rs, because `rt ci` accepts a .rt file only in a crate. One module, monitor_rows, is what tests/monitor_rows.py prints: plans, and how
# each ends according to the Python models of plans/. A test that cannot be built, one that does not end, a file that is not
# formatted, and a run of no test count as failed. The last line is 'N passed, M failed'.
if [ "${1:-}" = --help ]; then sed -n '2,/^[^#]/ s/^# \{0,1\}//p' "$0"; exit; fi
set -uo pipefail
cd "$(dirname "$0")/.."
tests=$PWD/tests/layers unproved=$PWD/tools/unproved.py
if [ "${1:-}" = --lay ]; then
  copy=$(realpath "$2"); modules=("${@:3}")
else
  copy=$(mktemp -d); trap 'rm -rf "$copy"' EXIT; modules=()
fi
crate=$copy/crates/layer_tests

# Names the files of the copy in what was said as those of tests/layers.
told() {
  sed -E 's|\bsrc/([a-z_]+)\.rt:|tests/layers/src/\1.rs:|' "$copy/said"
}
# Ends with one failure, which $1 names, behind the end of what was said.
fails() {
  [ ! -s "$copy/said" ] || told | tail -n 40
  echo "layers: $1"; echo '0 passed, 1 failed'; exit 1
}

# Lays the module $1 onto the copy.
lays() {
  if [ "$1" = monitor_rows ]; then
    tests/monitor_rows.py > "$crate/src/$1.rt" 2> "$copy/said"
  else
    cp "$tests/src/$1.rs" "$crate/src/$1.rt"
  fi || fails "$1 could not be laid onto the copy"
}

tar --exclude=out --exclude=wrong --exclude=must-fail -cf - crates crates.txt HANDLES | tar -xf - -C "$copy" || fails 'the tree could not be copied'
mkdir -p "$crate/src" && cat "$tests/stands-on.txt" >> "$copy/crates.txt" || fails 'the tests could not be laid onto the copy'
if [ "${1:-}" = --lay ]; then
  { echo '#![tactic(auto)]'; printf 'mod %s;\n' "${modules[@]}"; } > "$crate/src/lib.rt"
  for module in "${modules[@]}"; do lays "$module"; done
  exit
fi
for file in "$tests"/src/*.rs; do lays "$(basename "$file" .rs)"; done
lays monitor_rows
cd "$crate" || fails 'the tests could not be laid onto the copy'

rt fmt > "$copy/said" 2>&1 || fails 'rt fmt does not read the tests'
unlike=()
for file in "$tests"/src/*.rs; do
  laid=src/$(basename "$file" .rs).rt
  cmp -s "$file" "$laid" && continue
  if [ "${1:-}" = --format ]; then cp "$laid" "$file"; echo "layers: laid out ${file#"$PWD"/}"; else unlike+=("${file##*/}"); fi
done
[ "${1:-}" != --format ] || exit 0

timeout 1200 "$unproved" --test --seconds 300 > "$copy/said" 2>&1
status=$?
wanted=$(sed -n 's/^tests: \([0-9]*\)$/\1/p' "$copy/said")
[ "$status" != 124 ] || fails 'the tests were not built and run in 20 minutes'
[ -n "$wanted" ] || fails "the tests were not run (the try ended with status $status)"
told | grep -v '^\(races\|run\|tests\)[:=]'
passed=$(grep -c '^test .* \.\.\. ok$' "$copy/said")
failed=$((wanted - passed))
for file in "${unlike[@]}"; do echo "layers: tests/layers/src/$file is not laid out: tests/layers.sh --format"; failed=$((failed + 1)); done
if [ "$failed" = 0 ] && { [ "$wanted" = 0 ] || [ "$status" != 0 ]; }; then echo "layers: no test was run, or the try ended with status $status"; failed=1; fi
echo "$passed passed, $failed failed"
[ "$failed" = 0 ]
