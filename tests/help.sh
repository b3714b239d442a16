#!/usr/bin/env bash
# Runs each script of the tree with --help: it must print, on standard output and in one screen, what it does, end with status 0, and do nothing else.
# .ci/run calls it; it takes seconds. The last line is 'help: N passed, M failed'.
#
#   tests/help.sh
if [ "${1:-}" = --help ]; then sed -n '2,/^[^#]/ s/^# \{0,1\}//p' "$0"; exit; fi
set -u
cd "$(dirname "$0")/.."
room=$(mktemp -d); trap 'rm -rf "$room"' EXIT
passed=0 failed=0
lines=60 # of a screen

# Tells what is wrong with what the script $1 says to --help, or nothing.
fault_of() {
  timeout 20 "$1" --help > "$room/out" 2> "$room/err" < /dev/null || { echo "status $?"; return; }
  [ -s "$room/out" ] || echo "nothing on standard output"
  [ ! -s "$room/err" ] || echo "standard error: $(head -n 1 "$room/err")"
  [ "$(wc -l < "$room/out")" -le $lines ] || echo "more than $lines lines"
}

for script in .ci/run $(git ls-files -- 'tests/*' 'tools/*' 'bench/*' 'plans/*' 'web/*' 'metal/*' 'explore/*' 'embed/*' | grep -E '^[^/]+/[^/]+\.(sh|py)$'); do
  [ -x "$script" ] || continue # sourced or imported by others
  fault=$(fault_of "$script")
  if [ -z "$fault" ]; then passed=$((passed + 1)); else failed=$((failed + 1)); echo "help: $script --help: $fault"; fi
done
echo "help: $passed passed, $failed failed"
[ "$failed" = 0 ] && [ "$passed" -gt 0 ]
