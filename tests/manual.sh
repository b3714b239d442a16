#!/usr/bin/env bash
# Holds the man page and the completions in manual/ to the text of the help (tools/manual.py), tries what bash completes, and whether `man` and
# zsh read theirs without a warning, where they are there. .ci/run calls it; it takes a second. The last line is 'manual: N passed, M failed'.
#
#   tests/manual.sh
if [ "${1:-}" = --help ]; then sed -n '2,/^[^#]/ s/^# \{0,1\}//p' "$0"; exit; fi
set -u
cd "$(dirname "$0")/.."
passed=0 failed=0

# Counts a row, called $1, that the rest decides.
row() {
  local name=$1; shift
  if "$@"; then passed=$((passed + 1)); else failed=$((failed + 1)); echo "manual: $name"; fi
}
# Whether bash completes the words behind $1 to $1.
completes() {
  local wanted=$1; shift
  COMP_WORDS=("$@") COMP_CWORD=$(($# - 1)) COMPREPLY=()
  _mctower
  [ "${COMPREPLY[*]}" = "$wanted" ] || { echo "manual: '$*' is completed to '${COMPREPLY[*]}', expected '$wanted'"; return 1; }
}

row 'what the help says' tools/manual.py
source manual/mctower.bash
row 'a command' completes count mctower cou
row 'the options of a command' completes '--cpus --times --lock --help' mctower count --
row 'an option' completes --turns mctower threads --t
row 'the name of a lock' completes grant mctower count --lock g
row 'a value that nobody knows' completes '' mctower run --schedule 0
if type -P man > /dev/null; then
  row 'the man page' [ -z "$(man --warnings -l manual/mctower.1 2>&1 > /dev/null)" ]
else
  echo 'manual: no man is here to read the page'
fi
if type -P zsh > /dev/null; then row 'zsh' zsh -n manual/_mctower; else echo 'manual: no zsh is here to read its completion'; fi
echo "manual: $passed passed, $failed failed"
[ "$failed" = 0 ]
