#!/usr/bin/env bash
# Runs a plan by the command in its first lines.   plans/run.sh PLAN
# MCTOWER is the path of the program to run; the default is the first `mctower` on the PATH. If the program rejects the plan or the
# schedule, plans/explain.py prints where and why after its error line, if there is a Python.
set -eu
[ "${1:-}" != --help ] || { sed -n '2,/^[^#]/ s/^# \{0,1\}//p' "$0"; exit 0; }
refuse() { echo "run.sh: $*" >&2; exit 2; }
[ $# -eq 1 ] || refuse "usage: plans/run.sh PLAN"
plan=$1 wanted=${MCTOWER:-mctower} status=0
[ -f "$plan" ] || refuse "no such file: $plan; expected a plan, for example plans/one-send.toml"
words=$(sed -n 's/^# *mctower \(.*\) < .*/\1/p' "$plan" | head -n 1)
[ -n "$words" ] || refuse "$plan has no command in its first lines; expected one as in plans/one-send.toml"
program=$(type -P -- "$wanted") ||
  refuse "no such program: $wanted; build it with tools/prove-all.py (\`make prove\`) and put crates/mctower/out on the PATH, or set MCTOWER to its path"
eval "set -- $words"
"$program" "$@" < "$plan" || status=$?
if [ "$status" != 0 ] && type -P python3 > /dev/null; then
  "$(dirname "$0")/explain.py" --beside "$plan" >&2 || true
fi
exit "$status"
