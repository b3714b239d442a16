# What the scripts that measure share: they source it in the folder bench/. It leaves in `ours` the proved program and in `work` a folder
# of their own. The commands that are compared stand in the arrays `plain` and `mine`.
export LC_ALL=C
ours=$(realpath ../crates/mctower/out/mctower 2> /dev/null) && [ -x "$ours" ] || {
  echo "build mctower first: (cd crates/mctower && rt run -- count --cpus 1 --times 1)"; exit 1
}
work=$(mktemp -d); trap 'rm -rf "$work"' EXIT

# Runs the command of the array $1 on the input $2, and leaves what it writes in the files out and err.
run() {
  local -n words=$1; local status=0
  "${words[@]}" < "$2" > "$work/out" 2> "$work/err" || status=$?
  [ $status = 0 ] || echo "$1 ended with status $status (124: it was stopped in time)"
}
# Measures plain and ours by turns: $1 is the name, $2 the input, $3 how often and $4 for how many seconds at most; the rest is for turns.py.
measure() {
  echo "$1:"
  ./turns.py --turns "$3" --seconds "$4" "${@:5}" "$2" plain "${plain[@]}" -- ours "${mine[@]}"
}
# Keeps as many busy loops running beside what is measured as there are processors. They end with the script, however it ends.
crowd() {
  local count loops=()
  for ((count = $(nproc); count > 0; count--)); do
    while kill -0 $$ 2> /dev/null; do for ((round = 0; round < 20000; round++)); do :; done; done &
    loops+=($!)
  done
  trap "kill ${loops[*]} 2> /dev/null; wait 2> /dev/null; rm -rf '$work'" EXIT
}
