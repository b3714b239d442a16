#!/usr/bin/env bash
# Runs plans in threads with the built program, each with ticket locks and with grant locks. It checks standard output, the stop reasons on standard
# error, and that `check` prints yes for the trace. It takes seconds; .ci/run calls it after rt ci.
#
#   tests/threads.sh [PROGRAM..]
#
# The default is each build of mctower that `rt ci` or `rt run` left. The last line is 'threads: N passed, M failed'.
if [ "${1:-}" = --help ]; then sed -n '2,/^[^#]/ s/^# \{0,1\}//p' "$0"; exit; fi
set -u
export LC_ALL=C
cd "$(dirname "$0")/.."
room=$(mktemp -d); trap 'rm -rf "$room"' EXIT
[ $# -gt 0 ] || set -- $(ls crates/mctower/out/mctower crates/mctower/out/mctower.by-rattle 2> /dev/null)
passed=0; failed=0

# Whether the two texts are one: $1 names what is told, $2 is wanted and $3 given.
same() {
  if [ "$2" = "$3" ]; then
    passed=$((passed + 1))
  else
    failed=$((failed + 1)); printf 'threads: %s, lock %s: %s\n  wanted: %s\n  given: %s\n' "$program" "$lock" "$1" "$2" "$3"
  fi
}
# Runs the plan $1 with the lock `lock` for $2 turns.
run() {
  { echo "lock = \"$lock\""; cat "$1"; } > "$room/plan"
  timeout 60 "$program" threads --turns "$2" < "$room/plan" > "$room/out" 2> "$room/err"
  same "status with $2 turns of $1" 0 "$?"
}
# Runs it so: $3 is wanted on standard output, $4 on standard error.
row() {
  run "$1" "$2"
  same "output with $2 turns of $1" "$3" "$(cat "$room/out")"
  same "stops with $2 turns of $1" "$4" "$(cat "$room/err")"
  same "verdict with $2 turns of $1" yes "$("$program" check < "$room/out")"
}

head=$'mctower-trace 1\nbuffers 1\ncap 0 '
sent=$'\ne 0 0 send 0 7 0 0\nleft 0 7\nend'
closes=$'mctower-trace 2\nbuffers 1\ncap 0 1\ne 0 2 close 0 - 0 0\ne 0 0 recvc 0 - 1 0\ne 0 1 recvc 0 - 2 1\nleft 0\nend'
cat > "$room/twice.toml" <<'PLAN'
cpus = 1
trace = 1
buffers = [32]
[[thread]]
cpu = 0
program = ["set r0 7", "send 0 r0", "send 0 r0"]
PLAN
cat > "$room/hundred.toml" <<'PLAN'
cpus = 2
trace = 200
buffers = [4]
[[thread]]
cpu = 0
program = ["set r0 100", "set r1 1", "send 0 r0", "sub r0 r1", "jnz r0 2"]
[[thread]]
cpu = 1
program = ["set r0 100", "set r1 1", "recv 0 r2", "sub r0 r1", "jnz r0 2"]
PLAN
cat > "$room/closed.toml" <<'PLAN'
cpus = 3
trace = 200
buffers = [4]
[[thread]]
cpu = 0
program = ["set r0 100", "set r1 1", "send 0 r0", "sub r0 r1", "jnz r0 2", "close 0"]
[[thread]]
cpu = 1
program = ["set r1 1", "recv 0 r0 3", "jnz r1 1", "exit"]
[[thread]]
cpu = 2
program = ["set r1 1", "recv 0 r0 3", "jnz r1 1", "exit"]
PLAN
cat > "$room/records.toml" <<'PLAN'
cpus = 2
trace = 200
buffers = [4]
[[thread]]
cpu = 0
program = ["set r0 100", "set r1 1", "sendm 0 8", "sub r0 r1", "jnz r0 2", "close 0"]
[[thread]]
cpu = 1
program = ["recvm 0 2", "jnz r1 0", "exit"]
PLAN
{
  printf 'cpus = 16\ntrace = 20\nbuffers = [4]\n'
  for c in $(seq 0 15); do
    call='send 0 r0'; [ "$c" -lt 8 ] || call='recv 0 r2'
    printf '[[thread]]\ncpu = %d\nprogram = ["set r0 10", "set r1 1", "%s", "sub r0 r1", "jnz r0 2"]\n' "$c" "$call"
  done
} > "$room/sixteen.toml"
words=$'mctower-trace 3\nbuffers 1\ncap 0 1\ne 0 0 send 0 1,2 0 0\ne 0 0 recv 0 1,2 1 0\ne 0 0 send 0 0 2 1\nleft 0 0\nend'
stops=$'cpu 0 AllEnded\ncpu 1 AllEnded'
all=$(for c in $(seq 0 15); do echo "cpu $c AllEnded"; done)
# all that is in this plan has one order, whichever CPU is first: so the text is that of a run
limits=$(sed '/^end$/q' tests/long/expected/limits.txt)

# One hundred messages from one CPU to another. The order of sends and receives is the threads' own; each side's is not.
hundred() {
  run "$room/hundred.toml" 1000000000
  same 'stops of a hundred messages' "$stops" "$(cat "$room/err")"
  same 'entries of a hundred messages' 200 "$(grep -c '^e ' "$room/out")"
  same 'sends of a hundred messages' "$(seq 100 -1 1)" "$(awk '$4 == "send" && $2 == 0 && $3 == 0 { print $6 }' "$room/out")"
  same 'receives of a hundred messages' "$(seq 100 -1 1)" "$(awk '$4 == "recv" && $2 == 1 && $3 == 1 { print $6 }' "$room/out")"
  same 'what is left of a hundred messages' 'left 0' "$(grep '^left' "$room/out")"
  same 'verdict on a hundred messages' yes "$("$program" check < "$room/out")"
}

# One hundred messages and a close from one CPU to two others, each of which ends once it finds the buffer closed. Who receives which
# message is up to the threads; that each is received once, in order, and that both end, is not.
closed() {
  run "$room/closed.toml" 1000000000
  same 'stops of a hundred messages and a close' "$stops"$'\ncpu 2 AllEnded' "$(cat "$room/err")"
  same 'head of a text with a close' 'mctower-trace 2' "$(head -n 1 "$room/out")"
  same 'receives behind a close' "$(seq 100 -1 1)" "$(awk '$4 == "recv" { print $6 }' "$room/out")"
  same 'who closed, and how often' 'e 0 0 close 0 - 0' "$(awk '$4 == "close" { print $1, $2, $3, $4, $5, $6, $8 }' "$room/out")"
  same 'who found it closed' $'recvc 1\nrecvc 2' "$(awk '$4 ~ /c$/ { print $4, $3 }' "$room/out" | sort)"
  same 'what is left behind a close' 'left 0' "$(grep '^left' "$room/out")"
  same 'verdict on a hundred messages and a close' yes "$("$program" check < "$room/out")"
}

# One hundred messages of eight words and a close from one CPU to another, in order and with all their words.
records() {
  local sent; sent=$(seq 100 -1 1 | sed 's/$/,1,0,0,0,0,0,0/')
  run "$room/records.toml" 1000000000
  same 'stops of a hundred messages of words' "$stops" "$(cat "$room/err")"
  same 'head of a text with messages of words' 'mctower-trace 3' "$(head -n 1 "$room/out")"
  same 'sends of a hundred messages of words' "$sent" "$(awk '$4 == "send" { print $6 }' "$room/out")"
  same 'receives of a hundred messages of words' "$sent" "$(awk '$4 == "recv" { print $6 }' "$room/out")"
  same 'who closed behind messages of words, and who found it closed' $'close 0 -\nrecvc 1 -' "$(awk '$6 == "-" { print $4, $3, $6 }' "$room/out")"
  same 'what is left of a hundred messages of words' 'left 0' "$(grep '^left' "$room/out")"
  same 'verdict on a hundred messages of words' yes "$("$program" check < "$room/out")"
}

# Eighty messages from eight CPUs to eight others, through one buffer.
sixteen() {
  run "$room/sixteen.toml" 1000000000
  same 'stops of sixteen workers' "$all" "$(cat "$room/err")"
  same 'sends and receives of each of sixteen workers' "$(for c in $(seq 0 7); do echo "$c send 10"; done; for c in $(seq 8 15); do echo "$c recv 10"; done)" \
    "$(awk '$1 == "e" { count[$2 " " $4]++ } END { for (c in count) print c, count[c] }' "$room/out" | sort -n)"
  same 'what is left of sixteen workers' 'left 0' "$(grep '^left' "$room/out")"
  same 'verdict on sixteen workers' yes "$("$program" check < "$room/out")"
}

for program; do
  for lock in ticket grant; do
    # the effect comes in the eleventh turn, which ends a section that was under way after ten
    row plans/one-send.toml 1000000000 "${head}1$sent" 'cpu 0 AllEnded'
    row plans/one-send.toml 10 "${head}1$sent" 'cpu 0 TurnsUsed'
    row plans/one-send.toml 5 "${head}1"$'\nleft 0\nend' 'cpu 0 TurnsUsed'
    row "$room/twice.toml" 1000 "${head}32$sent" 'cpu 0 TraceFull'
    row tests/rows/closed-before-two-receivers.toml 1000000000 "$closes" 'cpu 0 AllEnded'
    row tests/rows/most-threads.toml 1000000000 "${head}1"$'\nleft 0\nend' "$all"
    row tests/rows/words.toml 1000000000 "$words" 'cpu 0 AllEnded'
    row tests/long/limits.toml 1000000000 "$limits" "$all"
    hundred
    closed
    records
    sixteen
  done
done
[ $((passed + failed)) -gt 0 ] || { echo "threads: build the program first: (cd crates/mctower && rt run -- count --cpus 1 --times 1)"; exit 1; }
echo "threads: $passed passed, $failed failed"
[ "$failed" = 0 ]
