#!/usr/bin/env bash
# Runs the built program with one failure, at every point of a whole run of each command: every single allocation, all from one on, every start of a
# thread, all from one on, standard output cut after every byte, standard input that fails after every byte; and with slow starts and wake-ups of threads.
# Each outcome must be that of the run without failures, or the error that is promised for it, with exactly the output that is then allowed. If worker
# threads race, two runs may differ: an outcome is then right if `check` prints yes for the trace, all messages got through and each CPU has its line. It
# takes half a minute; .ci/run calls it after rt ci.
#
#   tests/faults.sh [PROGRAM]
#
# It needs the built program, and rustc. The last line is 'faults: N outcomes, M wrong'.
if [ "${1:-}" = --help ]; then sed -n '2,/^[^#]/ s/^# \{0,1\}//p' "$0"; exit; fi
set -u
export LC_ALL=C
cd "$(dirname "$0")/.."
program=$(realpath "${1:-crates/mctower/out/mctower}")
[ -x "$program" ] || { echo "faults: build the program first: (cd crates/mctower && rt run -- count --cpus 1 --times 1)"; exit 1; }
PATH=$PATH:$HOME/.cargo/bin
command -v rustc > /dev/null || { echo "faults: nothing was tested: there is no rustc here to build what fails calls"; exit 1; }
room=$(mktemp -d)
trap 'rm -rf "$room"' EXIT
rustc --edition 2024 -O -C panic=abort --crate-type cdylib -o "$room/librefuse.so" tests/refuse.rs || exit 1
outcomes=0
wrong=0

# Reads the file $2 into the variable $1, in no other process. No variable holds a byte 0: then it has a text that no command prints.
read_whole() {
  if IFS= read -rd '' "$1" < "$2"; then printf -v "$1" 'a byte 0'; fi
}
# Runs the command in `words` on the file `input`, with $1 in the environment: leaves `status`, the file out and its text in `out`, all lines of standard
# error in the file told, those of the program in `err`, and in `refused` whether anything was refused.
run() {
  status=0
  timeout 20 env LD_PRELOAD="$room/librefuse.so" "$1" "$program" "${words[@]}" < "$input" > "$room/out" 2> "$room/told" || status=$?
  refused=no
  read_whole out "$room/out"
  read_whole err "$room/told"
  err=$'\n'$err
  while [[ "$err" = *$'\nrefused\n'* ]]; do
    refused=yes
    err=${err/$'\nrefused\n'/$'\n'}
  done
  err=${err#$'\n'}
}
# Whether the outcome is that of the unhindered run, or, where `races` says so, as good as it.
is_true() {
  [ "$status" = "$true_status" ] && [ "$err" = "$true_err" ] && { [ "$out" = "$true_out" ] || is_as_good; }
}
is_as_good() {
  [ "$races" = yes ] && [ "$("$program" check < "$room/out")" = yes ] && [ "$(messages "$room/out")" = "$(messages "$room/true_out")" ]
}
# The number of sends and of receives, and the lines of the text that are no entries.
messages() {
  awk '$1 == "e" { count[$4]++; next } { print } END { print count["send"], count["recv"] }' "$1"
}
# Whether the outcome is status 1 with the line of the refusal $1, and the first $2 bytes of the true output.
is_refusal() {
  [ "$status" = 1 ] && [ "$err" = "error: $1"$'\n' ] && [ "$out" = "${true_out:0:$2}" ]
}
# Counts an outcome, which is wrong where $1 is not 0; $2 tells what was refused.
count() {
  outcomes=$((outcomes + 1))
  if [ "$1" != 0 ]; then
    wrong=$((wrong + 1))
    printf 'faults: %s with %s\n  status %s\n  output: %s\n  error: %s\n' "${words[*]}" "$2" "$status" "$out" "$err"
  fi
}

# Each allocation, alone or with all later ones, by the name $1 of what refuses it. The start of a thread takes memory too: as many refused allocations may be
# told as a refused start as there are starts, and no more.
allocations() {
  local n=1 starting=0
  while run "$1=$n"; [ "$refused" = yes ]; do
    is_true || is_refusal 'NoMemory(1)' 0 || { starting=$((starting + 1)); [ "$starting" -le "$starts" ] && is_refusal 'NoThread(5)' 0; }
    count $? "$1=$n"
    n=$((n + 1))
  done
}
# Each start of a thread, alone or with all later ones, and in `starts` how many there are. None is started without need, so no outcome is the true one, and
# behind a refused start none is asked for.
threads() {
  local n=1
  while run "$1=$n"; [ "$refused" = yes ]; do
    { is_refusal 'NoThread(5)' 0 || is_refusal 'NoMemory(1)' 0; } && [ "$(grep -c '^refused$' "$room/told")" = 1 ]
    count $? "$1=$n"
    n=$((n + 1))
  done
  starts=$((n - 1))
}
outputs() {
  local n length
  length=${#true_out}
  for ((n = 0; n < length; n++)); do
    run "CUT_OUT=$n"
    is_refusal 'WriteFault(8)' "$n"
    count $? "CUT_OUT=$n"
  done
  run "CUT_OUT=$length"
  is_true
  count $? "CUT_OUT=$length"
}
# A long input fails behind every 499th byte, and behind its last.
inputs() {
  local n length step=1
  length=$(wc -c < "$input")
  if [ "$length" -gt 9999 ]; then step=499; fi
  for n in $(seq 0 "$step" $((length - 1))) "$length"; do
    run "CUT_IN=$n"
    is_refusal 'ReadFault(7)' 0
    count $? "CUT_IN=$n"
  done
}

# The words of a command behind its input. Before that, the status of the unhindered run, whether the input is to fail too, and whether two runs of it may
# differ: of such a one standard output is not cut.
command() {
  local reads=$2
  true_status=$1
  races=$3
  input=$4
  shift 4
  words=("$@")
  run NOTHING=refused
  [ "$status" = "$true_status" ]
  count $? "nothing refused, where status $true_status is wanted"
  cp "$room/out" "$room/true_out"
  true_out=$out
  true_err=$err
  run SLOWLY=10
  is_true
  count $? SLOWLY=10
  threads REFUSE_THREAD_FROM
  threads REFUSE_THREAD
  allocations REFUSE
  allocations REFUSE_FROM
  if [ "$races" = no ]; then outputs; fi
  if [ "$reads" = yes ]; then inputs; fi
}

sent=$'mctower-trace 1\nbuffers 1\ncap 0 1\ne 0 0 send 0 7 0 0\nleft 0 7\nend\n'
printf '%s' "$sent" > "$room/yes.txt"
printf '%s' "${sent/left 0 7/left 0 8}" > "$room/no.txt"
printf 'mctower-trace 1\nbuffers 1\ncap 0 2\ne 0 0 send 0 7 0 0\ne 1 1 recv 0 7 1 0\ne 1 1 recv 0 8 2 1\nleft 0\nend\n' > "$room/empty.txt"
# Five buffers, threads and lines, so that each vector has to grow again; two threads of one CPU, and one of another; a plan and a program with a fault.
cat > "$room/five.toml" << 'PLAN'
cpus = 1
trace = 4
buffers = [1, 2, 3, 4, 5]
lock = "ticket"
thread = [
    { cpu = 0, program = ["set r0 7", "send 0 r0", "yield", "jnz r0 0", "exit"] },
    { cpu = 0, program = ["exit"] },
    { cpu = 0, program = ["exit"] },
    { cpu = 0, program = ["exit"] },
    { cpu = 0, program = ["recv 4 r0"] },
]
PLAN
cat > "$room/three.toml" << 'PLAN'
cpus = 2
trace = 4
buffers = [1]
thread = [
    { cpu = 0, program = ["set r0 7", "send 0 r0"] },
    { cpu = 1, program = ["recv 0 r0"] },
    { cpu = 0, program = ["exit"] },
]
PLAN
sed 's/^program.*/program = ["exit", "recv 1 r0"]/' plans/one-send.toml > "$room/no-buffer.toml"
sed 's/^program.*/program = ["set r0 7", "jnz r0 3", "exit"]/' plans/one-send.toml > "$room/no-line.toml"
printf 'mctower-trace 2\nbuffers 1\ncap 0 1\ne 1 1 close 0 - 0 0\ne 0 0 recvc 0 - 1 0\nleft 0\nend\n' > "$room/closed.txt"
# Texts that are read in several parts: a good one, one whose fourth line has a fault, and one with a line longer than a part.
awk 'BEGIN { printf "mctower-trace 1\nbuffers 1\ncap 0 1\n"
  for (i = 0; i < 4000; i++) printf "e 0 0 send 0 7 %d %d\ne 0 0 recv 0 7 %d %d\n", 2 * i, i, 2 * i + 1, i
  printf "left 0\nend\n" }' > "$room/long.txt"
sed '4s/7/x/' "$room/long.txt" > "$room/long-no.txt"
{ head -n 3 "$room/long.txt"; printf 'e 0 0 send 0 '; head -c 200000 /dev/zero | tr '\0' 7; printf ' 0 0\nleft 0 7\nend\n'; } > "$room/long-line.txt"
# Two CPUs that send and two that receive through one buffer: whose message comes first differs from run to run.
{
  printf 'cpus = 4\ntrace = 2\nbuffers = [2]\n'
  for cpu in 0 1; do printf '[[thread]]\ncpu = %d\nprogram = ["set r0 %d", "send 0 r0", "send 0 r0"]\n' "$cpu" "$((cpu + 7))"; done
  for cpu in 2 3; do printf '[[thread]]\ncpu = %d\nprogram = ["recv 0 r0", "recv 0 r1"]\n' "$cpu"; done
} > "$room/race.toml"

command 0 no no /dev/null count --cpus 1 --times 5 --lock ticket
command 0 no no /dev/null count --cpus 2 --times 3
command 2 no no /dev/null count --cpus 17 --times 3
command 2 no no /dev/null run --scedule '0*21'
command 2 no no /dev/null check --help
command 0 yes no plans/one-send.toml run --schedule '0*21'
command 2 no no plans/one-send.toml run --schedule '0*'
command 0 yes no "$room/yes.txt" check
command 3 yes no "$room/no.txt" check
command 0 yes no "$room/closed.txt" check
command 3 no no "$room/empty.txt" check
command 0 yes no "$room/long.txt" check
command 3 yes no "$room/long-no.txt" check
command 3 yes no "$room/long-line.txt" check
command 0 no no "$room/five.toml" run
command 0 no no "$room/three.toml" run
command 1 no no "$room/no-buffer.toml" run
command 1 no no "$room/no-line.toml" run
command 0 no no tests/rows/closed-with-an-item.toml run --schedule '0*90'
command 0 no no tests/rows/there-and-back.toml run --schedule '0*32,1*60,0*60'
command 0 yes no plans/one-send.toml threads --turns 1000
command 0 no yes "$room/race.toml" threads --turns 1000000000
echo "faults: $outcomes outcomes, $wrong wrong"
[ "$wrong" = 0 ]
