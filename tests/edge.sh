#!/usr/bin/env bash
# Runs the built program where no contract sees it: the exit status of the process, what is on each of its streams, an output
# that is full or closed, an input that cannot be read, memory and threads that are not there. It takes seconds.
#
#   tests/edge.sh [PROGRAM..]
#
# Without a name it runs each build of mctower that `rt ci` or `rt run` left. The last line is 'edge: N passed, M failed'.
if [ "${1:-}" = --help ]; then sed -n '2,/^[^#]/ s/^# \{0,1\}//p' "$0"; exit; fi
set -u
export LC_ALL=C
cd "$(dirname "$0")/.."
eval "$(tools/limit-table.py --shell)"
room=$(mktemp -d)
trap 'rm -rf "$room"' EXIT
passed=0
failed=0

# Runs a command line with at most 20 seconds, or as many as `patience` says: $1 is the wanted status, $2 the wanted output and $3 what is wanted on standard
# error, where for both '~TEXT' is any text that begins so; the rest is the command line, a shell's, in which `mctower` is the program.
row() {
  local status=0 out err
  bash -c "mctower() { timeout ${patience:-20} '$program' \"\$@\"; }; $4" > "$room/out" 2> "$room/err" || status=$?
  out=$(cat "$room/out"; echo .)
  err=$(cat "$room/err"; echo .)
  if [ "$status" = "$1" ] && is "$2" "${out%.}" && is "$3" "${err%.}"; then
    passed=$((passed + 1))
  else
    failed=$((failed + 1))
    printf 'edge: %s\n  %s\n  status %s, wanted %s\n  output: %s\n  error: %s\n' "$program" "$4" "$status" "$1" "${out%.}" "${err%.}"
  fi
}
is() {
  if [ "${1#\~}" != "$1" ]; then [ "${2#"${1#\~}"}" != "$2" ]; else [ "$1" = "$2" ]; fi
}

send="mctower run --schedule '0*21' < plans/one-send.toml"
thread="mctower threads --turns 1000 < plans/one-send.toml"
sent=$'mctower-trace 1\nbuffers 1\ncap 0 1\ne 0 0 send 0 7 0 0\nleft 0 7\nend\n'
state=$'cpu 0 AllEnded\nthread 0 Ended\nquiet yes\n'
one_stack='ulimit -s 1000000; ulimit -v 1500000'
one_processor='python3 -c "import os; os.sched_setaffinity(os.getppid(), {min(os.sched_getaffinity(0))})"'
# room for the program and some two million bytes, in kilobytes
little='ulimit -v 6000'
takes='mctower-trace 1\nbuffers 1\ncap 0 2\ne 0 0 recv 0 7 0 0\nleft 0\nend\n'
before=$'mctower-trace 1\nbuffers 1\ncap 0 1\nleft 0\nend\n'
sevens="head -c 200000 /dev/zero | tr '\\0' 7"
# the longest word that is shown
word=$(printf 'a%.0s' {1..200})
# an input from which no byte comes and which does not end
silent="mkfifo '$room/silent' 2> /dev/null; exec 3<> '$room/silent'"
# runs the program at a terminal, where the file in front is typed and then its end, once
typed="timeout 20 python3 -c 'import os, pty, subprocess, sys; ours, theirs = pty.openpty(); os.write(ours, open(sys.argv[1], \"rb\").read() + b\"\\4\")
sys.exit(subprocess.run(sys.argv[2:], stdin=theirs).returncode)'"
version=$'mctower 0.5.0\n'
waits=$'cpu 0 live\nthread 0 Ready(0)\nquiet no\n'
# a run whose third entry takes from an empty buffer
empty='mctower-trace 1\nbuffers 1\ncap 0 2\ne 0 0 send 0 7 0 0\ne 1 1 recv 0 7 1 0\ne 1 1 recv 0 8 2 1\ne 0 0 send 0 8 3 1\nleft 0\nend\n'

# A text of $1 sends and receives of one message through one buffer.
text_of() {
  awk -v count="$1" 'BEGIN {
    printf "mctower-trace 1\nbuffers 1\ncap 0 1\n"
    for (i = 0; i < count; i++) printf "e 0 0 send 0 7 %d %d\ne 0 0 recv 0 7 %d %d\n", 2 * i, i, 2 * i + 1, i
    printf "left 0\nend\n" }'
}
text_of 100 > "$room/lines"
text_of 100000 > "$room/entries"

# Changes the text of one send by the filter $2: `check` answers `no $1`, with status 3.
verdict() {
  row 3 "no $1"$'\n' '' "printf '%s' '$sent' | $2 | mctower check"
}
# Changes the plan of one send by the sed script $2: `run` refuses it by the line `error: $1`, with status 1, whether a schedule is given or none.
refused() {
  row 1 '' "error: $1"$'\n' "sed '$2' plans/one-send.toml | mctower run"
  row 1 '' "error: $1"$'\n' "sed '$2' plans/one-send.toml | mctower run --schedule '0*6'"
}
# The plan of one send, two threads that end at once, and the lines $2: `run` refuses it by the line `error: $1`, with status 1.
refused_behind() {
  row 1 '' "error: $1"$'\n' "{ cat plans/one-send.toml; printf '[[thread]]\ncpu = 0\nprogram = [\"exit\"]\n%.0s' 1 2; printf '$2'; } | mctower run"
}
# The two lines of usage of the command $1, or of the whole program.
usage() {
  case $1 in
    count)
      echo 'usage: mctower count --cpus N --times K [--lock L]'
      echo "       N is 1 to $CPUS, K is 1 to 1000, L is ticket or grant; mctower count --help says more"
      ;;
    run)
      echo 'usage: mctower run [--schedule S] < PLAN'
      echo "       S in quotes, as '0*21'; the plan is read from standard input; mctower run --help says more"
      ;;
    threads)
      echo 'usage: mctower threads --turns N < PLAN'
      echo '       N is 1 to 1000000000, the plan is read from standard input; mctower threads --help says more'
      ;;
    check) echo $'usage: mctower check < TEXT\n       the trace text is read from standard input; mctower check --help says more' ;;
    *) echo $'usage: mctower count | run | threads | check, and its options\n       mctower --help says more, and mctower COMMAND --help of a command' ;;
  esac
}
# The command line $1 is a bad one: by status 2 it is told that `error: $2` is wrong with it, and how its command $3 is used.
bad_line() {
  row 2 '' "error: $2"$'\n'"$(usage "${3-}")"$'\n' "$1"
}
# The command line $1 asks for help: that goes to standard output, behind the version, and begins with $2.
helped() {
  row 2 "~$version$2" '' "$1"
}
# The schedule $1 is none: told by status 2 and its line, before any input is read, so before a plan that is refused.
no_schedule() {
  export schedule=$1
  row 2 '' $'error: BadSchedule(9)\n' "mctower run --schedule=\"\$schedule\" < plans/one-send.toml # $1"
  row 2 '' $'error: BadSchedule(9)\n' "echo cpus = $((CPUS + 1)) | mctower run --schedule=\"\$schedule\" # $1"
}
# The schedule $1 names a CPU that the plan of one send has not: told by status 1 and its line, after a plan that is refused.
no_cpu() {
  row 1 '' $'error: BadCpu(4)\n' "mctower run --schedule '$1' < plans/one-send.toml"
  row 1 '' $'error: OutOfRange(22) cpus\n' "echo cpus = $((CPUS + 1)) | mctower run --schedule '$1'"
}

rows() {
  # a good run, a yes, a no
  row 0 $'plain 6\ntable 6\n' '' 'mctower count --cpus 2 --times 3'
  row 0 $'plain 6\ntable 6\n' '' 'mctower count --cpus 2 --times 3 --lock ticket'
  row 0 $'plain 1\ntable 1\n' '' 'mctower count --cpus 1 --times 1 --lock grant'
  row 0 $'plain 2\ntable 2\n' '' 'mctower count --cpus 1 --times 2 --lock grant'
  row 0 $'plain 2\ntable 2\n' '' 'mctower count --cpus 1 --times 2 --lock ticket'
  row 0 $'plain 7\ntable 7\n' '' 'mctower count --times 007 --cpus=+1 --lock grant'
  row 0 $'plain 8000\ntable 8000\n' '' 'mctower count --cpus 8 --times 1000 --lock grant'
  row 0 $'plain 8000\ntable 8000\n' '' 'mctower count --cpus 8 --times 1000 --lock ticket'
  # a fair lock is handed from thread to thread, which takes long where there are many more of them than free processors
  told="plain ${CPUS}000"$'\n'"table ${CPUS}000"$'\n'
  patience=120 row 0 "$told" '' "mctower count --cpus $CPUS --times 1000 --lock grant"
  patience=120 row 0 "$told" '' "mctower count --lock=ticket --times=1000 --cpus=$CPUS"
  row 0 "$sent" "$state" "$send"
  row 0 $'yes\n' '' "printf '%s' '$sent' | mctower check"
  row 0 $'yes\n' "$state" "$send | mctower check"
  # a state line, a worker's line and a refusal are a write each, whose bytes are told in front: so the lines of two programs do not mix
  row 0 $'15 cpu 0 AllEnded\n15 thread 0 Ended\n10 quiet yes\n' '' "tests/writes.py '$program' run --schedule '0*21' < plans/one-send.toml"
  row 0 $'15 cpu 0 AllEnded\n' '' "tests/writes.py '$program' threads --turns 1000 < plans/one-send.toml"
  row 0 $'11 cpu 0 live\n18 thread 0 Ready(0)\n9 quiet no\n' '' "tests/writes.py '$program' run < plans/one-send.toml"
  row 1 $'19 error: BadToml(20)\n' '' "echo [ | tests/writes.py '$program' run"
  # a short text is one write, too, and what is judged, counted or asked for
  row 0 "66 $sent" '' "tests/writes.py --out '$program' run --schedule '0*21' < plans/one-send.toml"
  row 0 "66 $sent" '' "tests/writes.py --out '$program' threads --turns 1000 < plans/one-send.toml"
  row 0 $'4 yes\n' '' "printf '%s' '$sent' | tests/writes.py --out '$program' check"
  row 0 $'16 plain 6\ntable 6\n' '' "tests/writes.py --out '$program' count --cpus 2 --times 3"
  # so is the longest, with the two lines of usage behind it
  told="error: --turns $word: expected 1 to 1000000000"$'\n'"$(usage threads)"$'\n'
  row 2 "${#told} $told" '' "tests/writes.py '$program' threads --turns $word"
  # without a schedule no step is taken
  row 0 "$before" "$waits" 'mctower run < plans/one-send.toml'
  row 0 "$sent" $'cpu 0 AllEnded\n' "$thread"
  row 0 $'yes\n' $'cpu 0 AllEnded\n' "$thread | mctower check"
  row 3 $'no 4 EmptyTake(35)\n' '' "printf '$takes' | mctower check"
  row 3 $'no 1 Spelling(30)\n' '' 'mctower check < /dev/null'
  # three texts: the third entry takes from an empty buffer, the text ends behind two entries, a number has a leading zero
  row 3 $'no 6 EmptyTake(35)\n' '' "printf '$empty' | mctower check"
  row 3 $'no 7 Spelling(30)\n' '' "printf '$empty' | sed '6,7d;\$d' | mctower check"
  row 3 $'no 5 Spelling(30)\n' '' "printf '$empty' | sed '5s/7 1 0/7 01 0/' | mctower check"
  # an item of a schedule stands for as many steps of its CPU as it says
  row 0 "$sent" "$state" "mctower run --schedule '0*20,0' < plans/one-send.toml"
  row 0 "$sent" "$state" "mctower run --schedule '0*3,0,0*2,0,0*14' < plans/one-send.toml"
  row 0 '' '' "cmp <(mctower run --schedule '0*3,1*2,0' < plans/ping-pong.toml 2>&1) <(mctower run --schedule 0,0,0,1,1,0 < plans/ping-pong.toml 2>&1)"
  row 1 '' $'error: BadCpu(4)\n' "mctower run --schedule '0*3,255,1*2,0' < plans/ping-pong.toml"
  # the longest schedule is one
  row 0 "$sent" "$state" "mctower run --schedule '0*1048576' < plans/one-send.toml"
  row 0 "$sent" "$state" "mctower run --schedule '0*1048575,0' < plans/one-send.toml"
  # and takes no more memory than its steps and a note of four bytes for each
  row 0 "$sent" "$state" "ulimit -v 20000; mctower run --schedule '0*1048576' < plans/one-send.toml"
  no_cpu '7*1048576'
  no_cpu '7*1048575,3'
  # help and the version that are asked for
  helped 'mctower --help' $'A verified thread tower'
  helped 'mctower -h' $'A verified thread tower'
  helped 'mctower help' $'A verified thread tower'
  helped 'mctower count --help' $'usage: mctower count --cpus N --times K [--lock L]\n\nEach of N CPUs (1 to '"$CPUS) does K critical sections (1 to 1000)"
  helped 'mctower help count' 'usage: mctower count '
  helped 'mctower help run' 'usage: mctower run '
  helped 'mctower run -h < .' 'usage: mctower run '
  helped 'mctower threads --help' 'usage: mctower threads '
  helped 'mctower check --help' 'usage: mctower check '
  row 2 "$version" '' 'mctower --version'
  row 2 "$version" '' 'mctower -V'
  row 0 $'3\n' '' 'mctower run --help | grep -cE "trace .* 1 to '"$TRACE"'$|sendm b n .* 1 to 8$|plans/explain.py"'
  row 1 '' $'error: WriteFault(8)\n' 'mctower --help > /dev/full'
  # a bad command line: no command, one that is none, and a word that is no text
  bad_line 'mctower' 'no command is given'
  bad_line 'mctower rum' "unknown command: 'rum'; is 'run' meant?"
  bad_line 'mctower xyz' "unknown command: 'xyz'"
  bad_line 'mctower version' "unknown command: 'version'; is '--version' meant?"
  bad_line 'mctower run --lock ticket' "unexpected argument: '--lock'; a plan names its lock by its key lock" run
  bad_line 'mctower help rum' "unknown command: 'rum'"
  bad_line "mctower ''" "unknown command: ''"
  bad_line "mctower \$'\\xff'" 'a word is not UTF-8 text'
  # a word or an option that the command has not
  bad_line 'mctower run plans/one-send.toml' "unexpected argument: 'plans/one-send.toml'" run
  bad_line 'mctower run plans/one-send.toml < /dev/null' "unexpected argument: 'plans/one-send.toml'" run
  bad_line 'mctower check one-send.trace' "unexpected argument: 'one-send.trace'" check
  bad_line 'mctower check more' "unexpected argument: 'more'" check
  bad_line 'mctower run --scedule 0*21' "unexpected argument: '--scedule'; is '--schedule' meant?" run
  bad_line 'mctower run --sched 0*21' "unexpected argument: '--sched'; is '--schedule' meant?" run
  bad_line 'mctower run -s 0*21' "unexpected argument: '-s'" run
  bad_line "mctower run \"--it's\"" "unexpected argument: '--it's'" run
  bad_line 'mctower --schedule 0*21 run' "unexpected argument: '--schedule'; is 'run --schedule' meant?"
  bad_line 'mctower -- run' "unexpected argument: 'run'"
  bad_line 'mctower run --version' "unexpected argument: '--version'" run
  bad_line 'mctower threads --turn 10 < plans/one-send.toml' "unexpected argument: '--turn'; is '--turns' meant?" threads
  bad_line "mctower run $(printf 'a%.0s' {1..197})" 'unexpected argument..' run
  bad_line "mctower run $(printf 'a%.0s' {1..196})" "unexpected argument: '$(printf 'a%.0s' {1..196})'" run
  # an option twice, without its value, or with one that it does not take
  bad_line 'mctower run --schedule 0 --schedule 0' "an option is given twice: '--schedule <schedule>'" run
  bad_line 'mctower run --schedule' "an option has no value: '--schedule <schedule>'" run
  bad_line 'mctower count --cpus --help' "an option has no value: '--cpus <cpus>'" count
  bad_line 'mctower run --help=3' "an option takes no value: '3' for '--help'" run
  # required option missing
  bad_line 'mctower threads' 'required option missing: --turns <turns>' threads
  bad_line 'mctower threads < plans/one-send.toml' 'required option missing: --turns <turns>' threads
  bad_line 'mctower count' 'required option missing: --cpus <cpus> --times <times>' count
  bad_line 'mctower count --cpus 2' 'required option missing: --times <times>' count
  # no word is left out behind the longest command line
  bad_line 'mctower count --cpus 2 --times 3 --lock ticket more' "unexpected argument: 'more'" count
  # a value that its option does not take; the first that is wrong is told
  bad_line 'mctower threads --turns 0 < plans/one-send.toml' '--turns 0: expected 1 to 1000000000' threads
  bad_line 'mctower threads --turns 1000000001 < plans/one-send.toml' '--turns 1000000001: expected 1 to 1000000000' threads
  bad_line 'mctower threads --turns 2000000000 < plans/one-send.toml' '--turns 2000000000: expected 1 to 1000000000' threads
  bad_line 'mctower threads --turns 99999999999999999999 < plans/one-send.toml' '--turns 99999999999999999999: expected 1 to 1000000000' threads
  bad_line 'mctower threads --turns 1e6 < plans/one-send.toml' '--turns 1e6: expected 1 to 1000000000' threads
  bad_line 'mctower threads --turns 1,000 < plans/one-send.toml' '--turns 1,000: expected 1 to 1000000000' threads
  bad_line "mctower threads --turns ''" '--turns : expected 1 to 1000000000' threads
  bad_line "mctower threads --turns \$'7\\n8'" '--turns 7: expected 1 to 1000000000' threads
  bad_line 'mctower count --cpus 0 --times 1' "--cpus 0: expected 1 to $CPUS" count
  bad_line "mctower count --cpus $((CPUS + 1)) --times 1" "--cpus $((CPUS + 1)): expected 1 to $CPUS" count
  bad_line "mctower count --cpus $((CPUS + 1)) --times 0" "--cpus $((CPUS + 1)): expected 1 to $CPUS" count
  bad_line 'mctower count --cpus 2 --times 1001' '--times 1001: expected 1 to 1000' count
  bad_line 'mctower count --cpus 2 --times 0 --lock mcs' '--times 0: expected 1 to 1000' count
  bad_line 'mctower count --cpus 2 --times 3 --lock mcs' '--lock mcs: expected ticket or grant' count
  bad_line 'mctower count --cpus 2 --times 3 --lock Ticket' '--lock Ticket: expected ticket or grant' count
  row 2 '' $'error: BadSchedule(9)\n' 'mctower run --schedule 0, < plans/one-send.toml'
  row 2 '' $'error: BadSchedule(9)\n' "mctower run --schedule '' < plans/one-send.toml"
  for schedule in '' , 0, ,0 0,,1 ' 0' '0 ' 00 01 256 a +1 -1 '0*' '*3' '0*0' '0*01' '0*1048577' '0*1048576,0' '7*1048576,3' '0*2*3' '0;1' \
    '0, 1' $'0\n' 0x1 '*' '0*+1' '0**2' '0*1.5' '0*18446744073709551617' 99999999999999999999 '7*1048576,7*1048576' ٣; do
    no_schedule "$schedule"
  done
  # a refusal
  for schedule in 1 0,1 '0*6,255' '0*3,1' '7*1000,0'; do no_cpu "$schedule"; done
  row 1 '' $'error: OutOfRange(22) cpus\n' "echo cpus = $((CPUS + 1)) | mctower run"
  row 1 '' $'error: OutOfRange(22) cpus\n' "echo cpus = $((CPUS + 1)) | mctower threads --turns 9"
  row 1 '' $'error: BadToml(20)\n' "printf '# \\xff\\n' | mctower run"
  row 1 '' $'error: BadToml(20)\n' "printf '# \\xff\\n' | mctower threads --turns 9"
  # each change of a trace text alone, and the first line with a fault
  verdict '1 Spelling(30)' 'head -c 0'
  verdict '1 Spelling(30)' "sed '1s/\$/\\r/'"
  verdict '2 Range(31)' "sed '2s/1/$((BUFFERS + 1))/'"
  row 0 $'yes\n' '' "printf '%s' '$sent' | sed '4s/e 0 0/e $((CPUS - 1)) $((THREADS - 1))/' | mctower check"
  verdict '4 Range(31)' "sed '4s/e 0/e $CPUS/'"
  verdict '4 Range(31)' "sed '4s/e 0 0/e 0 $THREADS/'"
  verdict '4 Range(31)' "sed '4s/7/18446744073709551616/'"
  verdict '4 Spelling(30)' "sed '4s/7/\\xff/'"
  verdict '4 Op(32)' "sed '4s/0 0\$/1 0/'"
  verdict '4 Pos(33)' "sed '4s/0 0\$/0 1/'"
  verdict '5 Full(34)' "sed '4a e 0 0 send 0 8 1 1'"
  verdict '5 WrongValue(36)' "sed '4a e 0 0 recv 0 8 1 0'"
  verdict '5 Left(37)' "sed '5s/7/8/'"
  verdict '6 Spelling(30)' 'head -c 65'
  verdict '7 Spelling(30)' '{ cat; printf " "; }'
  # the second version of the text: one that the first can spell, a send into a closed buffer, a receive that leaves an item behind, and
  # a close and its dash in a text of the first
  verdict '6 Version(38)' "sed '1s/1/2/'"
  verdict '5 CloseState(39)' "sed -e '1s/1/2/' -e '4c e 0 0 close 0 - 0 0\ne 0 0 send 0 7 1 0'"
  verdict '6 NotEmpty(40)' "sed -e '1s/1/2/' -e '4a e 0 0 close 0 - 1 0\ne 0 0 recvc 0 - 2 0'"
  verdict '5 Spelling(30)' "sed '4a e 0 0 close 0 - 1 0'"
  verdict '4 Spelling(30)' "sed '4s/7/-/'"
  row 0 $'yes\n' '' "printf '%s' '$sent' | sed -e '1s/1/2/' -e '4a e 0 0 close 0 - 1 0' | mctower check"
  # the third version: messages of several words, with one comma between two words. One that a lower version can spell, and what is no
  # message: a comma in a text of a lower version, a word too few or ill spelled, more than eight words, a word that is too large
  row 0 $'yes\n' '' "printf '%s' '$sent' | sed -e '1s/1/3/' -e '4,5s/7/7,8/' | mctower check"
  row 0 $'yes\n' '' "printf '%s' '$sent' | sed -e '1s/1/3/' -e '4,5s/7/1,2,3,4,5,6,7,8/' | mctower check"
  row 0 $'yes\n' '' "printf '%s' '$sent' | sed -e '1s/1/3/' -e '4s/7/7,8/' -e '4a e 0 0 close 0 - 1 0' -e '5s/7/7,8/' | mctower check"
  verdict '6 Version(38)' "sed '1s/1/3/'"
  verdict '7 Version(38)' "sed -e '1s/1/3/' -e '4a e 0 0 close 0 - 1 0'"
  verdict '4 Spelling(30)' "sed '4,5s/7/7,8/'"
  verdict '4 Spelling(30)' "sed -e '1s/1/2/' -e '4,5s/7/7,8/'"
  verdict '5 Spelling(30)' "sed '5s/7/7,8/'"
  verdict '4 Spelling(30)' "sed -e '1s/1/3/' -e '4,5s/7/7,/'"
  verdict '4 Spelling(30)' "sed -e '1s/1/3/' -e '4,5s/7/7,,8/'"
  verdict '4 Spelling(30)' "sed -e '1s/1/3/' -e '4,5s/7/7,08/'"
  verdict '5 Spelling(30)' "sed -e '1s/1/3/' -e '4s/7/7,8/' -e '5s/7/,7,8/'"
  verdict '4 Range(31)' "sed -e '1s/1/3/' -e '4,5s/7/1,2,3,4,5,6,7,8,9/'"
  verdict '5 Range(31)' "sed -e '1s/1/3/' -e '4s/7/7,8/' -e '5s/7/1,2,3,4,5,6,7,8,9/'"
  verdict '4 Range(31)' "sed -e '1s/1/3/' -e '4,5s/7/7,18446744073709551616/'"
  verdict '5 WrongValue(36)' "sed -e '1s/1/3/' -e '4s/7/7,8/' -e '4a e 0 0 recv 0 7 1 0'"
  verdict '5 Left(37)' "sed -e '1s/1/3/' -e '4s/7/7,8/'"
  verdict '5 Left(37)' "sed -e '1s/1/3/' -e '4s/7/7,8/' -e '5s/7/7 8/'"
  # each change of a plan alone, and its error line
  refused 'MissingKey(21) cpus' 's/^cpus = 1/cpus = "1"/'
  refused 'OutOfRange(22) cpus' "s/^cpus = 1/cpus = $((CPUS + 1))/"
  refused 'BadToml(20)' 's/^cpus = 1/cpus = /'
  refused 'BadToml(20)' 's/^cpus = 1/&\n&/'
  refused 'MissingKey(21) trace' '/^trace/d'
  refused 'OutOfRange(22) trace' "s/^trace = 4/trace = $((TRACE + 1))/"
  refused 'MissingKey(21) buffers' 's/\[1\]/["1"]/'
  refused 'OutOfRange(22) buffers' "s/\[1\]/[$((CAPACITY + 1))]/"
  refused 'BadToml(20)' 's/\[1\]/[1/'
  refused 'MissingKey(21) thread' 's/\[\[thread\]\]/[thread]/'
  refused 'OutOfRange(22) thread' 's/\[\[thread\]\]/thread = []\n[[other]]/'
  refused 'MissingKey(21) thread 0 cpu' '/^cpu = /d'
  refused 'OutOfRange(22) thread 0 cpu' 's/^cpu = 0/cpu = 1/'
  refused 'MissingKey(21) thread 0 program' '/^program/s/"exit"/1/'
  refused 'OutOfRange(22) thread 0 program' '/^program/s/send 0 r0/send 1 r0/'
  refused 'Guest(23) thread 0 line 0 Empty(15)' 's/^program.*/program = []/'
  refused 'Guest(23) thread 0 line 0 UnknownWord(10)' '/^program/s/set r0 7/set  r0 7/'
  refused 'Guest(23) thread 0 line 0 BadRegister(11)' '/^program/s/set r0 7/set r9 7/'
  refused 'Guest(23) thread 0 line 0 BadNumber(12)' '/^program/s/set r0 7/set r0 07/'
  refused 'Guest(23) thread 0 line 1 BadTarget(13)' '/^program/s/send 0 r0/jnz r0 3/'
  refused 'OutOfRange(22) lock' '1i lock = "mcs"'
  refused 'MissingKey(21) lock' '1i lock = 1'
  refused 'Guest(23) thread 0 line 0 UnknownWord(10)' 's/^program.*/program = ["set  r0 7"]/'
  refused 'Guest(23) thread 0 line 0 BadRegister(11)' 's/^program.*/program = ["set r9 7"]/'
  refused 'Guest(23) thread 0 line 0 BadNumber(12)' 's/^program.*/program = ["set r0 07"]/'
  refused 'OutOfRange(22) thread 0 program' 's/^program.*/program = ["send 1 r0"]/'
  refused 'OutOfRange(22) thread 0 program' 's/^program.*/program = ["close 1"]/'
  refused 'Guest(23) thread 0 line 0 UnknownWord(10)' 's/^program.*/program = ["close 0 r0"]/'
  refused 'Guest(23) thread 0 line 0 BadNumber(12)' 's/^program.*/program = ["send 0 r0 r1"]/'
  refused 'Guest(23) thread 0 line 1 BadTarget(13)' 's/^program.*/program = ["exit", "recv 0 r0 2"]/'
  refused 'Guest(23) thread 0 line 0 BadRegister(11)' 's/^program.*/program = ["set r8 7"]/'
  refused 'Guest(23) thread 0 line 0 BadNumber(12)' 's/^program.*/program = ["sendm 0 0"]/'
  refused 'Guest(23) thread 0 line 0 BadNumber(12)' 's/^program.*/program = ["sendm 0 9"]/'
  refused 'Guest(23) thread 0 line 0 BadNumber(12)' 's/^program.*/program = ["sendm 0 9 9"]/'
  refused 'Guest(23) thread 0 line 0 BadNumber(12)' 's/^program.*/program = ["sendm 0 r1"]/'
  refused 'Guest(23) thread 0 line 0 BadTarget(13)' 's/^program.*/program = ["sendm 0 8 1"]/'
  refused 'Guest(23) thread 0 line 0 BadTarget(13)' 's/^program.*/program = ["recvm 0 1"]/'
  refused 'Guest(23) thread 0 line 0 UnknownWord(10)' 's/^program.*/program = ["sendm 0"]/'
  refused 'Guest(23) thread 0 line 0 UnknownWord(10)' 's/^program.*/program = ["recvm 0 0 0"]/'
  refused 'OutOfRange(22) thread 0 program' 's/^program.*/program = ["sendm 1 2"]/'
  refused 'OutOfRange(22) thread 0 program' 's/^program.*/program = ["recvm 1"]/'
  refused 'BadToml(20)' '1s/^#/# \xff/'
  row 1 '' $'error: Guest(23) thread 0 line 256 TooLong(14)\n' \
    "{ grep -v program plans/one-send.toml; echo 'program = ['; yes '\"exit\",' | head -n 257; echo ']'; } | mctower run"
  # a fault names its thread, behind three good ones; a plan that is no text behind a good one
  refused_behind 'MissingKey(21) thread 3 cpu' '[[thread]]\nprogram = [\"exit\"]\n'
  refused_behind 'Guest(23) thread 3 line 1 BadTarget(13)' '[[thread]]\ncpu = 0\nprogram = [\"exit\", \"jnz r0 2\"]\n'
  refused_behind 'BadToml(20)' '# \xff\n'
  # an input that cannot be read
  row 1 '' $'error: ReadFault(7)\n' 'mctower check < .'
  row 1 '' $'error: ReadFault(7)\n' 'mctower run < .'
  row 1 '' $'error: ReadFault(7)\n' 'mctower threads --turns 9 < .'
  row 1 '' $'error: ReadFault(7)\n' 'mctower check <&-'
  # it is not read where the words do not ask for it
  row 0 $'plain 1\ntable 1\n' '' 'mctower count --cpus 1 --times 1 < .'
  row 2 '' $'error: BadSchedule(9)\n' 'mctower run --schedule x < .'
  bad_line 'mctower threads --turns 0 < .' '--turns 0: expected 1 to 1000000000' threads
  # nor is it waited for
  row 0 $'plain 1\ntable 1\n' '' "$silent; mctower count --cpus 1 --times 1 < '$room/silent'"
  row 2 "$version" '' "$silent; mctower --version < '$room/silent'"
  row 2 '' $'error: BadSchedule(9)\n' "$silent; mctower run --schedule x < '$room/silent'"
  # an end of the input is asked for once
  printf '%s' "$sent" > "$room/sent"
  row 0 $'yes\n' '' "$typed '$room/sent' '$program' check"
  row 0 "$sent" "$state" "$typed plans/one-send.toml '$program' run --schedule '0*21'"
  row 0 "$sent" $'cpu 0 AllEnded\n' "$typed plans/one-send.toml '$program' threads --turns 1000"
  # an empty plan is read, and one of many parts
  row 1 '' $'error: MissingKey(21) cpus\n' 'mctower run < /dev/null'
  row 1 '' $'error: MissingKey(21) cpus\n' 'mctower threads --turns 9 < /dev/null'
  row 0 "$sent" "$state" "{ cat plans/one-send.toml; yes '# no key' | head -n 99999; } | mctower run --schedule '0*21'"
  row 0 "$sent" $'cpu 0 AllEnded\n' "{ cat plans/one-send.toml; yes '# no key' | head -n 99999; } | mctower threads --turns 1000"
  # an input of several parts: a line longer than a part, behind a good one and behind one with a fault, and one that comes slowly
  row 3 $'no 4 Range(31)\n' '' "{ printf '${before%left*}e 0 0 send 0 '; $sevens; printf ' 0 0\nleft 0 7\nend\n'; } | mctower check"
  row 3 $'no 4 Spelling(30)\n' '' "{ printf '${before%left*}x\n'; $sevens; printf '\n'; } | mctower check"
  row 3 $'no 5 Spelling(30)\n' '' "{ printf '%s' '$sent' | head -n 4; $sevens; } | mctower check"
  row 0 $'yes\n' '' "{ printf '%s' '$sent' | head -c 40; sleep 0.1; printf '%s' '$sent' | tail -c +41; } | mctower check"
  # one that comes a line a read, and one of more than there is memory for, of which no more than a part is held
  row 0 $'yes\n' '' "while read -r line; do echo \"\$line\"; sleep 0.001; done < '$room/lines' | mctower check"
  row 0 $'yes\n' '' "$little; mctower check < '$room/entries'"
  # a line for which there is no memory
  row 1 '' $'error: NoMemory(1)\n' "$little; { printf '${before%left*}e 0 0 send 0 '; head -c 6000000 /dev/zero | tr '\\0' 7; } | mctower check"
  # a full disk, and a reader that is gone
  row 1 '' $'error: WriteFault(8)\n' 'mctower count --cpus 1 --times 1 > /dev/full'
  row 1 '' $'error: WriteFault(8)\n' "$send > /dev/full"
  row 1 '' $'error: WriteFault(8)\n' "$thread > /dev/full"
  row 1 '' $'error: WriteFault(8)\n' "$thread >&-"
  row 1 '' $'error: WriteFault(8)\n' 'mctower check < /dev/null > /dev/full'
  row 1 '' $'error: WriteFault(8)\n' 'set -o pipefail; { sleep 0.2; mctower check < /dev/null; } | true'
  row 1 '' $'error: WriteFault(8)\n' 'mctower count --cpus 1 --times 1 >&-'
  # the longest schedule where there is memory: eight CPUs, whose messages get through all sixteen buffers
  patience=60 row 0 $'yes\n35264\n' '~cpu 0 live' \
    "bench/make.py plan through | mctower run --schedule \"\$(bench/make.py schedule)\" > '$room/long' \
      && mctower check < '$room/long' && grep -c '^e ' '$room/long'"
  # the longest traces: the threads of nine CPUs fill them, and the order of all their entries is gathered and judged
  {
    printf 'cpus = 9\ntrace = %d\nbuffers = [%s]\n' "$TRACE" "$(yes "$CAPACITY" | head -n 9 | paste -sd ,)"
    for cpu in {0..8}; do
      printf '[[thread]]\ncpu = %d\nprogram = ["set r0 7", "set r1 1", "send %d r0", "jnz r1 2"]\n' "$cpu" "$cpu"
      printf '[[thread]]\ncpu = %d\nprogram = ["set r1 1", "recv %d r0", "jnz r1 1"]\n' "$cpu" "$cpu"
    done
  } > "$room/full"
  patience=120 row 0 $'yes\n'"$((9 * (TRACE - 1)))"$'\n' "$(printf 'cpu %d TraceFull\n' {0..8})"$'\n' \
    "mctower threads --turns 1000000000 < '$room/full' > '$room/long' && mctower check < '$room/long' && grep -c '^e ' '$room/long'"
  # a worker whose CPU is idle lets another run: on one processor a thousand messages through a buffer for one take a part of a second, and else a minute
  {
    printf 'cpus = 2\ntrace = 1000\nbuffers = [1]\n'
    for call in '0 send' '1 recv'; do
      printf '[[thread]]\ncpu = %d\nprogram = ["set r0 1000", "set r1 1", "%s 0 r2", "sub r0 r1", "jnz r0 2"]\n' $call
    done
  } > "$room/alternate"
  for lock in grant ticket; do
    row 0 $'2000\n' $'cpu 0 AllEnded\ncpu 1 AllEnded\n' \
      "$one_processor; sed '1i lock = \"$lock\"' '$room/alternate' | mctower threads --turns 1000000000 | grep -c '^e '"
  done
  # room for one thread's stack, and not for two; no room for the longest schedule
  row 0 $'plain 3\ntable 3\n' '' "$one_stack; mctower count --cpus 1 --times 3"
  row 1 '' $'error: NoThread(5)\n' "$one_stack; mctower count --cpus 2 --times 3"
  row 0 "$sent" $'cpu 0 AllEnded\n' "$one_stack; $thread"
  row 1 '' $'error: NoThread(5)\n' "$one_stack; mctower threads --turns 1000 < plans/ping-pong.toml"
  row 1 '' $'error: NoMemory(1)\n' "ulimit -v 5000; mctower run --schedule '0*1048576' < plans/one-send.toml"
  # nothing can be told: the status tells it
  row 2 '' '' 'mctower 2> /dev/full'
  row 2 '' '' 'mctower 2>&-'
  row 1 '' '' 'mctower check < . 2> /dev/full'
  row 0 "$sent" '' "$thread 2> /dev/full"
}

# Each error of a crate's code that says a name and a number of itself, as `crate Name(N)`. By its attribute an error prints just that.
errors() {
  local crate
  for crate in $(sed -n 's/^\([a-z_]*\):.*/\1/p' crates.txt); do
    find "crates/$crate/src" -name '*.rt' -exec cat {} + | sed -n "s/^ *#\\[error(\"\\([A-Za-z]*([0-9]*)\\)[\" ].*/$crate \\1/p"
  done | LC_ALL=C sort -u
}
named='boot BadToml(20)
boot Guest(23)
boot MissingKey(21)
boot NoMemory(1)
boot OutOfRange(22)
cpu BadCpu(4)
cpu_workers Closed(16)
cpu_workers NoThread(5)
event_log LogFull(2)
event_log NoMemory(1)
guest BadNumber(12)
guest BadRegister(11)
guest BadTarget(13)
guest Empty(15)
guest NoMemory(1)
guest TooLong(14)
guest UnknownWord(10)
mctower BadCpu(4)
mctower BadSchedule(9)
mctower NoOrder(6)
mctower WriteFault(8)
tracer NoMemory(1)
tracer NoOrder(6)
tracer ReadFault(7)
tracer WriteFault(8)'
# What an error says of itself, no run shows: the program tells each refusal by a text of `write_report`, and a refused plan by one of
# `write_plan_fault`. So each error's own text is held against the texts that stand there.
texts() {
  local text file
  while read -r file text; do
    if grep -qE "\"(error: )?${text//[()]/\\&}(\\\\n| |\")" "crates/mctower/src/$file.rt"; then
      passed=$((passed + 1))
    else
      failed=$((failed + 1)); echo "edge: an error says $text of itself, and mctower's $file has no such text"
    fi
  done < <(errors | sed -nE 's/^mctower /tell\/refusal_lines /p; s/^(boot|guest) /tell\/plan_lines /p')
}
# Counts a row about the sources: $1 says what it looks at, $2 is wanted and $3 found.
source_row() {
  if [ "$2" = "$3" ]; then
    passed=$((passed + 1))
  else
    failed=$((failed + 1))
    printf 'edge: %s\n  wanted: %s\n  found: %s\n' "$1" "$2" "$3"
  fi
}
# Each crate of crates.txt whose code names what lets a thread wait, comments and tests left out. A `Wait` in front of a bracket is not the trait
# but an edit of a buffer's conditions.
waiting() {
  local crate
  for crate in $(sed -n 's/^\([a-z_]*\):.*/\1/p' crates.txt); do
    find "crates/$crate/src" -name '*.rt' -exec cat {} + | sed -e 's|//.*||' -e 's/\<Wait(//g' \
      | grep -wE 'Wait|Mutex|Condvar' > /dev/null && echo "$crate"
  done
}
# Each file of the folder $1 in which a refusal of the names $2 is made up, once for each time: it stands there as a value, or is given another name.
# Comments, imports, types, patterns and the parameter of an `impl From` make nothing up.
made_up() {
  local file made="($2)"
  find "$1" -path '*/src/*' -name '*.rt' ! -path '*/out/*' | sort | while read -r file; do
    sed 's|//.*||' "$file" | sed -zE -e "s/\\<use [^;]*\\<$made as [^;]*;/\\1/g" -e 's/\<use [^;]*;//g' \
      -e "s/([<,(]|->)\\s*$made(<[^;{}]*)?\\s*,?\\s*>/\\1>/g" -e "s/(: &?|AllocFailed<)$made<//g" -e 's/AllocFailed<//g' -e "s/\\<let $made \\{ \\w+ \\} =//g" \
      -e "s/\\<Err\\($made( \\{ \\w+ \\})?\\) =>//g" \
      -e 's/fn from\(\w+: AllocError\)//g' | grep -owE "$made" | sed "s|.*|${file#"$1"/}|"
  done
}
# Each file of the folder $1 in which memory is asked for by a constant, once for each time: in the brackets of `with_capacity`, `reserve`, `resize` or `vec!`
# stands a number above 65536, a product, a power or a shift, or a constant that is neither a limit of event_log nor one of the file's own up to 65536.
asked_by_constant() {
  local file limits call word value
  local inner='[^()\[\]]|[(\[][^()\[\]]*[)\]]' # what stands in brackets, with brackets in it
  local asks="\\b(with_capacity|reserve|reserve_exact|resize|vec!)(::<[^(]*>)?[(\\[](?:$inner|[(\\[](?:$inner)*[)\\]])*[)\\]]"
  limits=$(sed -n 's/^pub const \([A-Z_]*\): usize.*/\1/p' crates/event_log/src/*.rt | tr '\n' ' ')
  find "$1" -path '*/src/*' -name '*.rt' ! -path '*/out/*' | sort | while read -r file; do
    sed 's|//.*||' "$file" | tr '\n' ' ' | grep -oP "$asks" | while read -r call; do
      for word in $(grep -oE '\b([A-Z][A-Z0-9_]+|[0-9][0-9_]*)\b|<<|[*]|pow' <<< "$call" | sed 's/[*]/product/'); do
        case " $limits " in *" $word "*) continue ;; esac
        case $word in
          [0-9]*) value=${word//_/} ;;
          *) value=$(sed -nE "s/^(pub )?const $word: usize = ([0-9_]*);.*/\\2/p" "$file" | tr -d _) ;;
        esac
        [ "${value:-65537}" -le 65536 ] || echo "${file#"$1"/}"
      done
    done
  done
}
# Each line of the folders and files $@ of more than 160 columns, of code, proofs and scripts.
too_long() {
  find "$@" -name out -prune -o -type f -regex '.*\(\.ci/run\|\.\(rt\|antt\|in\|rs\|py\|sh\|c\|cpp\|h\|S\)\)' -print 2> /dev/null \
    | LC_ALL=C.UTF-8 xargs grep -nE '^.{161}' | cut -d: -f1,2 | sort
}

[ $# -gt 0 ] || set -- crates/mctower/out/mctower crates/mctower/out/mctower.by-rattle
for program; do
  if [ -x "$program" ]; then
    program=$(realpath "$program")
    rows
  fi
done
[ $passed = 0 ] || texts

[ $((passed + failed)) -gt 0 ] || { echo "edge: build the program first: (cd crates/mctower && rt run -- count --cpus 1 --times 1)"; exit 1; }
# The prover lets a function wait that is given the trait for it. Workers and the program are, and none of the crates beneath: no layer waits.
source_row 'who names Wait, Mutex or Condvar' $'cpu_workers\nmctower' "$(waiting)"
source_row 'what each error says of itself' "$named" "$(errors)"
# A start is told as refused (`NoThread`) only where one was: its refusal is named where a thread is started, and becomes that evidence there. Anyone can write
# the kit's type, and nobody does.
source_row 'who names a refused start' crates/cpu_workers/src/own_threads.rt "$(grep -rlw --include='*.rt' SpawnError crates/*/src | sort)"
source_row 'who makes up a refused start' '' "$(made_up crates SpawnError)"
# Who says NoMemory was refused memory: the type is made from the allocator's refusal alone. Such a refusal is made up at three places, where a library of
# the kit tells of it without a value: toml's parser by a flag, clap and readers by a kind of error, and the table of atomic words by a type of its own.
allocations='AllocError|AllocFailed'
source_row 'who makes up refused memory' $'boot/src/plans.rt\nmctower/src/refusals/no_memory.rt\ntable_machine/src/open.rt' "$(made_up crates "$allocations")"
# Nor is a refusal had for the asking: what is asked for is what a value counts, or within a limit.
source_row 'who asks for memory by a constant' '' "$(asked_by_constant crates)"
# Such a kind of error is named in that file of mctower alone: who wrote it elsewhere could make a refusal of it.
source_row 'who reads want of memory off an error' crates/mctower/src/refusals/no_memory.rt "$(grep -rlw --include='*.rt' OutOfMemory crates/*/src | sort)"
mkdir -p "$room/of/src"
cat > "$room/of/src/right.rt" <<'END'
use std::alloc::{AllocError, AllocFailed, Global};
// Err(AllocError)
impl From<AllocError> for E { fn from(error: AllocError) -> E { E::NoMemory(NoMemory::from(error)) } }
impl<T: Drop> From<AllocFailed<T>> for E { fn from(error: AllocFailed<T>) -> E { E::NoMemory(NoMemory::from(error)) } }
fn f(alloc: Global) -> Result<Vec<Key<E>>, AllocError> { match g(alloc)? { Err(AllocError) => h(alloc), Ok(made) => Ok(made) } }
use std::thread::{Promise, SpawnError};
fn of<F>(_refused: &SpawnError<F>) -> NoThread { NoThread { refused: () } }
fn untaken<F>(no: SpawnError<F>) -> F { let SpawnError { value } = no; value }
fn group(alloc: Global, count: usize) -> Result<Vec<u8>, NoMemory> { let mut group = Vec::with_capacity(alloc, count.saturating_add(1))?; }
const PART: usize = 65536;
fn part(alloc: Global) -> Result<Vec<u8>, NoMemory> { let bytes = vec![in alloc; 0u8; PART]?; bytes.resize(room.saturating_mul(ENTRIES), 0)? }
END
wrong=('Err(NoMemory::from(AllocError))' 'return Err(AllocError)' '.map_err(|_| AllocError)?' 'let error = AllocError' 'Err(E::from(AllocError {}))'
  'g(AllocError, 0)' 'Err(AllocFailed { value: 0 })' 'use std::alloc::{AllocError as Refused}' 'fn refused() -> AllocError { AllocError }'
  'E { error: AllocError }' 'NoThread::of(&SpawnError { value: () })' 'let no = SpawnError { value };' 'use std::thread::SpawnError as Refused')
for at in "${!wrong[@]}"; do echo "${wrong[at]};" > "$room/of/src/wrong$at.rt"; done
source_row 'who makes one up in lines that are right and lines that are wrong' "$(cd "$room/of" && ls src/wrong*)" \
  "$(made_up "$room/of" "$allocations|SpawnError" | uniq)"
asks=('Vec::<u8>::with_capacity(alloc, usize::MAX)?' 'entries.reserve(100_000_000)?' 'Vec::with_capacity(alloc, boot.cpus().max(TOO_MANY))?'
  'vec![in alloc; 0u8; 1 << 40]?'
  $'Vec::with_capacity(\n    alloc,\n    u64::MAX as usize,\n)?' 'bytes.resize(HUGE, 0)?; const HUGE: usize = 70_000;')
rm "$room"/of/src/wrong*
for at in "${!asks[@]}"; do echo "${asks[at]};" > "$room/of/src/wrong$at.rt"; done
source_row 'who asks by a constant in lines that are right and lines that are wrong' "$(cd "$room/of" && ls src/wrong*)" \
  "$(asked_by_constant "$room/of" | uniq)"
# Workers wait at their start by the library's group, and no crate but theirs stands on it. One impl alone says of what kind the locks are behind which
# CPUs counted.
source_row 'who stands on crossbeam_utils' cpu_workers "$(sed -nE 's/^([a-z_]+):.*\<crossbeam_utils\>.*/\1/p' crates.txt)"
source_row 'who names it' cpu_workers "$(grep -rlw --include='*.rt' crossbeam_utils crates/*/src | cut -d/ -f2 | sort -u)"
source_row 'who says of what kind a counted lock is' 'mctower/src/locks/kinds.rt: impl<L: OwnedLocks<AddOne>> LockOfKind<L> for KindOf' \
  "$(cd crates && find . -path '*/src/*' -name '*.rt' -exec grep -HE '\<LockOfKind<.*> *for\>|^ *LockOfKind<.*>$' {} + | sed -e 's|^\./||' -e 's/:/: /')"
source_row 'lines of more than 160 columns' '' "$(too_long .ci bench crates embed explore metal plans tests tools web)"

echo "edge: $passed passed, $failed failed"
[ "$failed" = 0 ]
