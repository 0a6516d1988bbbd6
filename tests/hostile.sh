#!/usr/bin/env bash
# Gives the program inputs that are hard to read: 1 MiB of one thing, deep brackets, many names, bytes that no text has, texts that
# are cut. Each run has to end with the refusal or the answer that the language's rules tell (tests/hostile_shapes.py), in 10
# seconds of a processor (it is killed after 20), with less than 1 GiB of memory, and with stacks of 8 MiB and of 1 MiB. Then values
# that double have to end with status 8, and nothing written. It is no part of the gate.
#   tests/hostile.sh [SHAPE]
# It writes a table, with the more of the two runs' seconds and MiB, and ends with 0 where nothing went wrong. SHAPE is a pattern of
# the shell for the names of those to try. It runs ./lois, or the program that LOIS names.
set -u
cd "$(dirname "${BASH_SOURCE[0]}")/.." || exit 70
pattern=${1:-*}
seconds=10
mebibytes=1024
killed_after=20
failed=0

if ! command -v python3 >/dev/null || [ ! -x /usr/bin/time ]; then
  echo "hostile: skipped, since python3 or /usr/bin/time isn't there"
  exit 0
fi

. tests/built_program.sh

complain() {
  echo "hostile: $1" >&2
  failed=1
}

# Runs a command on a file with so many KiB of stack and of address space. What it took goes to the end of the file `cost`.
run_within() {
  local stack=$1 space=$2 command=$3 input=$4
  (
    ulimit -s "$stack" -v "$space" -t $killed_after
    exec /usr/bin/time -q -a -o "$work/cost" -f '%U %S %M' "$lois" "$command"
  ) <"$input" >"$work/answer" 2>"$work/errors"
}

# The most seconds and MiB of the runs since `cost` was empty, and whether they are more than is allowed.
most() {
  awk -v seconds=$seconds -v mebibytes=$mebibytes '
    $1 + $2 > time { time = $1 + $2 }
    $3 > memory { memory = $3 }
    END { printf "%.2f %.0f %d\n", time, memory / 1024, (time > seconds || memory >= mebibytes * 1024) }' "$work/cost"
}

# The status that an answer goes with, in `wanted`: refusals end with 5, everything else here with 0.
status_of() {
  local word
  read -r -n 7 word <"$1"
  wanted=0
  [ "$word" != refused ] || wanted=5
}

# Whether a run that ended with this status has answered what stands in the file of the shape, with nothing else written.
is_right() {
  local status=$1 command=$2 shape=$3 wanted
  status_of "$shape.$command"
  [ "$status" -eq "$wanted" ] && cmp -s "$work/answer" "$shape.$command" && [ ! -s "$work/errors" ] && return
  complain "$(basename "$shape"), $command: status $status and not $wanted, or another answer: $(
    head -c 80 "$work/answer" | head -n 1 | tr -d '\0'
  )"
  return 1
}

answers() {
  run_within "$1" 4194304 "$2" "$3.in"
  is_right $? "$2" "$3"
}

is_asked() {
  # shellcheck disable=SC2053
  [[ $1 == $pattern ]]
}

line() {
  printf '| %s | %s | %s | %s | %s |\n' "$@"
}

try_shape() {
  local shape=$1 command=$2 time memory over wanted status=wrong
  : >"$work/cost"
  status_of "$shape.$command"
  ! { answers 8192 "$command" "$shape" && answers 1024 "$command" "$shape"; } || status=$wanted
  read -r time memory over < <(most)
  [ "$over" -eq 0 ] || complain "$(basename "$shape"), $command takes $time seconds and $memory MiB"
  line "$(basename "$shape")" "$command" $status "$time" "$memory"
}

# All texts of a folder, with the small stack; a run that takes too long is killed, and so is none of the right ones.
try_cuts() {
  local folder=$1 command=$2 text status='0 or 5'
  (
    failed=0
    ulimit -s 1024 -v 4194304 -t $seconds
    for text in "$folder"/*.in; do
      "$lois" "$command" <"$text" >"$work/answer" 2>"$work/errors"
      is_right $? "$command" "${text%.in}"
    done
    exit $failed
  ) || failed=1 status=wrong
  line "$(basename "$folder")" "$command" "$status" - -
}

# A value of twice the size at each turn, with 1 GiB of address space.
try_doubling() {
  local time memory over status
  : >"$work/cost"
  printf "atoms equality; let v = 'a; while true turns 64 { v := (v, v); }" >"$work/doubling"
  run_within 8192 1048576 run "$work/doubling"
  status=$?
  if [ $status -ne 8 ] || [ -s "$work/answer" ] || [ -s "$work/errors" ]; then
    complain "a value that doubles: status $status and not 8, or something is written"
  fi
  read -r time memory over < <(most)
  [ "$over" -eq 0 ] || complain "a value that doubles takes $time seconds and $memory MiB"
  line 'a value that doubles' run $status "$time" "$memory"
}

python3 tests/hostile_shapes.py "$work/shapes" || exit 70
line Shape Command Status Seconds MiB
line --- --- --- --- ---
for text in "$work/shapes"/*.in; do
  shape=${text%.in}
  is_asked "$(basename "$shape")" || continue
  for command in run check reread; do
    try_shape "$shape" $command
  done
done
for command in run check reread; do
  ! is_asked 'a script cut' || try_cuts "$work/shapes/a script cut" $command
done
! is_asked 'results cut' || try_cuts "$work/shapes/results cut" reread
! is_asked 'a value that doubles' || try_doubling
exit $failed
