#!/usr/bin/env bash
# How long ./lois takes to compare automata, to translate register automata and to list orbits: a table of the question, the
# first lines of what is answered, the bytes of it and the seconds. LOIS names another program.
#   bench/answers.sh
set -u
top=$(cd "$(dirname "${BASH_SOURCE[0]}")/.." && pwd)
lois=${LOIS:-$top/lois}
work=$(mktemp -d)
trap 'rm -rf "$work"' EXIT

# x1 .. xN, from the number of the first one
names() {
  local list='' i
  for ((i = $1; i <= $2; i++)); do list+="${list:+, }x$i"; done
  echo "$list"
}

# the state of a queue with these atoms; a tuple has at most 8 parts
queue_state() {
  local count=$1 atoms=$2
  if [ "$count" -eq 0 ]; then
    echo "'q0"
  elif [ "$count" -lt 8 ]; then
    echo "('q$count, $atoms)"
  else
    echo "('q$count, ($atoms))"
  fi
}

# for x1 in atoms, ..
binders() {
  local list='' i
  for ((i = 1; i <= $1; i++)); do list+="${list:+, }x$i in atoms"; done
  [ -z "$list" ] || echo " for $list"
}

# a queue with room for N atoms; the second argument says in which order a full queue keeps the others after `get`
queue() {
  local room=$1 rest=$2 k states='' steps=''
  for ((k = 0; k <= room; k++)); do
    states+="${states:+, }{$(queue_state "$k" "$(names 1 "$k")")$(binders "$k")}"
    if ((k < room)); then
      steps+="${steps:+, }{($(queue_state "$k" "$(names 1 "$k")"), ('put, x$((k + 1))), $(queue_state $((k + 1)) "$(names 1 $((k + 1)))"))$(binders $((k + 1)))}"
    fi
    if ((k > 0)); then
      local left
      left=$(names 2 "$k")
      ((k < room)) || left=$rest
      steps+="${steps:+, }{($(queue_state "$k" "$(names 1 "$k")"), ('get, x1), $(queue_state $((k - 1)) "$left"))$(binders "$k")}"
    fi
  done
  echo "(flatten({$states}), union({('put, x1) for x1 in atoms}, {('get, x1) for x1 in atoms}), flatten({$steps}), {'q0}, flatten({$states}))"
}

# N states in a ring, K registers: the letter is kept where it differs from the first one
ring() {
  local count=$1 registers=$2 steps=$3 i j
  echo "lois registers 1"
  echo "atoms order"
  echo "registers $registers"
  printf 'states'
  for ((i = 0; i < count; i++)); do printf ' s%d' "$i"; done
  printf '\ninitial s0\nfinal s0\n'
  for ((j = 0; j < steps; j++)); do
    i=$((j % count))
    echo "step s$i s$(((i + 1 + j / count) % count)) when ${4:-true} store $((j % registers + 1))"
  done
  echo end
}

# tuples of N atoms
tuples() {
  echo "atoms order; let s = {($(names 1 "$1"))$(binders "$1")}; print s;"
}

timed() {
  local name=$1 begun ended
  shift
  begun=$(date +%s%N)
  "$lois" "$@" <"$work/text" >"$work/answer"
  ended=$(date +%s%N)
  printf '%-52s %-28s %9d %6d.%03d\n' "$name" "$(head -2 "$work/answer" | tr '\n' ';' | cut -c1-28)" "$(wc -c <"$work/answer")" \
    $(((ended - begun) / 1000000000)) $(((ended - begun) / 1000000 % 1000))
}

printf '%-52s %-28s %9s %10s\n' question answer bytes seconds
for room in 2 3 5 7 8; do
  right=$(queue "$room" "$(names 2 "$room")")
  turned="x2"
  [ "$room" -eq 2 ] || turned="$(names 3 "$room"), x2"
  swapped=$(queue "$room" "$turned")
  echo "atoms equality; let a = $right; let b = $swapped; print a; print b;" | "$lois" run >"$work/text"
  timed "queue of $room against one that turns when it is full" equal a b
  timed "queue of $room against itself" equal a a
done
echo "atoms equality; let a = $(queue 5 "$(names 2 5)"); let b = $(queue 4 "$(names 2 4)"); print a; print b;" | "$lois" run >"$work/text"
timed "queue of 5 against a queue of 4" equal a b
for registers in 1 2 4; do
  ring 64 "$registers" 256 >"$work/text"
  timed "64 states, 256 steps, $registers registers" registers
done
ring 64 4 256 "x!=r1 and r2<x" >"$work/text"
timed "64 states, 256 steps, 4 registers, with tests" registers
for count in 8 16 32 64; do
  ring "$count" 1 "$count" | "$lois" registers >"$work/text"
  timed "a ring of $count states with one register against itself" equal automaton automaton
done
for registers in 2 4; do
  ring 64 "$registers" 64 | "$lois" registers >"$work/text"
  timed "a ring of 64 states with $registers registers against itself" equal automaton automaton
done
for count in 3 4 5 6; do
  tuples "$count" | "$lois" run >"$work/text"
  timed "tuples of $count atoms over an order" census s
done
