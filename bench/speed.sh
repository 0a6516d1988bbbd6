#!/usr/bin/env bash
# Prints the table of docs/SPEED.md: seconds by the clock that the program and others take for the programs of
# bench/programs/, one after the other in one go, the least of three runs where one takes under a second.
#   bench/speed.sh [OTHER..] [-- PROGRAM..]
# OTHER is NAME=COMMAND, as pathfinder='/path/to/reference run', or `reference` for tests/reference/. PROGRAM is a file
# of bench/programs/, or a name that bench/programs/large.sh takes, or makeN, for which a command's last word `run` is
# `make N`. LIMIT is the number of seconds after which a run is ended (60). LOIS may name another program than the
# built one.
set -u
cd "$(dirname "${BASH_SOURCE[0]}")/.." || exit 70
limit=${LIMIT:-60}
programs=(
  fifo2 fifo3 fifo5 ww2 ww3 maxreg interval2 minmax window3 reg3 reach3 tc3 loops3 loops4 loops5 nested nested2 deep4
  weak5 weak5p eqn20 chain60 tags300 fq8 wd4 lp4 nb16 tn4 tc4 weak6p make100 make1000 make10000
  tcw3 tcw4 closed2 closed3 closed4 chainw4 chainw6 sortnet5 sortnet6 sortset4 sortset5 minmaxp window3w sched4
  one4000 one16000 loops3000 adds4000 ops1000 mem1000 tup1000 par100 comp100
  twoflat5 twoflat7 twoflat8 twoflat10 full4 wwflat10 ww6
)

others=(lois)
while [ $# -gt 0 ]; do
  case $1 in
    --)
      programs=("${@:2}")
      break
      ;;
    reference) others+=(reference=) ;;
    ?*=?*) others+=("$1") ;;
    *)
      echo "usage: speed.sh [reference] [NAME=COMMAND..] [-- PROGRAM..]" >&2
      exit 64
      ;;
  esac
  shift
done

. tests/built_program.sh

# A command by its words, with the last one, `run`, as it is for the program.
command_of() {
  case $1 in
    lois) command=("$lois" run) ;;
    reference=) command=(env "PYTHONPATH=$PWD/tests" python3 -m reference run -) ;;
    *) read -ra command <<<"${1#*=}" ;;
  esac
  [[ $2 =~ ^make([0-9]+)$ ]] || return
  [ "${command[-1]}" = run ] || return
  command=("${command[@]:0:${#command[@]}-1}" make "${BASH_REMATCH[1]}")
}

# Runs the command on the program, and gives its status and microseconds.
once() {
  local begin=${EPOCHREALTIME//[.,]/}
  # (the group's redirection is for what bash says of a killed command)
  { timeout -s KILL "$limit" "${command[@]}" <"$work/program" >/dev/null 2>&1; } 2>/dev/null
  status=$?
  spent=$((${EPOCHREALTIME//[.,]/} - begin))
}

cell() {
  local least
  command_of "$1" "$2"
  if [[ $2 == make* ]] && [ "${command[-2]}" != make ]; then
    printf ' - |'
    return
  fi
  once
  least=$spent
  for _ in 2 3; do
    [ $least -lt 1000000 ] || break
    once
    [ $spent -ge $least ] || least=$spent
  done
  if [ $status -eq 137 ]; then
    printf ' >%s |' "$limit"
  else
    printf ' %d.%03d%s |' $((least / 1000000)) $((least / 1000 % 1000)) "$([ $status -eq 0 ] || echo " ($status)")"
  fi
}

echo "commit $(git rev-parse --short HEAD 2>/dev/null), $(nproc) processors, load $(cut -d' ' -f1 /proc/loadavg)"
echo
printf '| program |'
printf ' %s |' "${others[@]%%=*}"
printf '\n|---|'
printf -- '---|%.0s' "${others[@]}"
echo
for program in "${programs[@]}"; do
  if [[ $program =~ ^make[0-9]+$ ]]; then
    : >"$work/program"
  elif [ -f "bench/programs/$program.lois" ]; then
    cp "bench/programs/$program.lois" "$work/program"
  elif ! bench/programs/large.sh "$program" >"$work/program" 2>/dev/null; then
    echo "speed: there is no program $program" >&2
    exit 64
  fi
  printf '| %s |' "$program"
  for other in "${others[@]}"; do
    cell "$other" "$program"
  done
  echo
done
