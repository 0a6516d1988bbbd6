#!/usr/bin/env bash
# Runs the scripts of examples/ and those that stand in docs/LANGUAGE.md and docs/IDIOMS.md, and compares what the
# program answers with what is written there: for examples/ the results byte for byte, or where they are spelled in
# another way by `same`; for the manual the lines behind `>`, each as a whole and in their order. What is asked of an
# example's answer stands beside it, and so does what becomes of a register automaton. Where Python is there
# tests/reference/ judges the whole answers to the manual's scripts. It runs the built programs, or those that LOIS and
# ASK name (LOIS=path ASK=path tests/examples.sh), and ends with `N passed, M failed`.
# Where the program spells the same values in another way, `./lois run < NAME.lois > NAME.out` makes the new text, which
# tests/reference/ judges: `cd tests && python3 -m reference judge ../examples/NAME.lois ../examples/NAME.out 0
# --normal`.
set -u
cd "$(dirname "${BASH_SOURCE[0]}")/.." || exit 70
. tests/built_program.sh
passed=0
failed=0

# Says what is wrong, and what the program was asked, has answered and should have.
complain() {
  faults=$((faults + 1))
  printf 'FAILED %s\n' "$1"
  head -c 2000 "$2"
  echo 'answered:'
  head -c 2000 "$3"
  echo 'wanted:'
  head -c 2000 "$4"
}

count() {
  if [ $faults -eq 0 ]; then passed=$((passed + 1)); else failed=$((failed + 1)); fi
}

# An example ends with status 0 where it says nothing else, and its answer is read again and written as it is.
try_example() {
  local script=$1 answer=${1%.lois}.out wanted faults=0
  wanted=$(sed -n 's/^# Ends with status \([0-9]\)\.$/\1/p' "$script")
  "$lois" run <"$script" >"$work/answer"
  [ $? -eq "${wanted:-0}" ] || complain "$script: not status ${wanted:-0}" "$script" "$work/answer" "$answer"
  cmp -s "$work/answer" "$answer" || cat "$work/answer" "$answer" | "$ask" same >"$work/likeness" ||
    complain "$script doesn't answer $answer" "$script" "$work/answer" "$answer"
  "$lois" reread <"$answer" >"$work/again" || complain "$answer is refused by reread" "$answer" "$work/again" "$answer"
  cmp -s "$work/again" "$answer" || complain "$answer is changed by reread" "$answer" "$work/again" "$answer"
  count
}

# A script may name words that its answer is asked with, and what they give.
try_asked() {
  local script=$1 line
  # shellcheck disable=SC2016
  sed -n 's/^# Its answer, asked with `\(.*\)`, gives \(.*\)\.$/\2 \1/p' "$script" >"$work/asked"
  while IFS= read -r line; do
    try_words "${line#* }" "${script%.lois}.out" "examples/${line%% *}"
  done <"$work/asked"
}

# The words, about a text, give what stands in a file.
try_words() {
  local words=$1 text=$2 given=$3 faults=0
  # shellcheck disable=SC2086
  "$(program_for $words)" $words <"$text" >"$work/answer"
  [ $? -eq "$(status_of "$(cat "$given")")" ] || complain "$words: another status" "$text" "$work/answer" "$given"
  cmp -s "$work/answer" "$given" || complain "$words of $text doesn't give $given" "$text" "$work/answer" "$given"
  [[ $words != picture* ]] || ! command -v dot >/dev/null || dot -Tsvg "$given" >"$work/drawn" ||
    complain "dot doesn't take $given" "$text" "$work/answer" "$given"
  count
}

# The status that lines of an answer go with.
status_of() {
  case $1 in
    *'refused'*) echo 5 ;;
    *'differ in '* | none*) echo 10 ;;
    *': assertion failed'*) echo 1 ;;
    *': turn limit'*) echo 3 ;;
    *': depth limit'*) echo 4 ;;
    *'failed at'*) echo 2 ;;
    *) echo 0 ;;
  esac
}

# Whether the lines of the first file all stand in the second one, in their order.
stand_in() {
  awk 'NR == FNR { wanted[++lines] = $0; next } found < lines && $0 == wanted[found + 1] { found++ }
    END { exit !(lines > 0 && found == lines) }' "$1" "$2"
}

# The reference finds the answer right, with its status. An answer to a script has to be a normal one.
try_judged() {
  local words=$1 status=$2
  [ "$words" != run ] || words='judge --normal'
  # shellcheck disable=SC2086
  (cd tests && python3 -m reference $words --seconds 60 "$work/script" "$work/answer" "$status") >"$work/judged" ||
    complain "the manual's script: the reference says $(head -n 1 "$work/judged")" "$work"/{script,answer,judged}
}

try_shown() {
  local command=$1 status faults=0
  printf '%s' "$2" >"$work/script"
  printf '%s' "$3" >"$work/shown"
  # the command may be several words
  # shellcheck disable=SC2086
  "$(program_for $command)" $command <"$work/script" >"$work/answer"
  status=$?
  [ $status -eq "$(status_of "$3")" ] || complain "the manual's script: another status" "$work"/{script,answer,shown}
  stand_in "$work/shown" "$work/answer" || complain "the manual's script: another answer" "$work"/{script,answer,shown}
  ! command -v python3 >/dev/null || try_judged "$command" $status
  count
}

lack_answer() {
  printf 'FAILED the manual shows no answer of\n%s' "$1"
  failed=$((failed + 1))
}

# The manual's blocks begin with ```lois, or with ```lois and the command. A script ends where lines behind `>` end.
try_manual() {
  local command='' script='' shown='' line
  while IFS= read -r line || [ -n "$line" ]; do
    if [ -n "$shown" ] && [ "${line#> }" = "$line" ]; then
      try_shown "$command" "$script" "$shown"
      script='' shown=''
    fi
    case $line in
      '```lois') command=run ;;
      '```lois '*) command=${line#'```lois '} ;;
      '```'*)
        [ -z "$script" ] || lack_answer "$script"
        command='' script=''
        ;;
      '> '*) [ -z "$command" ] || shown+=${line#> }$'\n' ;;
      *) [ -z "$command" ] || script+=$line$'\n' ;;
    esac
  done <"$1"
}

for script in examples/*.lois; do
  try_example "$script"
  try_asked "$script"
done
for text in examples/*.registers; do
  try_words registers "$text" "$text.out"
done
try_manual docs/LANGUAGE.md
try_manual docs/IDIOMS.md
echo "$passed passed, $failed failed"
[ $failed -eq 0 ]
