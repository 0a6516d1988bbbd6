#!/usr/bin/env bash
# Runs the worked rows of tests/rows/ and compares what the program answers with what is written there. Answers that
# may be spelled in several ways are judged by tests/reference/, where python3 is there. It runs the built programs, or
# those that LOIS and ASK name (LOIS=path tests/rows.sh), and ends with `N passed, M failed`. A row is
#   === what it shows
#   $ the program's words, of lois or of lois_ask
#   its input
#   --- the status, and what is asked of the answer
#   a text
# with one of: nothing, where the status is all; `exactly`, where the answer is the text; `begins`, where it begins
# with it; `same values`, where the text is a right answer, and the answer is too; `failed at` a place with a cause,
# which the answer has as a line. `each cut: REFUSAL`: each first part of the input that isn't all of it is refused at
# its end. `each cut but N..`: each is refused somewhere but those of N bytes, which end with 0. In an input, `*N
# 'TEXT'` on a line is TEXT N times with no newline, and a backslash at the end of a line stands for no newline.
set -u
cd "$(dirname "${BASH_SOURCE[0]}")/.." || exit 70
. tests/built_program.sh
mkdir "$work/rows"
passed=0
failed=0

# Each row gets a folder with the files name, words, input, asked and text.
awk -v folder="$work/rows" '
  function begin() {
    row = sprintf("%s/%04d", folder, ++rows)
    system("mkdir " row)
    input = row "/input"; text = row "/text"
    printf "" >input; printf "" >text
  }
  FNR == 1 { part = "" }
  /^=== / {
    close(input)
    close(text)
    begin()
    print substr($0, 5) >(row "/name")
    close(row "/name")
    part = "words"
    next
  }
  part == "words" { print substr($0, 3) >(row "/words"); close(row "/words"); part = "input"; next }
  /^--- / { print substr($0, 5) >(row "/asked"); close(row "/asked"); part = "text"; next }
  part == "input" && /^\*[0-9]+ \047.*\047$/ {
    times = substr($1, 2) + 0
    unit = substr($0, length($1) + 3, length($0) - length($1) - 3)
    for (; times > 0; times--) printf "%s", unit >input
    next
  }
  part == "input" && /\\$/ { printf "%s", substr($0, 1, length($0) - 1) >input; next }
  part == "input" { print >input }
  part == "text" && $0 != "" { print >text }' tests/rows/*.rows || exit 70

# The beginning of a file, for a person to read.
show() {
  head -c 2000 "$1" | cat -v
  [ "$(head -c 2000 "$1" | tail -c 1)" = "" ] || echo
}

complain() {
  failed=$((failed + 1))
  printf 'FAILED %s: %s\n$ lois %s\n' "$(cat "$row/name")" "$1" "$(cat "$row/words")"
  show "$row/input"
  echo "answered with status $status:"
  show "$row/answer"
  echo "wanted, $(cat "$row/asked"):"
  show "$row/text"
}

# Has the reference judge an answer, later on and beside others: the row's folder, the input, the answer and the
# status.
to_judge=()
judge() {
  to_judge+=("$row" "$1" "$2" "$3")
}

run() {
  "$(program_for "${words[0]:-}")" "${words[@]}" <"$1" >"$row/answer" 2>&1
  status=$?
}

try_cuts() {
  local asked=$1 size count wanted
  size=$(wc -c <"$row/input")
  for ((count = 0; count < size; count++)); do
    head -c "$count" "$row/input" >"$row/cut"
    run "$row/cut"
    case $asked in
      'each cut: '*)
        # (with a byte at its end, which has the place)
        wanted=$({ cat "$row/cut" && echo .; } | awk 'END { print NR ":" length($0) }')
        wanted="refused at $wanted: ${asked#each cut: }"
        [ "$status $(cat "$row/answer")" = "5 $wanted" ] || complain "its first $count bytes: $wanted"
        ;;
      'each cut but '*)
        wanted=5
        [[ " ${asked#each cut but } " != *" $count "* ]] || wanted=0
        if [ "$status" -ne $wanted ]; then
          complain "its first $count bytes: status $wanted"
        else
          mv "$row/cut" "$row/cut.$count"
          mv "$row/answer" "$row/answer.$count"
          judge "$row/cut.$count" "$row/answer.$count" "$status"
        fi
        ;;
    esac
  done
}

try_row() {
  local asked wanted
  read -ra words <"$row/words"
  read -r wanted asked <"$row/asked"
  case $asked in 'each cut'*) try_cuts "$asked" && return ;; esac
  run "$row/input"
  if [ "$status" -ne "$wanted" ]; then
    complain 'another status'
    return
  fi
  case $asked in
    exactly) cmp -s "$row/answer" "$row/text" || complain 'another answer' ;;
    begins) grep -qF -- "$(cat "$row/text")" <(head -n 1 "$row/answer") || complain 'another answer' ;;
    'failed at '*) grep -qxF -- "$asked" "$row/answer" || complain 'another failure' ;;
    'same values') cmp -s "$row/answer" "$row/text" || judge "$row/input" "$row/text" "$status" ;;
    '') ;;
    *) complain 'nothing that a row may ask' ;;
  esac
  case $asked in exactly | begins) ;; *) judge "$row/input" "$row/answer" "$status" ;; esac
}

# One of the answers to judge, in a process of its own; what is wrong of it goes to a file.
judge_one() {
  local row=$1 input=$2 answer=$3 status=$4 words
  read -ra words <"$row/words"
  if [ "${words[0]}" = run ]; then
    words=(judge --normal)
  fi
  (cd tests && python3 -m reference "${words[@]}" "$input" "$answer" "$status") >"$answer.judged" 2>&1 && return
  {
    printf 'FAILED %s: the reference refuses this answer:\n' "$(cat "$row/name")"
    show "$answer"
    echo "with status $status, to"
    show "$input"
    show "$answer.judged"
  } >"$answer.refused"
}

for row in "$work"/rows/*; do
  before=$failed
  try_row
  [ $failed -ne $before ] || passed=$((passed + 1))
done
if ! command -v python3 >/dev/null; then
  echo "rows: $((${#to_judge[@]} / 4)) answers aren't judged, since python3 isn't there"
elif [ ${#to_judge[@]} -gt 0 ]; then
  export -f judge_one show
  # shellcheck disable=SC2016
  printf '%s\0' "${to_judge[@]}" | xargs -0 -n 4 -P "$(nproc)" bash -c 'judge_one "$@"; exit 0' judge_one
  refused=$(find "$work/rows" -name '*.refused' | wc -l)
  find "$work/rows" -name '*.refused' -exec cat {} +
  passed=$((passed + ${#to_judge[@]} / 4 - refused))
  failed=$((failed + refused))
fi
echo "$passed passed, $failed failed"
[ $failed -eq 0 ]
