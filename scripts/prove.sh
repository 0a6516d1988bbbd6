#!/usr/bin/env bash
# Proves and builds a program of crates/ where it isn't built yet, or is older than its sources: crates/NAME/out/NAME.
#   scripts/prove.sh NAME [FOLDER]
# Where FOLDER is given the copy is made there and stays, with all that was built, also where the program stands there.
# `rt ci` does it in a copy of the program's crates, without edits and crates of tests. It keeps beside the kit what it
# has proved. So the gate (.ci/run) doesn't prove that again, nor this script what the gate or an interrupted run has
# proved. Standard error has a line for each crate that is done, or one line that is rewritten where it is a terminal.
set -u
top=$(dirname -- "$(dirname -- "$(realpath -- "${BASH_SOURCE[0]}")")")
. "$top/scripts/programs.sh"
name=$1
out=$top/crates/$name/out

wait_for_turn "$top/scripts/prove.sh"
[ $# -gt 1 ] || ! is_current "$name" || exit 0
needs_rt
make_out "$out"

work=$(mktemp -d) || exit 70
job=
trap '[ -z "$job" ] || { kill "$job"; wait "$job"; } 2>/dev/null; rm -rf "$work"' EXIT
trap 'exit 130' INT
trap 'exit 143' TERM HUP

# What is changed from here on makes the program old.
touch "$work/begun"
copy=${2:-$work/copy}
mkdir -p "$copy/.git"
cp "$top/HANDLES" "$copy"
crates_below "$name" >"$copy/crates.txt"
crates=0
while read -r line; do
  crate=crates/${line%%[: ]*}
  mkdir -p "$copy/$crate"
  for part in src specs proofs args data status stdin stdout; do
    [ ! -e "$top/$crate/$part" ] || cp -r --no-preserve=mode "$top/$crate/$part" "$copy/$crate"
  done
  crates=$((crates + 1))
done <"$copy/crates.txt"

# Reads what `rt ci` says, and tells of each crate that is proved. On a terminal the minutes go on meanwhile.
tell_progress() {
  local line part='' ready=0 last=
  while true; do
    if IFS= read -t 20 -r line; then
      line=$part$line part=
      [[ $line =~ ^rt:\ ([a-z0-9_]+)\ (proved$|is\ kept:) ]] || continue
      ready=$((ready + 1))
      last="$ready of $crates ${BASH_REMATCH[1]}"
      [ -t 2 ] || echo "$last, $((SECONDS / 60)) min" >&2
    elif [ $? -gt 128 ]; then
      part+=$line
    else
      break
    fi
    [ ! -t 2 ] || [ -z "$last" ] || printf '\r%s, %s min\033[K' "$last" $((SECONDS / 60)) >&2
  done
  [ ! -t 2 ] || [ -z "$last" ] || echo >&2
}

say "proving and building the program, $crates crates; docs/GATE.md says how long that takes"
SECONDS=0
: >"$work/log"
(cd "$copy" && exec rt ci) </dev/null >"$work/log" 2>&1 &
job=$!
tail -n +1 -s 0.2 -f --pid=$job "$work/log" 2>/dev/null | tell_progress &
teller=$!
wait $job
status=$?
job=
wait $teller
cp "$work/log" "$out/build.log"
if [ $status -ne 0 ] || [ ! -x "$copy/crates/$name/out/$name" ]; then
  grep -a 'NOT PROVED\|^rt: FAILED' "$work/log" >&2
  fail "the program could not be built: rt ci ended with status $status, and $out/build.log has what it said"
fi
# by another name first, so that a program that runs isn't written over
if ! { cp "$copy/crates/$name/out/$name" "$out/$name.new" && touch -r "$work/begun" "$out/$name.new" &&
  mv -f "$out/$name.new" "$out/$name"; }; then
  fail "the program could not be put into $out"
fi
