#!/usr/bin/env bash
# How long ./lois takes to check scripts of many names and blocks: a table of the script, its bytes and its seconds. The
# times should grow with the bytes and not with their square.
#   bench/scopes.sh
set -u
top=$(cd "$(dirname "${BASH_SOURCE[0]}")/.." && pwd)
script=$(mktemp)
trap 'rm -f "$script"' EXIT

# one block of N names, each the value of the next
one_block() {
  echo 'atoms equality; let n0 = atoms;'
  for ((i = 1; i < $1; i++)); do
    echo "let n$i = n$((i - 1));"
  done
}

# DEPTH loops, one in the other, with N names in each, and a set of all loops' elements in the innermost
nested_blocks() {
  echo 'atoms equality; let s = {};'
  for ((d = 0; d < $1; d++)); do
    echo "for x$d in atoms {"
    for ((i = 0; i < $2; i++)); do
      echo "let n${d}_$i = (x$d, s);"
    done
  done
  echo 'add (x0, n0_0) to s;'
  for ((d = 0; d < $1; d++)); do
    echo '}'
  done
}

# as many names in one block after the other
side_by_side() {
  echo 'atoms equality; let s = {};'
  for ((d = 0; d < $1; d++)); do
    echo "for x in atoms { let n = (x, s); add n to s; }"
  done
}

timed() {
  local name=$1 begun ended
  begun=$(date +%s%N)
  "$top/lois" check <"$script" >/dev/null || echo "status $?: $name"
  ended=$(date +%s%N)
  printf '%-48s %9d %9d.%03d\n' "$name" "$(wc -c <"$script")" $(((ended - begun) / 1000000000)) $(((ended - begun) / 1000000 % 1000))
}

printf '%-48s %9s %13s\n' script bytes seconds
for n in 5000 10000 20000 40000; do
  one_block "$n" >"$script"
  timed "$n names in one block"
done
for n in 1 50 200 400; do
  nested_blocks 63 "$n" >"$script"
  timed "63 loops in one another, $n names in each"
done
for n in 5000 20000; do
  side_by_side "$n" >"$script"
  timed "$n loops side by side"
done
