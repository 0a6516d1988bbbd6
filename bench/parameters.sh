#!/usr/bin/env bash
# How long ./lois takes to read results of many parameters again: a table of the text, its bytes and its seconds. The times
# should grow with the bytes and not with their square.
#   bench/parameters.sh
set -u
top=$(cd "$(dirname "${BASH_SOURCE[0]}")/.." && pwd)
text=$(mktemp)
trap 'rm -f "$text"' EXIT

# results with N parameters, of which the first and the last stand in a case and the middle one in a set
results() {
  printf 'lois results 1\natoms equality\nparameters'
  for ((i = 0; i < $1; i++)); do
    printf ' p%d' "$i"
  done
  printf '\ncase when p0=p%d\ns = {p%d}\nend\n' $(($1 - 1)) $(($1 / 2))
}

printf '%-24s %9s %13s\n' text bytes seconds
for n in 10000 25000 50000 100000; do
  results "$n" >"$text"
  begun=$(date +%s%N)
  "$top/lois" reread <"$text" | cmp -s - "$text" || echo "not read again: $n parameters"
  ended=$(date +%s%N)
  printf '%-24s %9d %9d.%03d\n' "$n parameters" "$(wc -c <"$text")" $(((ended - begun) / 1000000000)) $(((ended - begun) / 1000000 % 1000))
done
