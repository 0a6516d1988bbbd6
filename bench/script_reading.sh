#!/usr/bin/env bash
# How long ./lois check takes to read and print scripts of about 1 MiB: a table of the script, its bytes, the bytes of
# its printed form and the seconds. The times should grow with the bytes and not with their square.
#   bench/script_reading.sh [COMMAND WORD..]      another command that reads a script and prints it
set -u
top=$(cd "$(dirname "${BASH_SOURCE[0]}")/.." && pwd)
[ $# -gt 0 ] || set -- "$top/lois" check
script=$(mktemp)
form=$(mktemp)
trap 'rm -f "$script" "$form"' EXIT

# SHAPE BYTES: a script of at most so many bytes
made() {
  python3 - "$1" "$2" <<'END'
import sys
shape, most = sys.argv[1], int(sys.argv[2])
before, piece, behind = {
    # statements of five tokens in one block
    'block': ("atoms equality; let s = {}; if true {\n", "add 'twelve_bytes to s ;\n", "}\n"),
    # one expression, with a part every ten bytes
    'parts': ("atoms equality; let s = {", "'letters, ", "'last};\n"),
    # sets 64 deep
    'sets': ("atoms equality; let s = {};\n", "s := " + "{" * 64 + "}" * 64 + ";\n", ""),
    # conditions 64 deep, in two kinds of brackets by turns
    'conditions': ("atoms equality; let s = {};\n", "assert " + "".join("[{} in {x%d for x%d in s where " % (i, i) for i in range(32)) + "true" + "}]" * 32 + ";\n", ""),
    # blocks 64 deep, one behind the other
    'blocks': ("atoms order;\n", "if true { " * 64 + "}" * 64 + "\n", ""),
    # one condition, joined by and and or by turns
    'joined': ("atoms equality; let s = {}; assert true", " and s = s or s != s", ";\n"),
}[shape]
sys.stdout.write(before + piece * ((most - len(before) - len(behind)) // len(piece)) + behind)
END
}

timed() {
  local begun ended
  begun=$(date +%s%N)
  "$@" <"$script" >"$form" || echo "status $?: $shape"
  ended=$(date +%s%N)
  printf '%-12s %9d %9d %9d.%03d\n' "$shape" "$(wc -c <"$script")" "$(wc -c <"$form")" $(((ended - begun) / 1000000000)) $(((ended - begun) / 1000000 % 1000))
}

printf '%-12s %9s %9s %13s\n' script bytes printed seconds
for shape in block parts sets conditions blocks joined; do
  for bytes in 262144 524288 1048576; do
    made "$shape" "$bytes" >"$script"
    timed "$@"
  done
done
