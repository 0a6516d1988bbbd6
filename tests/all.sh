#!/usr/bin/env bash
# Runs the tests of the built programs, crates/lois/out/lois and crates/lois_ask/out/lois_ask, or of those that LOIS and
# ASK name (LOIS=path ASK=path tests/all.sh). It builds nothing. A failure shows the script, the output and what was
# expected. The last line is `N passed, M failed` of all.
#   tests/all.sh [SEED]
# SEED makes the random scripts and texts. Where it isn't given it is the day, so each day has others.
set -u
cd "$(dirname "${BASH_SOURCE[0]}")/.." || exit 70
seed=${1:-$(date -u +%Y%m%d)}
export LOIS=${LOIS:-crates/lois/out/lois} ASK=${ASK:-crates/lois_ask/out/lois_ask}
. tests/counts.sh

for program in "$LOIS" "$ASK"; do
  if [ ! -x "$program" ]; then
    echo "tests/all.sh: $program isn't there: .ci/run builds it"
    echo '0 passed, 1 failed'
    exit 1
  fi
done
LOIS=$(realpath "$LOIS")
ASK=$(realpath "$ASK")
work=$(mktemp -d)
trap 'rm -rf "$work"' EXIT

suite() {
  local begin=$SECONDS
  echo "== $1"
  count_suite "$work/said" "${@:2}"
  echo "($((SECONDS - begin)) s)"
}

judges() {
  (cd tests && python3 -m reference "$@")
}

suite 'examples and the manual' tests/examples.sh
suite 'worked rows' tests/rows.sh
if command -v python3 >/dev/null; then
  suite "random scripts, changed texts, and questions about answers, by seed $seed" \
    judges suite --program "$LOIS" --ask "$ASK" --scripts 150 --texts 300 --further 60 --seed "$seed" --jobs "$(nproc)"
  suite 'wrong answers that the reference has to find' judges selftest
else
  echo "tests/all.sh: skipped what tests/reference/ judges, since python3 isn't there"
fi
suite 'the first calls' tests/first_run.sh
for name in documents editors unused twice trusted; do
  [ ! -x "tests/$name.sh" ] || suite "tests/$name.sh" "tests/$name.sh"
done
[ ! -f playground/out/lois.wasm ] || suite 'the page' tests/playground.sh
tell_counts
