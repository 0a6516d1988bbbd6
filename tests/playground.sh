#!/usr/bin/env bash
# Tries the page of playground/out in a headless Chromium, by tests/playground.py. The last line is `N passed, M
# failed`.
#   tests/playground.sh [FOLDER]
# FOLDER gets pictures of each state, wide and narrow, light and dark. CHROMIUM names a browser that isn't on the path.
set -u
cd "$(dirname "${BASH_SOURCE[0]}")/.." || exit 70

skip() {
  echo "tests/playground.sh: skipped, since $1"
  echo '0 passed, 0 failed'
  exit 0
}

# Whether the page was made of other files than those of the checkout.
is_old() {
  local file top=$PWD name
  # shellcheck disable=SC2034
  . scripts/programs.sh
  for name in lois lois_ask; do
    [[ $(cat "playground/out/$name.wasm.sum") == *" $(sum_of_sources playground/build playground/imports.txt)" ]] || return 0
  done
  for file in playground/page/*; do
    cmp -s "$file" "playground/out/${file##*/}" || return 0
  done
  for file in examples/*.lois; do
    cmp -s "$file" "playground/out/$file" || return 0
  done
  return 1
}

[ -f playground/out/lois.wasm ] && [ -f playground/out/lois_ask.wasm ] || skip "playground/out isn't there: playground/build makes it"
! is_old || skip "playground/out is older than the sources: playground/build makes it anew"
command -v python3 >/dev/null || skip "python3 isn't there"
for browser in ${CHROMIUM:+"$CHROMIUM"} chromium chromium-browser google-chrome; do
  found=$(command -v "$browser") && break
done
[ -n "${found:-}" ] || skip "no Chromium is there, as Debian's package chromium"
exec python3 tests/playground.py "$found" "$@"
