#!/usr/bin/env bash
# Runs tests/twice.py on the checkout, and its self test. The last line is `N passed, M failed`.
set -u
cd "$(dirname "${BASH_SOURCE[0]}")/.." || exit 70
. tests/counts.sh
if ! command -v python3 >/dev/null; then
  echo "tests/twice.sh: skipped, since python3 isn't there"
  exit 0
fi
work=$(mktemp -d)
trap 'rm -rf "$work"' EXIT
count_suite "$work/said" python3 tests/twice.py --selftest
count_suite "$work/said" python3 tests/twice.py
tell_counts
