#!/usr/bin/env bash
# Runs tests/trusted.py on the checkout: its self test, whether docs/DEFINITIONS.md says where each definition stands, whether
# anything else stands beside the definitions that a reader has to believe, and how many lines those take. The last line is `N passed, M failed`.
set -u
cd "$(dirname "${BASH_SOURCE[0]}")/.." || exit 70
. tests/counts.sh
if ! command -v python3 >/dev/null; then
  echo "tests/trusted.sh: skipped, since python3 isn't there"
  exit 0
fi
work=$(mktemp -d)
trap 'rm -rf "$work"' EXIT
count_suite "$work/said" python3 tests/trusted.py --selftest
count_suite "$work/said" python3 tests/trusted.py --documents
count_suite "$work/said" python3 tests/trusted.py --beside
count_suite "$work/said" python3 tests/trusted.py
tell_counts
