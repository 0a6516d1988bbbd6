#!/usr/bin/env bash
# Runs tests/documents.py on the checkout, and its self test, and mandoc on the manual pages where it is there. The last
# line is `N passed, M failed`.
set -u
cd "$(dirname "${BASH_SOURCE[0]}")/.." || exit 70
. tests/counts.sh
if ! command -v python3 >/dev/null; then
  echo "tests/documents.sh: skipped, since python3 isn't there"
  exit 0
fi
work=$(mktemp -d)
trap 'rm -rf "$work"' EXIT
count_suite "$work/said" python3 tests/documents.py --selftest
count_suite "$work/said" python3 tests/documents.py
if command -v mandoc >/dev/null; then
  count_suite "$work/said" mandoc -T lint docs/lois.1 docs/lois_ask.1
else
  echo "tests/documents.sh: the manual pages: skipped, since mandoc isn't there"
fi
tell_counts
