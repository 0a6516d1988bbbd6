#!/usr/bin/env bash
# Runs tests/editors.py: whether the editors' grammars see the tokens of scripts as the lexer does. The last line is
# `N passed, M failed`.
set -u
cd "$(dirname "${BASH_SOURCE[0]}")/.." || exit 70
if ! command -v python3 >/dev/null; then
  echo "tests/editors.sh: skipped, since python3 isn't there"
  exit 0
fi
python3 tests/editors.py
