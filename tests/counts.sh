# shellcheck shell=bash
# Sourced by tests/all.sh and .ci/run: adds up what suites have passed and failed.
passed=0
failed=0

# Runs a suite, keeps what it says in a file, and adds what its last line, `N passed, M failed`, counts. A suite with
# no such line is a single test, by its status; one with another status than its line tells has failed once more.
count_suite() {
  local said=$1 status last
  "${@:2}" | tee "$said"
  status=${PIPESTATUS[0]}
  last=$(tail -n 1 "$said")
  if [[ $last =~ ^([0-9]+)\ passed,\ ([0-9]+)\ failed ]]; then
    passed=$((passed + BASH_REMATCH[1]))
    failed=$((failed + BASH_REMATCH[2]))
    [ "$status" -eq 0 ] || [ "${BASH_REMATCH[2]}" -ne 0 ] || failed=$((failed + 1))
  elif [ "$status" -eq 0 ]; then
    passed=$((passed + 1))
  else
    failed=$((failed + 1))
  fi
}

# The line that counts them all; its status is the one to end with.
tell_counts() {
  echo "$passed passed, $failed failed"
  [ $failed -eq 0 ]
}
