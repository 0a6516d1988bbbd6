# For the scripts that time a program of their own, which source this: a temporary repository with the crates of this tree and one more.
# It goes when the script ends.
top=$(cd "$(dirname "${BASH_SOURCE[0]}")/.." && pwd)
room=$(mktemp -d)
trap 'rm -rf "$room"' EXIT

# program NAME CRATE..: the program NAME over these crates, whose src/main.rt is read from standard input
program() {
  local name=$1
  shift
  cp -r "$top/crates" "$room/crates"
  {
    cat "$top/crates.txt"
    echo "$name: $*"
  } >"$room/crates.txt"
  mkdir -p "$room/crates/$name/src"
  cat >"$room/crates/$name/src/main.rt"
}

# answers NAME FUNCTION: what is written of a function's proof is read from standard input
answers() {
  mkdir -p "$room/crates/$1/proofs/$2"
  cat >"$room/crates/$1/proofs/$2/Answers.antt"
}

# built_and_run NAME: the program is proved, built and run
built_and_run() {
  (cd "$room/crates/$1" && rt run)
}
