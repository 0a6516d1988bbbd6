# shellcheck shell=bash disable=SC2034
# For the scripts that look at the programs themselves, since ./lois and ./lois_ask are scripts; they source this at the
# top of the checkout. `lois` and `ask` are the built programs, or those that LOIS and ASK name, and `work` a folder that
# goes when the script ends.
[ -n "${LOIS:-}" ] || printf 'atoms order;' | ./lois run >/dev/null || exit 70
[ -n "${ASK:-}" ] || [ -n "${LOIS:-}" ] || ./lois_ask >/dev/null || [ $? -eq 9 ] || exit 70
lois=$(realpath "${LOIS:-crates/lois/out/lois}")
ask=$(realpath "${ASK:-crates/lois_ask/out/lois_ask}")

# The program that takes the words.
program_for() {
  case $1 in
    word | within | same | picture) echo "$ask" ;;
    *) echo "$lois" ;;
  esac
}

work=$(mktemp -d)
trap 'rm -rf "$work"' EXIT
