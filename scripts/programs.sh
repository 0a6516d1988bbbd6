# shellcheck shell=bash disable=SC2154
# Sourced by ./lois, ./unproved, ./install, playground/build and scripts/prove.sh, once `top` is the checkout's folder.
# A program is a crate of crates/ with a src/main.rt.

# The kit that the repository is proved with, as `rt version` begins, and all kits whose modules were tried: by
# ./unproved those of each, by playground/build those of rattle-kit-13f alone.
kit=rattle-kit-13f
tried_kits=("$kit" rattle-kit-13b)

say() {
  echo "lois: $1" >&2
}

fail() {
  say "$1"
  exit 70
}

# Whether a line of `rt version` is that of a kit that was tried.
is_tried_kit() {
  local tried
  for tried in "${tried_kits[@]}"; do
    [[ $1 != "$tried "* ]] || return 0
  done
  return 1
}

is_program() {
  [[ $1 =~ ^[a-z0-9_]+$ ]] && [ -f "$top/crates/$1/src/main.rt" ]
}

# The lines of crates.txt of a program and of all that it stands on, lowest first.
crates_below() {
  awk -v program="$1" '
    { sub(/#.*/, "") }
    split($0, sides, ":") > 1 { split(sides[1], head); lines[head[1]] = $0; uses[head[1]] = sides[2] }
    function visit(crate,    below, number, count) {
      if (!(crate in lines) || crate in seen) return
      seen[crate]
      count = split(uses[crate], below)
      for (number = 1; number <= count; number++) visit(below[number])
      print lines[crate]
    }
    END { visit(program) }' "$top/crates.txt"
}

# The files and folders that a program is made of, one a line.
sources_of() {
  local line part
  printf '%s\n' "$top/crates.txt" "$top/HANDLES"
  while read -r line; do
    for part in src specs proofs; do
      [ ! -d "$top/crates/${line%%[: ]*}/$part" ] || printf '%s\n' "$top/crates/${line%%[: ]*}/$part"
    done
  done < <(crates_below "$1")
}

# The sum of what the program `name` is made of, and of further files of the checkout. The toolchain isn't part of it,
# so that a built program needs none.
sum_of_sources() {
  local sources
  mapfile -t sources < <(sources_of "$name")
  (
    cd "$top" || exit
    find "${sources[@]#"$top/"}" scripts/module.sh "$@" -type f -print0 |
      LC_ALL=C sort -z | xargs -0 sha256sum | sha256sum
  )
}

# Whether the proved program stands there and is no older than what it is made of.
is_current() {
  local program=$top/crates/$1/out/$1 sources
  mapfile -t sources < <(sources_of "$1")
  [ -x "$program" ] && [ -z "$(find "${sources[@]}" -newer "$program" -print -quit)" ]
}

# Makes the folder of a program that is to be built there.
make_out() {
  mkdir -p "$1" 2>/dev/null
  [ -w "$1" ] || fail "the program isn't built, and $1 can't be written to build it there"
}

needs_rt() {
  command -v rt >/dev/null && return
  fail "the program isn't built, and rt, which builds it, isn't on the path: it comes with the Rattle toolchain, $kit"
}

# Has the caller go on alone: the lock is on the file that it names, and ends with the caller.
wait_for_turn() {
  exec 9<"$1"
  flock -n 9 && return
  say "another call is building the program; waiting for it"
  flock 9
}
