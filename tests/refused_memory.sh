#!/usr/bin/env bash
# shellcheck disable=SC2016
# Refuses each allocation of the program in turn, once alone and once with all that come after it, on some of the worked rows, a
# reread and a made script. Each run has to end with status 8 and nothing written, or with the row's own status and answer.
# It writes a table and ends with 0 where all runs did. It is no part of the gate.
#   tests/refused_memory.sh [RUNS]
# RUNS (7,000 where it isn't given) are the most runs of a row and a way of refusing: where a row has more allocations, the first
# half of them is refused one by one, and of what is behind them each k-th one, for the least k that fits.
# It runs ./lois, or the program that LOIS names. A library between the program and the C library refuses, and counts.
set -u
cd "$(dirname "${BASH_SOURCE[0]}")/.." || exit 70
runs=${1:-7000}
failed=0

if ! command -v cc >/dev/null; then
  echo "refused_memory: skipped, since cc isn't there"
  exit 0
fi

# a refused allocation of ./lois would be one of the shell's
. tests/built_program.sh

cat >"$work/refuse.c" <<'C'
#include <errno.h>
#include <fcntl.h>
#include <stdio.h>
#include <stdlib.h>
#include <unistd.h>

void *__libc_malloc(size_t size);
void *__libc_calloc(size_t count, size_t size);
void *__libc_realloc(void *old, size_t size);
void *__libc_memalign(size_t alignment, size_t size);

static long asked, first = -1, last = -1;

static long number_of(const char *name) {
  const char *text = getenv(name);
  return text ? atol(text) : 0;
}

// whether the allocation that is asked for now is one of those from REFUSE_FIRST to REFUSE_LAST
static int is_refused(void) {
  if (first < 0) {
    first = number_of("REFUSE_FIRST");
    last = number_of("REFUSE_LAST");
  }
  asked++;
  if (asked < first || last < asked) return 0;
  errno = ENOMEM;
  return 1;
}

void *malloc(size_t size) { return is_refused() ? NULL : __libc_malloc(size); }
void *calloc(size_t count, size_t size) { return is_refused() ? NULL : __libc_calloc(count, size); }
void *realloc(void *old, size_t size) { return is_refused() ? NULL : __libc_realloc(old, size); }
void *memalign(size_t alignment, size_t size) { return is_refused() ? NULL : __libc_memalign(alignment, size); }
void *aligned_alloc(size_t alignment, size_t size) { return memalign(alignment, size); }

int posix_memalign(void **made, size_t alignment, size_t size) {
  void *block = memalign(alignment, size);
  if (block) *made = block;
  return block ? 0 : ENOMEM;
}

// how many were asked for goes to the file that REFUSE_COUNT names
__attribute__((destructor)) static void tell(void) {
  const char *path = getenv("REFUSE_COUNT");
  int file = path ? open(path, O_WRONLY | O_CREAT | O_TRUNC, 0600) : -1;
  if (file >= 0) dprintf(file, "%ld\n", asked);
}
C
cc -O2 -shared -fPIC -o "$work/refuse.so" "$work/refuse.c" || exit 70

complain() {
  echo "refused_memory: $1" >&2
  failed=1
}

# Runs the words on the row's script, with these allocations refused. What it writes, to whichever stream, goes to one file.
refusing() {
  REFUSE_FIRST=$1 REFUSE_LAST=$2 LD_PRELOAD=$work/refuse.so "$lois" "${words[@]}" <"$work/script" >"$work/written" 2>&1
}

# The numbers of the allocations to refuse, of so many.
numbers() {
  local count=$1 half=$((runs / 2)) step
  if [ "$count" -le "$runs" ]; then
    seq 1 "$count"
  else
    step=$(((count - half + half - 1) / half))
    seq 1 "$half"
    seq $((half + step)) "$step" "$count"
  fi
}

# Refuses the allocations in turn, each alone or up to the last one, and writes a line of the table.
refuse_in_turn() {
  local row=$1 way=$2 wanted=$3 count=$4 answer=$5 tried=0 ended=0 answered=0 other=0 number last status
  for number in $(numbers "$count"); do
    last=$number
    [ "$way" = alone ] || last=$count
    refusing "$number" "$last"
    status=$?
    tried=$((tried + 1))
    if [ $status -eq 8 ] && [ ! -s "$work/written" ]; then
      ended=$((ended + 1))
    elif [ $status -eq "$wanted" ] && [ "$(<"$work/written")" = "$answer" ]; then
      answered=$((answered + 1))
    else
      other=$((other + 1))
      complain "$row ends with status $status where allocation $number is refused $way"
    fi
  done
  printf '| %s | %s | %s | %s | %s | %s | %s |\n' "$row" "$count" "$way" $tried $ended $answered $other
}

# A row by name, status, the line of its answer that has to be there, and words; its script is standard input.
try_row() {
  local row=$1 wanted=$2 line=$3 answer count way
  words=("${@:4}")
  cat >"$work/script"
  REFUSE_COUNT=$work/count refusing 0 0
  [ $? -eq "$wanted" ] || complain "$row doesn't end with status $wanted"
  grep -qxF -- "$line" "$work/written" || complain "$row doesn't answer: $line"
  answer=$(<"$work/written")
  count=$(cat "$work/count")
  [ "${count:-0}" -gt 0 ] || complain "$row asks for no memory that could be refused"
  judge "$row" "$wanted"
  for way in alone onwards; do
    refuse_in_turn "$row" $way "$wanted" "$count" "$answer"
  done
}

# Answers to `run` may be spelled in several ways. tests/reference/ says whether this one is right, where python3 is there.
judge() {
  [ "${words[0]}" = run ] && command -v python3 >/dev/null || return
  (cd tests && python3 -m reference judge "$work/script" "$work/written" "$2" --normal >/dev/null) || complain "$1 has a wrong answer"
}

echo '| Row | Allocations | Refused | Runs | Status 8, nothing written | Its own answer | Other |'
echo '|---|---|---|---|---|---|---|'
try_row 'all atoms' 0 'a = {$0 for $0}' run <<<'atoms equality; let a = atoms; print a;'
try_row 'pairs in two loops' 0 's = {($0, $1) for $0 $1 if $0<$1}' run \
  <<<'atoms order; let s = {}; for x in atoms { for y in atoms { if x < y { add (x, y) to s; } } } print s;'
try_row 'a false assertion' 1 'failed at 1:51: assertion failed' run \
  <<<'atoms equality; for x in atoms { for y in atoms { assert x = y; } }'
try_row 'a minimal automaton' 0 'case when true' run <<'END_OF_SCRIPT'
atoms equality; let states = union({'start}, {(x, y) for x in atoms, y in atoms}); let steps = union({('start, x, (x, x)) for x in atoms}, {((x, y), z, (x, z)) for x in atoms, y in atoms, z in atoms}); let a = (states, atoms, steps, {'start}, {(x, x) for x in atoms}); let m = minimise(a); let q = part(m, 1); assert q = union({{'start}}, union({{(x, x)} for x in atoms}, {{(x, y) for y in atoms where x != y} for x in atoms})); print q;
END_OF_SCRIPT
try_row 'results read again' 0 'a = {$0 for $0}' reread <<'END_OF_RESULTS'
lois results 1
atoms equality
parameters
case when true
a = {$0 for $0}
end
END_OF_RESULTS
try_row 'a made script' 0 'comprehensions 3' make 3 </dev/null
exit $failed
