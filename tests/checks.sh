# Sourced by tests/run at the top of the repository, after tests/tools.sh: how a test is told, counted and skipped. What a test leaves stands in $room.
# shellcheck shell=bash disable=SC2154,SC2119,SC2120
passed=0
skipped=()

fail() { printf 'outside tests: FAILED: %s\n' "$1" >&2; exit 1; }

# skip WHAT: it cannot be tried on this machine. The last line of tests/run tells of it.
skip() { skipped+=("$1"); }

# pass [N]: one test more has passed, or so many.
pass() { passed=$((passed + ${1:-1})); }

# same NAME EXPECTED GOT: the two files have the same bytes.
same() {
  cmp -s "$2" "$3" || { diff -u --label expected --label got "$2" "$3" >&2 || true; fail "$1"; }
  pass
}

# ends NAME STATUS COMMAND..: the command ends so; what it wrote is in $room/wrote and $room/said.
ends() {
  local name=$1 status=$2 ended=0
  shift 2
  "$@" > "$room/wrote" 2> "$room/said" || ended=$?
  if [ "$ended" -ne "$status" ]; then
    cat "$room/wrote" "$room/said" >&2
    [ "$ended" -ne 124 ] || fail "$name: it had not ended after $limit seconds"
    fail "$name: status $ended in place of $status"
  fi
  pass
}

# One line on standard error, and nothing on standard output.
one_line() {
  [ ! -s "$room/wrote" ] || fail "$1: it wrote to standard output"
  [ "$(wc -l < "$room/said")" -eq 1 ] || { cat "$room/said" >&2; fail "$1: not one line on standard error"; }
  pass
}

# says NAME WORDS: they stand in what the last command said on standard error.
says() {
  grep -qF -- "$2" "$room/said" || { cat "$room/said" >&2; fail "$1: it does not say '$2'"; }
  pass
}

# silent NAME: it said nothing on standard error.
silent() {
  [ ! -s "$room/said" ] || { cat "$room/said" >&2; fail "$1: standard error is not empty"; }
  pass
}

# build PROGRAM SOURCES..: a C program, as strictly as the compiler can.
build() {
  local program=$1
  shift
  "${cc[@]}" -std=c99 -pedantic -Wall -Wextra -Werror -O2 -o "$program" "$@" || fail "$1 does not build"
}
