# Sourced by .ci/run, tests/run, tests/long, tests/same and bench/run at the top of the repository: what builds and runs C code over the archives. These are for x86-64; on another machine
# Debian's cross compiler builds, statically, and an emulator runs what it built, as the plainest machine of that kind, which is what the archives are made for.
# shellcheck shell=bash disable=SC2034
#
# `limit` is how many seconds a program under test may take: far more than any needs, so that only one that hangs meets it.
if [ "$(uname -m)" = x86_64 ]; then
  kind=x86_64 prefix='' cc=(cc) cxx=c++ emulator=() limit=300
else
  kind=other prefix=x86_64-linux-gnu- cc=(x86_64-linux-gnu-gcc -static) cxx=x86_64-linux-gnu-g++ emulator=(qemu-x86_64 -cpu qemu64) limit=3000
fi

# limited COMMAND..: runs it, with all that it starts, and ends it at the limit: that is told, and the status is 124. One that does not end when asked is killed ten seconds later.
limited() {
  local ended=0
  timeout -k 10 "$limit" "$@" || ended=$?
  [ "$ended" -ne 124 ] || echo "time limit: $1 had not ended after $limit seconds" >&2
  [ "$ended" -ne 137 ] || echo "killed: $1, by the system or ten seconds after the time limit of $limit" >&2
  return "$ended"
}

# run_c PROGRAM [WORDS..]: a program that was built here.
run_c() { limited "${emulator[@]}" "$@"; }

# Installs what is missing of the packages that tests/packages lists for this kind of machine. Only root can.
install_packages() {
  local machine package missing=()
  while read -r machine package; do
    [ "$machine" != "$kind" ] || dpkg -s "$package" > /dev/null 2>&1 || missing+=("$package")
  done < tests/packages
  [ "${#missing[@]}" -gt 0 ] || return 0
  if [ "$(id -u)" -ne 0 ]; then
    echo "These Debian packages are missing, and only root can install them: ${missing[*]}" >&2
    return 2
  fi
  apt-get update -q
  apt-get install -q -y --no-install-recommends "${missing[@]}"
}

# kit: the folder of the toolchain.
kit() { dirname "$(dirname "$(readlink -f "$(command -v rt)")")"; }

# The archives, in target/staticlib, and the crate that each is made of.
declare -A crate_of=([probe]=probe [desk]=desk_c)

# is_made ARCHIVE: it is there and newer than all that it is made of.
is_made() {
  local archive=target/staticlib/lib$1.a
  [ -f "$archive" ] && [ -z "$(find crates.txt crates/*/src crates/*/specs crates/*/proofs -newer "$archive" -print -quit)" ]
}

# make_archive ARCHIVE [COMMAND..]: has rt prove and build it, or this command, if it is missing or old. Says what went wrong.
# It is called where a failure is looked at, and there bash ends nothing by itself: so every command here is looked at.
make_archive() {
  local name=$1 crate=${crate_of[$1]} began log
  shift
  [ $# -gt 0 ] || set -- rt lib
  if is_made "$name"; then return 0; fi
  log=$(mktemp) || return 1
  began=$(date +%s.%N)
  if (cd "crates/$crate" && "$@") > "$log" 2>&1 && take_archive "$name" "$began"; then
    rm -f "$log"
  else
    cat "$log" >&2
    rm -f "$log"
    return 1
  fi
}

# take_archive ARCHIVE BEGAN: what was built of its crate. It gets its name last, so that half of one is never taken for it, and is as old as the beginning of its build: a source that is changed
# meanwhile is newer.
take_archive() {
  local archive=target/staticlib/lib$1.a crate=${crate_of[$1]}
  mkdir -p target/staticlib && cp "crates/$crate/out/lib$crate.a" "$archive.new" && touch -d "@$2" "$archive.new" && mv "$archive.new" "$archive"
}

# make_archives: both, if they are missing or old.
make_archives() {
  local failed=0
  make_archive probe || failed=1
  make_archive desk || failed=1
  return "$failed"
}

# make_archives_over_ci: right after `rt ci` in a clone in which nothing was built before: both are made over the libraries that it has proved and left. `rt lib` takes only what it built itself, and
# would prove every crate once more. Where anything else was built here, or this fails, nothing is made, and the next make_archives has `rt lib` do it.
make_archives_over_ci() {
  local name libraries
  libraries=(crates/*/out/rlib)
  [ -d "${libraries[0]}" ] && [ -z "$(find "${libraries[@]}" -maxdepth 1 -name stamp -print -quit)" ] || return 0
  for name in "${!crate_of[@]}"; do make_archive "$name" lib_over_ci "${crate_of[$name]}" || true; done
}

# lib_over_ci CRATE: in its folder, what `rt lib` does there once the libraries below are built.
lib_over_ci() {
  local crate=$1 kit library words=()
  kit=$(kit)
  for library in $(sed -n "s/^$crate staticlib://p" ../../crates.txt); do words+=(--extern "$library=../$library/out/rlib/$library.rlib"); done
  for library in ../*/out/rlib; do words+=(-L "dependency=$library"); done
  mkdir -p out
  "$kit/bin/rattle" build --crate-name "$crate" src/lib.rt --crate-type staticlib --extern "std=$kit/rlibs/std.rlib" -L "dependency=$kit/rlibs" "${words[@]}" --links "$crate=" \
    --antt-project "$kit/rattle/logic/antt-project.json" --logic-built "$kit/logic_built" --toolchain "$kit/toolchain" --backend llvm --jobs 2 -o "out/lib$crate.a"
}

# What the programs that compare are linked with; tests/same puts both archives in two builds in its place.
archives=(target/staticlib/libprobe.a target/staticlib/libdesk.a)

# The programs that compare, and the files of each: with the reference; the reviews of one program with each other; the run of a warp with the reference of document 001.
declare -A parts=(
  [compare]='compare reference evidence printed schedules call lent inputs'
  [files]='files reference call lent inputs'
  [warps]='warps warp threads kernels reference call lent inputs'
)

# build_comparison NAME PROGRAM: one of these, over both archives. Its files are compiled as one, since it plays millions of schedules step by step.
build_comparison() {
  local part sources=()
  for part in ${parts[$1]}; do sources+=("tests/$part.c"); done
  "${cc[@]}" -std=c99 -pedantic -Wall -Wextra -Werror -O2 -flto -o "$2" "${sources[@]}" "${archives[@]}"
}

# compare_both PROGRAM FOLDER SEED COUNT: two processes side by side, with this seed and the next; one line with the figures of both. At a difference, what they said.
compare_both() {
  local program=$1 folder=$2 seed=$3 count=$4 first second ended=0
  run_c "$program" "$seed" "$count" > "$folder/first" 2> "$folder/first.said" & first=$!
  run_c "$program" "$((seed + 1))" "$count" > "$folder/second" 2> "$folder/second.said" & second=$!
  wait "$first" || ended=1
  wait "$second" || ended=1
  cat "$folder/first.said" "$folder/second.said" >&2
  awk '{ for (i = 1; i <= NF; i++) if ($i ~ /^[0-9]+$/) { sum[i] += $i; $i = sum[i] } } END { print }' <(head -n 1 "$folder/first") <(head -n 1 "$folder/second")
  return "$ended"
}
