# Sourced by tests/run, after tests/command.sh: what ./review, .ci/run, bench/run and make_archives do with a toolchain that fails, in a small tree with a stand-in for rt. It does what the file `act` says,
# and notes its calls, each with the folder that it was called in.
# shellcheck shell=bash disable=SC2154,SC2016
tree="$room/a tree"
standin=$room/standin
mkdir -p "$standin" "$tree/crates/one"/{src,specs,proofs} "$tree/crates"/{cuckoomoss,probe,desk_c} "$tree"/{.ci,bench,tests}
cp review "$tree"
cp .ci/run "$tree/.ci"
cp bench/run "$tree/bench"
cp tests/tools.sh "$tree/tests"
touch "$tree/crates.txt" "$tree/tests/packages"
cat > "$standin/rt" << 'END'
#!/usr/bin/env bash
echo "${PWD##*/}: $*" >> "${0%/*}/called"
. "${0%/*}/act"
END
chmod 755 "$standin/rt"
real_program=$top/target/bin/cuckoomoss
export real_program

# acts WORDS: from here on the stand-in does this, and has not been called.
acts() { printf '%s\n' "$1" > "$standin/act"; : > "$standin/called"; }

# was_called NAME WORDS..: since then it was called with just these, one call a word.
was_called() {
  local name=$1
  shift
  cmp -s "$standin/called" <([ $# -eq 0 ] || printf '%s\n' "$@") || { cat "$standin/called" >&2; fail "$name: those were the calls of rt"; }
  pass
}

in_tree() ( cd "$tree" && PATH=$standin:$PATH RATTLE_HOME=$home limited "$@" )

# age FILE: it is a day old.
age() { touch -d '1 day ago' "$1"; }

# ---- ./review

makes='mkdir -p out; cp "$real_program" out/cuckoomoss; chmod 755 out/cuckoomoss'
built=$tree/crates/cuckoomoss/out/cuckoomoss
made=$tree/target/bin/cuckoomoss
wrong() { mkdir -p "$tree/target/bin" "${built%/*}"; echo 'no program' | tee "$made" > "$built"; chmod 755 "$made" "$built"; age "$made"; age "$built"; }
in_tree_review() { in_tree ./review "$top/$text.txt"; }

# reviewed NAME: it ends well, with the report.
reviewed() {
  ends "$1" 0 in_tree_review
  same "$1" "$text.report" "$room/wrote"
}
# unbuilt NAME: it ends with status 1 and no report; what rt said is shown, and then one line by ./review.
unbuilt() {
  ends "$1" 1 in_tree_review
  [ ! -s "$room/wrote" ] || fail "$1: it wrote to standard output"
  says "$1" 'the stand-in says no'
  [ "$(tail -n 1 "$room/said")" = 'review: the program could not be built' ] || fail "$1: the last line does not say that the program could not be built"
}

acts "$makes"
reviewed 'a first call'
was_called 'a first call' 'cuckoomoss: run'
acts 'exit 1'
reviewed 'a second call'
was_called 'a second call'

wrong
touch "$tree/crates/one/src/lib.rt"
acts "$makes"
reviewed 'a source that is newer'
was_called 'a source that is newer' 'cuckoomoss: run'

wrong
acts 'echo the stand-in says no; exit 1'
unbuilt 'a newer source that does not pass'
unbuilt 'the same once more'
was_called 'both calls' 'cuckoomoss: run' 'cuckoomoss: run'

acts "$makes; echo the stand-in says no; exit 1"
unbuilt 'a program that is built and then does not pass'
acts 'echo the stand-in says no; exit 1'
unbuilt 'the same once more'
acts 'echo the stand-in says no'
unbuilt 'a run that passes and makes no program'
cp "$real_program" "$made"
cp "$real_program" "$built"
age "$made"
age "$built"
unbuilt 'the same, and an old program is there'

# rt makes no program that it has a stamp of.
touch "$built.stamp"
acts "[ -e out/cuckoomoss.stamp ] || { $makes; }"
reviewed 'a program that is gone, and its stamp is there'

# The gate leaves a program in the folder of its crate.
rm "$made"
cp "$real_program" "$built"
acts 'exit 1'
reviewed 'a program that was built otherwise'
was_called 'a program that was built otherwise'

age "$made"
age "$built"
acts "$makes; sleep 0.05; touch ../one/src/lib.rt"
reviewed 'a source that is changed during the build'
acts "$makes"
reviewed 'a call after that'
was_called 'a call after that' 'cuckoomoss: run'
echo './review: builds at its first call and when a source is newer, and runs no program that did not pass'

mkdir "$room/few"
for tool in bash dirname readlink; do ln -s "$(command -v "$tool")" "$room/few"; done
limit_path=$(command -v timeout)
without_rt() { PATH=$room/few "$limit_path" "$limit" "$top/review" "$text.txt"; }
refused 'no toolchain on the PATH' 2 without_rt

# ---- the gate

# gate LINE STATUS [OK]: what rt ci prints last, and how it ends; and what it says before that.
well='rt: ok; handles allowed: none; must-fail edits: 7 refused; every proof and must-fail edit was done in this run'
gate() { acts "echo '${3-$well}'; echo '$1'; exit $2"; }
outside() { printf '#!/bin/sh\n%s\n' "$1" > "$tree/tests/run"; chmod 755 "$tree/tests/run"; }
outside 'echo outside'
gate '3 passed, 0 failed' 0
ends 'a gate that passes' 0 in_tree .ci/run
was_called 'a gate that passes' 'a tree: ci'
printf '%s\n' "$well" outside '3 passed, 0 failed' > "$room/expected"
same 'a gate that passes' "$room/expected" "$room/wrote"
for last in '0 passed, 0 failed' '3 passed, 1 failed' '3 passed, 0 failed, or so' 'rt: ok' ''; do
  gate "$last" 0
  ends "a gate whose last line is '$last'" 1 in_tree .ci/run
  if grep -q outside "$room/wrote"; then fail "after '$last' the outside tests are run"; fi
done
for last in '3 passed, 1 failed' '3 passed, 0 failed'; do
  gate "$last" 1
  ends "a gate whose proofs fail with '$last'" 1 in_tree .ci/run
  if grep -q outside "$room/wrote"; then fail 'after proofs that fail the outside tests are run'; fi
done
for said in "${well/7 refused/6 refused, 1 bad}" "${well/7 refused/6 refused, 2 of them only by a limit, 12 bad}" 'rt: not ok' ''; do
  gate '3 passed, 0 failed' 0 "$said"
  ends "a gate that says '$said'" 1 in_tree .ci/run
  if grep -q -e outside -e 'passed, 0 failed' "$room/wrote"; then fail "after '$said' the gate goes on"; fi
done
outside 'exit 1'
gate '3 passed, 0 failed' 0
ends 'a gate whose outside tests fail' 1 in_tree .ci/run
if grep -q 'passed, 0 failed' "$room/wrote"; then fail 'the gate tells that all passed, and the outside tests failed'; fi
echo 'the gate: passes with a last line of rt that says so, and with no other'

# ---- the archives

makes_archive='crate=${PWD##*/}; mkdir -p out; echo "$crate" > "out/lib$crate.a"'
# make_with DEFINITION: make_archives where a command is replaced by this function, and what it answers is looked at, so that bash ends nothing by itself.
make_with() ( cd "$tree" && PATH=$standin:$PATH && . tests/tools.sh && eval "$1" && { make_archives || exit 1; } )
# unmade NAME DEFINITION: it fails.
unmade() {
  rm -rf "$tree/target/staticlib" "$tree/crates"/*/out
  acts "$makes_archive"
  ends "$1" 1 make_with "$2"
}
# have WORDS: what stands in the two archives.
have() { [ "$(cat "$tree/target/staticlib/libprobe.a" "$tree/target/staticlib/libdesk.a")" = "$1" ] || fail "$2"; }
acts "$makes_archive"
ends 'archives that can be made' 0 make_with :
was_called 'archives that can be made' 'probe: lib' 'desk_c: lib'
have $'probe\ndesk_c' 'make_archives does not make both archives'
acts 'exit 1'
ends 'archives that are made' 0 make_with :
was_called 'archives that are made'
acts "$makes_archive; sleep 0.05; touch ../one/src/lib.rt"
touch "$tree/crates/one/src/lib.rt"
ends 'a source that is changed during the build' 0 make_with :
acts "$makes_archive"
ends 'the archives after that' 0 make_with :
was_called 'the archives after that' 'probe: lib' 'desk_c: lib'
unmade 'no file for what is said' 'mktemp() { return 1; }'
was_called 'no file for what is said'
unmade 'the archive of desk does not pass' 'rt() { [ "${PWD##*/}" != desk_c ] && command rt "$@"; }'
unmade 'the archive of probe does not pass' 'rt() { [ "${PWD##*/}" != probe ] && command rt "$@"; }'
unmade 'a build that passes and makes no archive' 'rt() { :; }'
unmade 'the folder for the archive cannot be made' 'mkdir() { [ "$2" != target/staticlib ] && command mkdir "$@"; }'
unmade 'the archives cannot be copied' 'cp() { return 1; }'
unmade 'the archives do not get their time' 'touch() { return 1; }'
unmade 'the archives do not get their names' 'mv() { return 1; }'

# over_ci DEFINITION: the same right after rt ci, where the libraries are those that it left, by a compiler that is replaced by this function.
over_ci() ( cd "$tree" && PATH=$standin:$PATH && . tests/tools.sh && eval "$1" && make_archives_over_ci && { make_archives || exit 1; } )
rm -rf "$tree/target/staticlib" "$tree/crates"/*/out
mkdir -p "$tree/crates/one/out/rlib/one.rlib"
acts "$makes_archive"
ends 'archives over what rt ci left' 0 over_ci 'lib_over_ci() { mkdir -p out; echo "over $1" > "out/lib$1.a"; }'
was_called 'archives over what rt ci left'
have $'over probe\nover desk_c' 'make_archives_over_ci does not make both archives'
rm -rf "$tree/target/staticlib" "$tree/crates"/{probe,desk_c}/out
ends 'a compiler that says no' 0 over_ci 'lib_over_ci() { return 1; }'
was_called 'a compiler that says no' 'probe: lib' 'desk_c: lib'
rm -rf "$tree/target/staticlib" "$tree/crates"/{probe,desk_c}/out
touch "$tree/crates/one/out/rlib/stamp"
acts "$makes_archive"
ends 'a library that rt lib built' 0 over_ci 'lib_over_ci() { mkdir -p out; echo "over $1" > "out/lib$1.a"; }'
was_called 'a library that rt lib built' 'probe: lib' 'desk_c: lib'
echo 'the archives: whatever fails while they are made is told'

# An archive that is older than a source is made anew, and where that fails nothing is timed.
mkdir -p "$tree/target/staticlib"
cp target/staticlib/libprobe.a "$tree/target/staticlib"
age "$tree/target/staticlib/libprobe.a"
acts 'echo the stand-in says no >&2; exit 1'
ends 'bench/run with an old archive' 1 in_tree bench/run
was_called 'bench/run with an old archive' 'probe: lib'
echo 'bench/run: times no old archive'
