# Sourced by tests/run: ./review and the program that it runs, over every text of examples/, and ./review as it may be called.
# shellcheck shell=bash disable=SC2154
texts=(examples/*.txt)
top=$PWD
review() { limited "$top/review" "$@"; }

# The program by itself, under the toolchain's own loader and, on another machine, the emulator: as ./review runs it.
home=${RATTLE_HOME:-$(kit)}
tools=$home/toolchain
by_itself=("$tools/lib/ld-linux-x86-64.so.2" --library-path "$tools/lib" target/bin/cuckoomoss)
[ "$(uname -m)" = x86_64 ] || ! command -v qemu-x86_64 > /dev/null || by_itself=(qemu-x86_64 "${by_itself[@]}")
program() { limited "${by_itself[@]}" "$@"; }

# The first call may have to prove and build the program first, which takes minutes: so it has a limit of its own.
first_call() { local limit=$((12 * limit)); review examples/empty.txt; }
ends 'the first call of ./review' 0 first_call

# ---- every text

# printed OPTION TEXT: the stored file with what is printed of it. Verdicts 10 and 11 have stored evidence, which begins with the report, and no other has.
printed() {
  local report=${2%.txt}.report evidence=${2%.txt}.evidence number
  [ -f "$report" ] || fail "$2 has no stored report"
  read -r _ number _ < "$report"
  case $number in
    10 | 11)
      [ -f "$evidence" ] || fail "$2 has no stored evidence"
      head -c "$(wc -c < "$report")" "$evidence" | cmp -s - "$report" || fail "$evidence does not begin with the report"
      ;;
    *) [ ! -f "$evidence" ] || fail "$2 has stored evidence for verdict $number" ;;
  esac
  if [ -n "$1" ] && [ -f "$evidence" ]; then echo "$evidence"; else echo "$report"; fi
}

# try_texts OPTION: every text in the bench; in ./review, as a file and as standard input; and in the program by itself, since ./review would hide bytes that come after a report's end.
try_texts() {
  local option=${1:+ $1} text stored number
  for text in "${texts[@]}"; do
    stored=$(printed "$1" "$text") || exit 1
    read -r _ number _ < "$stored"
    { printf '%s answered %s\n' "$text" "$number"; cat "$stored"; } > "$room/expected"
    ends "bench$option $text" 0 run_c "$room/bench" ${1:+"$1"} "$text"
    same "bench$option $text" "$room/expected" "$room/wrote"
    ends "./review$option $text" 0 review ${1:+"$1"} "$text"
    same "./review$option $text" "$stored" "$room/wrote"
    ends "./review$option < $text" 0 review ${1:+"$1"} < "$text"
    same "./review$option < $text" "$stored" "$room/wrote"
    ends "cuckoomoss$option < $text" 0 program ${1:+"$1"} < "$text"
    same "cuckoomoss$option < $text" "$stored" "$room/wrote"
    silent "cuckoomoss$option < $text"
  done
}
try_texts ''
echo "the bench, ./review and the program by itself: ${#texts[@]} texts, their numbers and reports, as files and as standard input"
try_texts --evidence
stored=(examples/*.evidence)
echo "the same with --evidence: ${#stored[@]} of them have some"

# ---- how it may be called

text=examples/write_after_arrive
# called NAME WORDS..: a call that ends well, with the report of the text above.
called() {
  local name=$1
  shift
  ends "$name" 0 "$@"
  same "$name" "$text.report" "$room/wrote"
  silent "$name"
}
elsewhere() ( cd "$room" && review "$@" )
by_link() { limited "$@"; }

cp "$text.txt" "$room/-text"
called 'a file whose name begins with a dash' elsewhere -text
ends 'the same with --evidence' 0 elsewhere --evidence -text
same 'the same with --evidence' "$text.evidence" "$room/wrote"
mkdir "$room/a folder"
cp "$text.txt" "$room/a folder/a text; with *"
called 'a file name with spaces' review "$room/a folder/a text; with *"
called 'the same from another folder' elsewhere 'a folder/a text; with *'
ln -s "$top/review" "$room/a folder/a link"
ln -s 'a folder/a link' "$room/again"
called 'by a link' by_link "$room/a folder/a link" "$text.txt"
called 'by a link to a link' by_link "$room/again" "$text.txt"
echo './review: from other folders, by links, with odd file names'

# ---- pipes

piped() { head -c "$1" /dev/zero | review; }
endless() { yes | review || return "${PIPESTATUS[1]}"; }
slowly() { { printf 'sync 0 2; return || ret'; sleep 0.2; printf 'urn'; } | review; }

# expect NAME REPORT COMMAND..: it ends well, and with this report, whose total is 0.
expect() {
  local name=$1
  printf 'verdict %s\ntotal 0\n' "$2" > "$room/expected"
  shift 2
  ends "$name" 0 "$@"
  same "$name" "$room/expected" "$room/wrote"
}
expect '32,769 bytes from a pipe' '13 place 0 0' piped 32769
expect '32,768 bytes from a pipe' '12 place 0 0' piped 32768
expect 'a text in two writes' '8 place 0 0' slowly
expect 'endless input from a pipe' '13 place 0 0' endless
expect 'endless input from a device' '13 place 0 0' review /dev/zero
echo './review: pipes, the longest text, and input without an end'

# ---- what cannot be read or written

# refused NAME STATUS COMMAND..: no report, and one line that says why.
refused() {
  ends "$@"
  one_line "$1"
}
from_nothing() { review "$@" <&-; }
to_nothing() { review "$@" >&-; }
refused 'a missing file' 2 review "$room/nowhere.txt"
refused 'a folder' 2 review "$room"
refused 'two files' 2 review "$text.txt" "$text.txt"
refused 'two files with --evidence' 2 review --evidence "$text.txt" "$text.txt"
refused '--evidence after the file' 2 review "$text.txt" --evidence
refused 'an unknown option' 2 review --wrong
refused 'a missing file with --evidence' 2 review --evidence "$room/nowhere.txt"
refused 'an error of reading' 1 review < "$room"
refused 'no standard input' 2 from_nothing
refused 'no standard input with --evidence' 2 from_nothing --evidence
refused 'no standard output' 1 to_nothing "$text.txt"
if [ -c /dev/full ]; then
  to_full() { "$@" > /dev/full; }
  refused 'a full disk' 1 to_full review "$text.txt"
  refused 'a full disk with --evidence' 1 to_full review --evidence "$text.txt"
  refused 'the program by itself on a full disk' 0 to_full program < "$text.txt"
else
  skip 'a full disk, as there is no /dev/full'
fi
# Its status is always 0: that there is no report ./review sees by the empty output.
refused 'the program by itself with an unknown option' 0 program --wrong < "$text.txt"
refused 'the program by itself and an error of reading' 0 program < "$room"
echo './review: what cannot be read or written is told in one line, with a status that is not 0'
