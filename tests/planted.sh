# Sourced by tests/run: the programs that compare, each with one fault planted, must report a difference. So every gate shows that they can. A fault in the reference stands for the same rule broken in the
# archive; one beside a call of the archive, in the program itself, for an archive that writes something else there.
# shellcheck shell=bash disable=SC2154,SC2086
planted=$room/planted
mkdir "$planted"

# Without the optimizer, since each of these programs runs for a moment alone.
compile() { "${cc[@]}" -std=c99 -w -Itests -c -o "$2" "$1"; }

# compile_parts: what no fault is planted in.
compile_parts() {
  local part
  for part in $(printf '%s\n' ${parts[compare]} ${parts[files]} ${parts[warps]} | sort -u); do compile "tests/$part.c" "$planted/$part.o" || return 1; done
}

# link_parts NAME [PART]: the program of that name, with the faulty object in place of that part.
link_parts() {
  local part objects=()
  for part in ${parts[$1]}; do
    if [ "$part" = "${2:-}" ]; then objects+=("$planted/faulty.o"); else objects+=("$planted/$part.o"); fi
  done
  "${cc[@]}" -o "$planted/$1" "${objects[@]}" "${archives[@]}"
}

# plant NAME PART FAULT EDIT: with this edit of one line of tests/PART.c the program must tell a difference within 2,000 inputs, and how to repeat it.
plant() {
  local what="tests/$1.c with a fault: $3"
  sed "$4" "tests/$2.c" > "$planted/$2.c"
  [ "$(diff "tests/$2.c" "$planted/$2.c" | grep -c '^>')" -eq 1 ] || fail "$what: the edit does not change one line"
  compile "$planted/$2.c" "$planted/faulty.o" || fail "$what: it does not build"
  link_parts "$1" "$2" || fail "$what: it does not build"
  ends "$what" 1 run_c "$planted/$1" 1 2000 0
  says "$what" '  to repeat: '
  faults=$((faults + 1))
}

# plant_all: first that the programs, built so, tell no difference without a fault.
plant_all() {
  local name
  faults=0
  for name in "${!parts[@]}"; do
    link_parts "$name" || fail "tests/$name.c does not build"
    ends "tests/$name.c without a fault" 0 run_c "$planted/$name" 1 300 0
  done
  plant compare reference 'generations are counted from 0' 's/= barrier->completed + 1;/= barrier->completed;/'
  plant compare reference 'an arrive reaches an arrive' 's/tables->commands\[3 \* j\] == SYNC/is_barrier_command(tables, j)/'
  plant compare reference 'two reads conflict' 's/return tables->commands\[3 \* x\] == WRITE || .*/return 1;/'
  plant compare reference 'a first command is no reuse fault' 's/if (is_first || !out->reaches/if (!is_first \&\& !out->reaches/'
  plant compare reference 'fifteen pairs are kept' 's/if (sheet->total < KEPT)/if (sheet->total < KEPT - 1)/'
  plant compare reference 'a count equal to the threads is refused' 's/row\[2\] > tables->threads/row[2] >= tables->threads/'
  plant compare reference 'a short evidence room has digit 3' 's/verdict(4, 4, 0)/verdict(4, 3, 0)/'
  plant compare reference 'chains of two edges are not followed' 's/^ *waiting\[n++\] = j;$/;/'
  plant compare reference 'a number may have leading zeros' "s/ || (reader->text\[reader->at\] == '0' .*/)/"
  plant compare evidence 'the pair of a race in the other order' 's/when\[first\] > played.when\[second\]/when[first] < played.when[second]/'
  plant compare schedules 'clean schedules with other generations agree' 's/^    if (memcmp(walk->first_generations, .*/    if (0)/'
  plant compare compare 'the last word of the answer is another' 's/^    uint32_t got = probe_review(.*);$/& if (told > 0) a[told - 1] ^= 1;/'
  plant compare compare 'a byte past the text is read' 's/^    uint32_t got = review_text(.*);$/& (void)((const volatile uint8_t *)t)[length];/'
  plant files files 'by another schedule, another relation' 's/^    file->number = probe_review(.*);$/& if (by->n > 0 \&\& by->threads[0] > 0) r[0] ^= 2;/'
  plant files files 'by another schedule, another total' 's/^    file->number = probe_review(.*);$/& if (by->n > 0 \&\& by->threads[0] > 0) a[2] ^= 1;/'
  plant files files 'by another spelling, another report' 's/^    uint32_t told = door->review(.*);$/& r[8] ^= spelling->n % 2;/'
  plant warps warp 'of several lanes that write the lowest stays' 's/warp->cells\[it.x\] = values\[lane\];/warp->cells[it.x] = values[kernel->lanes - 1 - lane];/'
  plant warps warp 'a lane that broke is woken at a call token' 's/disabled != BROKE || token == BRK_TOKEN/disabled != BROKE || token == CALL_TOKEN/'
  plant warps warp 'a stack of 256 entries is overfull' 's/return next.height > ENTRIES;/return next.height >= ENTRIES;/'
  plant warps warps 'a cell past the last is written' 's/^    uint32_t found = probe_warp(.*);$/& if (kernel->cells_len > CELLS) c[CELLS] ^= 1;/'
}
