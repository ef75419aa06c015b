#!/usr/bin/env python3
"""Spells the repository's own definitions, lemmas and fields in snake case, once: `firstRow` and `first-row` become `first_row`, and the sign ′ of a name becomes '.

usage: python3 tools/snake.py [--check]      at the top of the repository; --check writes nothing

Run it once, after the toolchain's port.py and before any edit by hand. What turns: names that crates/*/specs and the lemma files of crates/*/proofs declare and that begin with a small letter. Types,
modules, functions of src/, labels that the prover makes, strings, inputs and outputs keep their names. Where two names would fall together, APART has the new name of one.
In comments and pages a name turns between backticks, and by itself where it is in camel case. A line `meets:` names a word that a file would have twice.
"""
import collections
import os
import re
import sys

# Names that would meet another, each with the name that it gets.
APART = {
    "badAssignment": "is_bad_assignment",
    "badBody": "is_bad_body",
    "badCall": "is_bad_call",
    "badCommands": "are_bad_commands",
    "badIf": "is_bad_if",
    "badLength": "is_bad_length",
    "badStatement": "is_bad_statement",
    "badTables": "are_bad_tables",
    "badWhile": "is_bad_while",
    "barrierList": "list_of_barrier",
    "beforeZero": "length_before_zero",
    "expressionFails": "does_expression_fail",
    "faultAt": "is_fault_at",
    "firstBad": "first_bad_of",
    "firstBadStatement": "first_bad_statement_of",
    "firstStrayBreak": "first_stray_break_of",
    "goesFirst": "does_go_first",
    "goesOn": "does_go_on",
    "has-run": "has_run_lem",
    "hasLeft": "has_any_left",
    "in-while": "in_while_lem",
    "inWhile": "in_while",
    "is-first": "is_first_in_thread",
    "joined-if": "joined_if_lem",
    "joinedIf": "joined_if",
    "lastMet": "last_met_of",
    "letGo": "let_go_of",
    "listing-rows": "listing_rows_lem",
    "listingRows": "listing_rows",
    "meetsRow": "does_meet_row",
    "oneMore": "one_more_of",
    "oneOn": "one_step_on",
    "or-last": "or_last_lem",
    "orLast": "or_last",
    "otherGeneration": "other_generation_of",
    "partedBy": "parting_byte",
    "rowKeeps": "does_row_keep",
    "runKernel": "kernel_run",
    "shownBy": "what_is_shown",
    "sizesOf": "sizes_of_reading",
    "so-far": "so_far_lem",
    "someBadExpression": "has_bad_expression",
    "strayBreak": "is_stray_break",
    "threadRow": "row_of_thread",
    "tokenNumber": "number_of_token",
    "tooMany": "is_too_many",
    "usedElsewhere": "is_used_elsewhere",
    "waitIf": "wait_of",
}

# Parameters, and names of `where`, that turn in the files that have them.
LOCAL = ("relationLength", "generationLength", "brk-c", "call-c", "in-it", "in-q", "same-g", "whole-s", "few-s", "few-e", "within-limit")

MARKS = r"(?:pub |abbrev |unfoldable |pattern )*"
NAME = r"[^\s(){}.;,@\"«»:`]+"
DECLARED = re.compile(rf"(?m)^( *)({MARKS})({NAME})((?: \{{[^{{}}\n]*\}})*) :(?=\s)")
CONSTRUCTOR = re.compile(rf"(?m)^ *(?:\| )?({NAME}) :(?=\s)")
WORD = re.compile(r"[^\s(){}.;,@\"«»:`\[\]|]+")
USE = re.compile(r"\buse (Rattle\.[^\s;{]+)(\{[^}]*\})?", re.S)
ANTT_QUIET = re.compile(r'(?<![^\s(){}.;,@"«»])--[^\n]*')
RT_QUIET = re.compile(r'//[^\n]*|"(?:\\.|[^"\\])*"')
TICKS = re.compile(r"`[^`\n]+`")
TURNS = re.compile(r"[a-z0-9₀-₉'][A-Z]|-|′")


def snake(name):
    name = name.replace("′", "'")
    name = re.sub(r"(?<=[a-z0-9'])[A-Z]", lambda m: "_" + m[0].lower(), name)
    return name.replace("-", "_")


def texts():
    for folder, dirs, files in os.walk("crates"):
        dirs[:] = sorted(d for d in dirs if d != "out")
        for f in sorted(files):
            if f.endswith((".antt", ".rt", ".edit")):
                yield os.path.join(folder, f)


def kind(path):
    parts = path.split("/")
    if path.endswith(".edit"):
        return "edit"
    if path.endswith(".rt"):
        return "rt"
    if parts[2] == "specs":
        return "specs"
    return "lemmas" if len(parts) == 4 else "function"


def read(path):
    with open(path, encoding="utf-8") as f:
        return f.read()


def table_of_names():
    declared = set()
    for path in texts():
        if kind(path) in ("specs", "lemmas"):
            declared.update(m[3] for m in DECLARED.finditer(ANTT_QUIET.sub("", read(path))))
    table = {}
    for name in declared:
        if TURNS.search(name) and (name[0].islower() or not name[0].isalpha()) and not name.startswith(("◌", "-")):
            table[name] = APART.get(name) or snake(name)
    table.update((name, snake(name)) for name in LOCAL)
    return table


def fields_of_records():
    fields = set()
    for path in texts():
        if kind(path) in ("specs", "lemmas"):
            fields.update(m[3] for m in DECLARED.finditer(read(path)) if m[1])
    return fields


def brought(text):
    names = set()
    for m in USE.finditer(text):
        if m[1].startswith("Rattle.std."):
            continue
        names.update(WORD.findall(m[2] or ""))
        if not m[2]:
            names.add(m[1].split(".")[-1])
    return names


LIBRARY_USE = re.compile(r"\buse ((?!Rattle\.)[^\s;{]+|Rattle\.std\.[^\s;{]+)(\{[^}]*\})?", re.S)


def from_a_library(text):
    """The names that a file brings in from a library: they stay."""
    names = set()
    for m in LIBRARY_USE.finditer(text):
        names.update(WORD.findall(m[2] or ""))
        names.update([] if m[2] else [m[1].split(".")[-1]])
    return names


def turned(text, table):
    return WORD.sub(lambda m: table.get(m[0], m[0]), text)


def in_ticks(text, table):
    return TICKS.sub(lambda m: turned(m[0], table), text)


def prose(text, table):
    camel = {old: new for old, new in table.items() if re.search("[a-z0-9][A-Z]", old)}
    out, at = [], 0
    for m in TICKS.finditer(text):
        out += [turned(text[at : m.start()], camel), turned(m[0], table)]
        at = m.end()
    return "".join(out) + turned(text[at:], camel)


def outside(pattern, text, code, table):
    out, at = [], 0
    for m in pattern.finditer(text):
        quoted = m[0][0] == '"'
        out += [code(text[at : m.start()]), m[0] if quoted else prose(m[0], table)]
        at = m.end()
    return "".join(out) + code(text[at:])


def with_primes(text):
    return text.replace("′", "'")


def realigned(old, new):
    """The later lines of a block stand under its first item again."""
    block = re.compile(r"(?<![^\s(){};,])(?:where|do|let|elim|record \{) +(?=\S)")
    was, now = old.split("\n"), new.split("\n")
    by = [0] * len(now)
    for row, (a, b) in enumerate(zip(was, now)):
        for x, y in zip(block.finditer(a), block.finditer(b)) if a != b else ():
            below = row + 1
            while x.end() != y.end() and below < len(was):
                if was[below].strip() and was[below][: x.end()].strip():
                    break
                by[below] += (y.end() - x.end()) * bool(was[below].strip())
                below += 1
    return "\n".join(" " * n + line if n >= 0 else line[-n:] for n, line in zip(by, now))


def main():
    check = "--check" in sys.argv
    table, fields = table_of_names(), fields_of_records()
    if "--table" in sys.argv:
        for old in sorted(table):
            print(old, table[old])
        return
    taken = collections.defaultdict(set)
    for path in texts():
        text, what = read(path), kind(path)
        mine = table
        if what == "function":
            here = brought(text) | fields
            made = set(m[1] for m in re.finditer(r"(?m)^ *(?:pub )?(\S+) : (?:goal|tie|given)\.", text))
            mine = {old: new for old, new in table.items() if old in here and old not in made}
        elif what == "rt":
            here = brought(text) | fields
            mine = {old: new for old, new in table.items() if old in here}
        stay = from_a_library(text)
        mine = {old: new for old, new in mine.items() if old not in stay}
        if what in ("specs", "lemmas", "function"):
            new = with_primes(realigned(text, outside(ANTT_QUIET, text, lambda t: turned(t, mine), table)))
            words = set(WORD.findall(ANTT_QUIET.sub("", text)))
        elif what == "rt":
            new = outside(RT_QUIET, text, lambda t: turned(t, mine), table)
            words = set(WORD.findall(RT_QUIET.sub("", text)))
        else:
            new = with_primes("\n".join(prose(line, table) if line.startswith("#") else turned(line, table) for line in text.split("\n")))
            words = set()
        for old in words & set(mine):
            if mine[old] in words or sum(mine.get(w) == mine[old] for w in words) > 1:
                print(f"meets: {path}: {old} -> {mine[old]}")
        if new != text and not check:
            with open(path, "w", encoding="utf-8") as f:
                f.write(new)
    pages = [p for p in ("README.md", "CONTRIBUTING.md", "CHANGELOG.md", "examples/README.md", "bench/README.md", "tests/names", "tests/edits") if os.path.exists(p)]
    pages += [os.path.join("docs", f) for f in os.listdir("docs") if f.endswith(".md")]
    for path in pages:
        text = read(path)
        new = in_ticks(text, table)
        if new != text and not check:
            with open(path, "w", encoding="utf-8") as f:
                f.write(new)


if __name__ == "__main__":
    main()
