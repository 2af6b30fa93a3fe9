#!/usr/bin/env python3
"""Writes the crates' own definitions and lemmas in the spelling of today's Rattle: a word that stood in camel case is in snake case.

usage: tools/respell.py

Run once, after the kit's port.py, at the top of the repository. It turns whole words alone, in the .antt files, in the .rt files (where such
words stand in clauses and comments alone) and in the documents: `boundAnswer` is `bound_answer`. A lemma's name keeps the dashes that join
two names. The words of OTHERS would fall together with another name, or with a tactic of today's, and have a name of their own.
A second run changes nothing."""
import glob
import os
import re

os.chdir(os.path.join(os.path.dirname(os.path.abspath(__file__)), ".."))
OTHERS = {
    "goesOn": "is_going",
    "isStuck": "run_is_stuck",
    "notMade": "unmade_walk",
    "codeLines": "lines_of_code",
    "oneLine": "one_line_verdict",
    "byKey": "kinds_by_key",
    "laidOut": "is_laid_out",
    "codeForward": "code_is_forward",
    "first_of": "first_address_of",
}
# The same word, where it is a definition of another crate's.
ELSEWHERE = {"bound_figures": {"first_of": "first_found_of"}, "words": {"first_of": "first_word_of"}, "cells": {"first_of": "first-of"}}
# Constructors and fields of specs/ that had dashes; two would fall together with a definition that their file uses.
DASHED = """budget-fits first-bounded openings-fit second-bounded is-spent opens-too-many by-stuck nonzero-unknown same-handle zero-unknown
    blocks-named few-blocks few-lines first-address kinds-line primitives-line arg-length op-length from-there at-kind at-opcode at-start
    goes-not-taken goes-taken goes-too opens-too stops-too in-accu no-meeting accu-entry accu-field down-first entry-field now-refused
    other-cycles refused-by is-stopped to-come even-above even-below not-above not-below long-text row-refuses by-case by-cuts by-file
    by-memory case-refuses cuts-refuse long-cuts not-laid-out below-first not-divided then-from one-branch one-stop own-address run-report
    two-calls at-index""".split()
FIELDS = {**{word: word.replace("-", "_") for word in DASHED}, "first-address": "address_first", "primitives-line": "primitives_line_is"}
CAMEL = re.compile(r"(?<![A-Za-z0-9_])[a-z][a-z0-9]*(?:[A-Z][A-Za-z0-9]*)+(?![A-Za-z0-9_])")
WHOLE = re.compile(r"(?<![^\s(){},;.=])[a-z]+(?:-[a-z]+)+(?![^\s(){},;.=])")
WORD = re.compile(r"(?<![A-Za-z0-9_])[a-z][A-Za-z0-9_]*(?![A-Za-z0-9_])")


def snake(word):
    """A word in snake case."""
    word = re.sub(r"([a-z0-9])([A-Z])", r"\1_\2", word)
    return re.sub(r"([A-Z]+)([A-Z][a-z])", r"\1_\2", word).lower()


def field(path, word):
    """A constructor or a field in snake case; another crate's lemma of that name keeps its own."""
    if word == "primitives-line" and "file_check" not in path:
        return word
    return FIELDS.get(word, word)


def read(path):
    with open(path, encoding="utf-8", newline="") as file:
        return file.read()


def table():
    """The words in camel case of the .antt files, each with its new spelling."""
    words = set()
    for path in glob.glob("crates/**/*.antt", recursive=True):
        words |= set(CAMEL.findall(read(path)))
    return {**{word: snake(word) for word in words}, **OTHERS}


def main():
    rows = table()
    paths = glob.glob("crates/**/*.antt", recursive=True) + glob.glob("crates/**/*.rt", recursive=True)
    for path in sorted(paths) + ["docs/%s.md" % name for name in ("PROOFS", "DECISIONS", "ARCHITECTURE")]:
        before = read(path)
        here = {**rows, **ELSEWHERE.get(path.split(os.sep)[1], {})}
        after = WORD.sub(lambda found: here.get(found.group(), found.group()), before)
        if path.endswith(".antt"):
            after = WHOLE.sub(lambda found: field(path, found.group()), after)
        if after != before:
            with open(path, "w", encoding="utf-8", newline="") as file:
                file.write(after)


if __name__ == "__main__":
    main()
