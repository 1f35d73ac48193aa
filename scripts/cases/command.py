"""Runs the cases of tests/ over the built program, and says which differ.

    scripts/check-cases            all
    scripts/check-cases WORD..     those of files whose path has one of these words

A file of cases is divided by heads in brackets, whose first word says what the rows below are; the top of each file tells
how its rows are read. The program is that of the environment's MZ, or of ./mz.
"""
import collections
import os
import sys

from . import formulas, listings, pairs, sessions, specifications, texts
from .reading import FOLDER, TOP, Wrong, sections
from .running import program_or_exit, try_all

KINDS = {
    "specifications": specifications.specifications,
    "statements": specifications.statements,
    "formulas": formulas.formulas,
    "texts": texts.texts,
    "drafts": texts.drafts,
    "verified": texts.verified,
    "pairs": pairs.pairs,
    "beside": pairs.beside,
    "portable": pairs.portable,
    "codes": pairs.codes,
    "cuts": pairs.cuts,
    "listings": listings.listings,
    "assembled": listings.assembled,
    "back": listings.back,
    "run": sessions.run,
    "usage": sessions.usage,
}


def paths(words):
    """The files of cases, of which those have one of the words."""
    found = [os.path.join(folder, name) for folder, _, names in os.walk(FOLDER) for name in names if name.endswith(".cases")]
    named = {path: os.path.relpath(path, TOP) for path in sorted(found)}
    return [path for path, name in named.items() if not words or any(word in name for word in words)]


def cases_of(path):
    for section in sections(path):
        if section.kind not in KINDS:
            raise Wrong(f"{section.place}: no kind of cases: {section.kind}")
        if not section.rows:
            raise Wrong(f"{section.place}: no rows")
        yield from KINDS[section.kind](section)


def main(words):
    if any(it.startswith("-") for it in words):
        sys.exit(__doc__.strip())
    try:
        cases = [it for path in paths(words) for it in cases_of(path)]
    except Wrong as wrong:
        sys.exit(f"check-cases: {wrong}")
    if not cases:
        sys.exit("check-cases: there are no cases")
    differs = try_all(program_or_exit(), cases)
    for it in differs:
        print(it)
    counts = collections.Counter(it.place.split(":")[0] for it in cases)
    if words:
        for name, count in counts.items():
            print(f"{count:6} {name}")
    print(f"{len(cases)} cases of {len(counts)} files, {len(differs)} differ")
    return 1 if differs else 0
