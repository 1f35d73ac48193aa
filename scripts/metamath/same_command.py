"""./mz same: whether a specification says what a database says."""
import os

from explore.lexemes import Unreadable

from . import original
from .checking import Check
from .telling import CANT_READ, Failed, plural, read_text

SHOWN = 20  # lines of one kind


def same(spec, path, proved="|-", is_exported=False, is_brief=False, check=None):
    """Compares, tells, and gives the exit number. What isn't a difference is only counted where it is to be brief."""
    report = compared(spec, path, proved, is_exported, check)
    name = os.path.basename(path)
    _list("differs", report.faults)
    if is_brief:
        _count("without a $d of the database", report.dropped)
        _count("notations with other constants", report.written)
        _count("abbreviations", [[it] for it in report.short])
    else:
        _list("without $d", [f"{label}: {', '.join(pairs)}" for label, pairs in report.dropped])
        _list("abbreviations", [", ".join(report.short)] if report.short else [])
        _list("written otherwise", [f"{term}: {theirs} is {mine} here" for term, theirs, mine in report.written])
    if report.faults:
        print(f"not the same as {name}: {plural(len(report.faults), 'statement')} of the specification")
        return 1
    print(f"the same as {name}: {plural(report.terms, 'term')}, {plural(report.definitions, 'definition')}, "
          f"{plural(report.axioms, 'axiom')}, {plural(report.theorems, 'theorem')}, {plural(report.copies, 'instance')}")
    return 0


def compared(spec, path, proved="|-", is_exported=False, check=None):
    """What differs, and what was compared. `check`: of the database, where it was read before."""
    text = read_text(spec)
    try:
        check = check or Check(original.read(path), proved, is_exported)
    except OSError as fault:
        raise Failed(f"{fault.filename} can't be read: {fault.strerror}", CANT_READ) from None
    except ValueError as fault:
        raise Failed(f"{path} is no Metamath database: {fault}") from None
    try:
        return check.run(text)
    except Unreadable as fault:
        line, column = text.count("\n", 0, fault.at) + 1, fault.at - text.rfind("\n", 0, fault.at)
        raise Failed(f"{spec}:{line}:{column}: {fault}") from None


def _list(title, found):
    for it in found[:SHOWN]:
        print(f"{title}: {it}")
    if len(found) > SHOWN:
        print(f"{title}: and {len(found) - SHOWN:,} more")


def _count(title, found):
    if found:
        print(f"{title}: {len(found):,}, as {found[0][0]}")
