"""Finds what may be cited: the axioms and theorems whose conclusion has a form, or that fit a goal."""
import re

from .checker import same
from .elaborate import Elaborator
from .formulas import Formula
from .lexemes import Math
from .logic import App, Hole, walk
from .places import Source, Wrong, report
from .printer import Printer
from .search import Surroundings, candidates, surroundings

MOST = 20  # so many are shown for a goal


def found(development, form):
    """Lines: what a source and its imports have of this form, in the order in which it is declared. In a form `_` stands
    for any expression, and `?a` for the same one wherever it stands."""
    pattern(development.theory, form)
    lines = {}
    for it in with_imports(development):
        try:
            wanted = pattern(it.theory, form)
        except Wrong:
            continue  # without these notations there is nothing of this form
        for assertion in it.theory.assertions.values():
            if fits(wanted, assertion.conclusion, {}) and (it is development or assertion.name not in lines):
                lines[assertion.name] = shown(assertion, it)
    return list(lines.values()) or ["nothing has this form"]


def with_imports(development):
    for imported, _ in development.imports:
        yield from with_imports(imported)
    yield development


def pattern(theory, form):
    source = Source("the form", form)
    holes = {name: Hole(None, True, name[1:], None) for name in re.findall(r"\?[a-z]\w*", form)}
    return Formula(Math(form, source, 0), theory, holes, lambda place: Hole(None, True, "_", None)).whole()


def fits(wanted, e, taken):
    """Whether an expression has a form; `taken` is what the holes stand for."""
    wanted, e = walk(wanted), walk(e)
    if isinstance(wanted, Hole):
        if wanted.sort != e.sort:
            return False
        return wanted.name == "_" or same(taken.setdefault(wanted, e), e)
    return (isinstance(wanted, App) and isinstance(e, App) and wanted.term is e.term
            and all(fits(a, b, taken) for a, b in zip(wanted.operands, e.operands)))


def shown(assertion, development):
    printer = Printer(development.theory)
    formulas = printer.formulas([*(e for _, e in assertion.hypotheses), assertion.conclusion])
    return f"{assertion.name} ({development.name}): {' > '.join(f'$ {it} $' for it in formulas)}"


def fitting(writer, name):
    """Lines: what may be cited for the open goals of a theorem, or for its conclusion where none is open, with what is left
    open then."""
    item = writer.development.proofs.get(name)
    if item is None:
        raise Wrong(f"the source has no theorem {name}")
    theorem = writer.assertions[name]
    gaps = [it for it in writer.goals if it.elaborator.theorem is theorem]
    if gaps:
        return [offered(it.place, it.goal, surroundings(it)) for it in gaps]
    elaborator = Elaborator(writer.scope, theorem, writer.scope.binders(item.dummies, {}), writer.printer)
    scope = Surroundings(elaborator, dict(theorem.hypotheses), writer.numbers[name])
    return [offered(item.place, theorem.conclusion, scope)]


def offered(place, goal, scope):
    """A report: a goal, and what may be cited for it."""
    found = candidates(goal, scope)
    printer, own = scope.printer, scope.writer.development.name
    details = [(it.name if it.origin in ("", own) else f"{it.name} ({it.origin})", printer.formulas(it.open) or ["nothing is left"])
               for it in found[:MOST]]
    more = [("", [f"and {len(found) - MOST} more"])] if len(found) > MOST else []
    return report(printer.formula(goal), place, details + more or [("", ["nothing fits"])])
