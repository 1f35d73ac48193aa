"""Finds the operators of a whole database: constants that stand in the middle of an operation or a relation.

A formula is read for that only where a constant stands between what can end an expression and what can begin one, as it mostly does; and for one
constant not more than a few are, since some never are operators."""

TRIES = 5


def operators_in(database, syntax, statements, frames):
    """Pairs of a frame, a term that is written by three expressions, and of a constant in its middle; each constant once."""
    terms = syntax.terms
    codes = {syntax.sorts[terms[it].kinds[1][0]].code for it in frames}
    begins = codes.union(*map(syntax.grammar.begins, codes))
    ends = {it.literals[-1] for it in terms if syntax.sorts[it.sort].code in codes}
    code_of = {it.variable: it.code for it in database.floats}
    ends.update(it for it, code in code_of.items() if code in begins)
    tries = {it.literals[0]: TRIES for it in terms if len(it.literals) == 1 and not it.kinds and syntax.sorts[it.sort].code in codes}
    is_middle = lambda before, behind: before in ends and code_of.get(behind, behind) in begins
    uses, middles = dict.fromkeys(tries, 0), dict.fromkeys(tries, 0)
    for _, at in _formulas(database, syntax.proved):
        symbols = database.symbols(at)
        if not tries.keys().isdisjoint(symbols):
            for before, here, behind in zip(symbols, symbols[1:], [*symbols[2:], ""]):
                if here in tries:
                    uses[here] += 1
                    middles[here] += is_middle(before, behind)
    # One that mostly stands elsewhere stays as it is: as an infix it would need parentheses there.
    tries = {it: count for it, count in tries.items() if 2 * middles[it] >= uses[it]}
    for number, at in _formulas(database, syntax.proved):
        symbols = database.symbols(at)
        for constant in sorted(tries.keys() & set(symbols)):
            if constant in tries and any(here == constant and is_middle(before, behind)
                                         for before, here, behind in zip(symbols, symbols[1:], symbols[2:])):
                tries[constant] -= 1
                found = list(_middles(statements, number, at, syntax.arity, frames))
                yield from found
                for it in [constant] * (not tries[constant]) + [terms[middle].literals[0] for _, middle in found]:
                    tries.pop(it, None)


def _formulas(database, proved):
    """All formulas of axioms and theorems, with the numbers of these."""
    for number, it in enumerate(database.assertions):
        if it.code == proved:
            yield number, it.at
            here = it.essentials
            while here:
                here, essential = here
                yield number, database.essentials[essential].at


def _middles(statements, number, at, arity, frames):
    """The pairs in one formula."""
    stack = []
    try:
        pattern = statements.formula(number, at)
    except ValueError:  # it is told when the statement is translated
        return
    for it in pattern:
        if it < 0:
            operands = stack[len(stack) - arity[~it] :]
            del stack[len(stack) - arity[~it] :]
            if ~it in frames and operands[1] < 0 and not arity[~operands[1]]:
                yield ~it, ~operands[1]
        stack.append(it)
