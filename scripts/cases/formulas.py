"""Formulas over notations that are declared step by step."""
import re

from .reading import Wrong, content, unescaped
from .running import Case
from .specifications import is_read, reads, refused, statements_of
from .told import words_of_rules


def formulas(section):
    """`[formulas NAME VARIABLES]`: NAME.mm0 of tests/files stands before all, and NAME.mmu says what that declares; the
    variables are those of each formula, as a specification's binders. A row is

    + STATEMENT             a statement that stands before the rows below
    S12 | STATEMENT         one that is refused, where it begins; `S5 7 |`: at its byte 7
    S10 | $FORMULA$         a formula that is refused; `S9 3 |`: at the byte 3 between its dollars
    (im a b) | $FORMULA$    what the formula says, as in a proof text
    set: (ns n) | $FORMULA$ the same of a definition's body of this sort
    read | $FORMULA$        one of which no more is asked
    """
    name, variables = section.words
    before, declared = content(f"{name}.mm0"), content(f"{name}.mmu")
    for row in section.rows:
        if row.text.startswith("+ "):
            before += unescaped(row.text[2:]) + b"\n"
            continue
        told, text = row.parts(2)
        text = unescaped(text)
        rule = re.fullmatch(r"(?:(\w+): )?(S\d+)(?: (\d+))?", told)
        if rule and rule[2] not in words_of_rules():
            raise Wrong(f"{row.place}: no rule: {told}")
        if not text.startswith(b"$"):
            at = len(before) + int(rule[3] or 0)
            yield Case(row.place, refused(before + text, f"{rule[2]} {statements_of(before) + 1} {at}"))
            continue
        sort = rule[1] if rule else "".join(re.findall(r"^(\w+): ", told))
        head = f"def r {variables}: {sort} = " if sort else f"axiom r {variables}: "
        front = before + head.encode()
        if told == "read":
            yield Case(row.place, is_read(front + text + b";"))
        elif rule:
            at = len(front) + (1 + int(rule[3]) if rule[3] else 0)
            yield Case(row.place, refused(front + text + b";", f"{rule[2]} {statements_of(before) + 1} {at}"))
        else:
            yield Case(row.place, reads(front + text + b";", declared + unescaped(declaration(variables, sort, told))))


def declaration(variables, sort, told):
    """The statement of a proof text."""
    binders = " ".join(binders_of(variables))
    if sort:
        return f"(def r ({binders}) ({sort} ()) () {told.split(': ', 1)[1]})\n"
    return f"(axiom r ({binders}) () {told})\n"


def binders_of(variables):
    """A specification's binders, `{x: nat} (p q: wff x)`, as those of a proof text."""
    for bound, names, sort in re.findall(r"([({])([\w ]+): ([\w ]+)[)}]", variables):
        sort, *deps = sort.split()
        for name in names.split():
            yield f"({name} {sort})" if bound == "{" else f"({name} {sort} ({' '.join(deps)}))"
