"""Sorts and terms of a specification, from the typecodes and syntax axioms of a database.

Sorts are typecodes; one that no syntax axiom makes is pure, and its variables are bound ones. Terms are the syntax axioms,
bound parameters first."""
from dataclasses import dataclass

from .databases import Faulty
from .grammar import Grammar
from .writing import Names, Notations, identifier


@dataclass
class Sort:
    name: str
    code: str
    bound: bool
    provable: bool

    @property
    def modifiers(self):
        return (1 if self.bound else 2) | (4 if self.provable else 0)


@dataclass
class Term:
    name: str
    label: str
    number: int  # of its assertion
    sort: int
    kinds: list  # of each parameter its sort, and whether it is bound
    floats: list  # of each parameter its `$f`
    literals: list  # its symbols; numbers of parameters for variables
    is_coercion: bool = False  # a variable alone: its parameter is a regular one of a pure sort
    needs: list = ()  # per parameter, the bound ones on which it depends
    result_needs: int = 0
    parameters: list = ()  # (sort, bound, name)
    notation: object = None
    row: int = -1
    is_used: bool = False
    is_in_order: bool = True  # whether its symbols have the parameters in their order

    def __post_init__(self):
        places = [it for it in self.literals if not isinstance(it, str)]
        self.is_in_order = places == sorted(places)
        bound = sum(is_bound for _, is_bound in self.kinds)
        everything = (1 << bound) - 1
        self.needs = [0 if is_bound else everything for _, is_bound in self.kinds]
        self.result_needs = everything if bound == len(self.kinds) else 0


class Syntax:
    def __init__(self, database, proved, formulas, notations=True):
        self.database, self.proved, self.formulas = database, proved, formulas
        self.grammar, self.terms, self.term_of = Grammar(), [], {}  # term_of: by the assertion's number
        self._find_sorts()
        self._names = Names()
        for number in self._axioms:
            self._find_term(number)
        self.arity = [len(it.kinds) for it in self.terms]
        self._base_names, self.notations = {}, None
        self.provable = self.sort_of[self.formulas]
        self.taken = {it.name for it in self.terms}  # what no variable may be called
        if notations:
            self._give_notations()
        else:
            for it in self.terms:
                it.is_coercion = False
        for it in self.terms:
            names = Names()
            it.parameters = [(s, b, names.take(self.base_name(f))) for (s, b), f in zip(it.kinds, it.floats)]

    def _find_sorts(self):
        database, codes, made = self.database, [], set()
        self._axioms = []
        for number, it in enumerate(database.assertions):
            if it.is_axiom and it.code != self.proved:
                self._axioms.append(number)
                made.add(it.code)
        codes = list(dict.fromkeys([it.code for it in database.floats] + [database.assertions[it].code for it in self._axioms]))
        if not database.assertions:
            raise Faulty(f"{database.path}:1:1: there is no axiom or theorem in it, so that it is no Metamath database")
        if self.formulas not in codes:
            raise Faulty(f"{database.path}:1:1: no variable and no syntax axiom has the typecode {self.formulas}; "
                         "--provable gives that of what is proved, and that of formulas")
        names = Names()
        self.sorts = [Sort(names.take(identifier(it)), it, it not in made, it == self.formulas) for it in codes]
        self.sort_of = {it.code: i for i, it in enumerate(self.sorts)}

    def _find_term(self, number):
        database = self.database
        it, frame = database.assertions[number], database.frame(number)
        if frame.essentials:
            raise database.fault(it.at, f"{it.label}: syntax with hypotheses isn't translated")
        float_of = {database.floats[x].variable: x for x in frame.floats}
        symbols = frame.symbols[1:]
        found = [x for x in symbols if x in float_of]
        if len(found) != len(set(found)):
            raise database.fault(it.at, f"{it.label}: syntax with a variable twice isn't translated")
        code_of = {x: database.floats[f].code for x, f in float_of.items()}
        is_coercion = len(symbols) == 1 and len(found) == 1
        bound = [self.sorts[self.sort_of[code_of[x]]].bound and not is_coercion for x in found]
        order = [i for i, b in enumerate(bound) if b] + [i for i, b in enumerate(bound) if not b]
        try:
            self.grammar.add(it.code, [("code", code_of[x]) if x in code_of else ("constant", x) for x in symbols], order)
        except ValueError as fault:
            raise database.fault(it.at, f"{it.label}: {fault}") from None
        wanted = [found[i] for i in order]
        kinds = [(self.sort_of[code_of[x]], bound[i]) for i, x in zip(order, wanted)]
        literals = [wanted.index(x) if x in float_of else x for x in symbols]
        self.term_of[number] = len(self.terms)
        self.terms.append(Term(self._names.take(identifier(it.label)), it.label, number, self.sort_of[it.code], kinds,
                               [float_of[x] for x in wanted], literals, is_coercion))

    def _give_notations(self):
        give = self.notations = Notations(self.provable, self.taken)
        # First those that can have one constant alone.
        for it in sorted(self.terms, key=lambda it: len(give.joined(it.literals)[1]) > 1):
            if not it.is_coercion:
                it.notation = give.give(it.literals, it.kinds, it.sort)
        self.taken = self.taken | give.leading | give.infix | set(give.levels)

    def new_name(self, wanted):
        """A name for a term that the database doesn't have."""
        return self._names.take(wanted)

    def base_name(self, number):
        """A name for the variable of a `$f`."""
        made = self._base_names.get(number)
        if made is None:
            it = self.database.floats[number]
            made = it.variable
            if identifier(made) != made or made in self.taken:
                made = identifier(it.label)
                made = made + "_v" if made in self.taken else made
            self._base_names[number] = made
        return made

    def names(self, floats):
        """Names for variables of these `$f`, no two alike."""
        made = [self.base_name(it) for it in floats]
        if len(set(made)) < len(made):
            names = Names(self.taken)
            made = [names.take(it) for it in made]
        return made
