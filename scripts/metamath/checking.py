"""Whether a specification says what a Metamath database says.

Each statement is written back in the database's symbols and compared with the one of its name, up to names of variables, with
the conditions on variables. The specification is read as `mz explore` reads it, the database by original.py; nothing of the
translator is used."""
import itertools
import re
from functools import cache, cached_property
from types import SimpleNamespace

from explore.notations import Constant
from explore.specification import Assertion, Notation, Reader, Sort, Term, Variable

LONGEST_RULE = 40  # characters of a rule that says of a relation that it is symmetric
INSTANCE = re.compile(r"(.*)_b(?:\d|_\d+_)+(?:_\d+)?")  # the name of an instance, in which variables are one


class Differs(ValueError):
    """In what a declaration differs from the database."""


@cache
def identifier(label):
    """A label as a name."""
    return re.sub(r"^(?=[0-9])|[^A-Za-z0-9_]", "_", label)


@cache
def is_sort(sort, code):
    """Whether a sort has the name of a typecode; `_` is behind one that is a keyword."""
    return code is not None and sort in (identifier(code), identifier(code) + "_")


def replaced(symbols, old, new):
    """Symbols with other ones wherever these stand."""
    made = []
    while symbols:
        is_here = symbols[: len(old)] == old
        made, symbols = made + (new if is_here else symbols[:1]), symbols[len(old) if is_here else 1 :]
    return made


def constants(symbols):
    """The constants among what writes a term, but parentheses."""
    return tuple(x for x in symbols if isinstance(x, str) and x not in ("(", ")"))


def order(form):
    """The numbers of a notation's parameters, as they stand in it."""
    return [x.index for x in form.literals if not isinstance(x, Constant)]


def shown(form):
    """A notation with the names of its parameters."""
    return [x.text if isinstance(x, Constant) else form.term.parameters[x.index].name for x in form.literals]


def kept_apart(statement, name):
    """The pairs of names that the database keeps apart."""
    return {frozenset(name[x] for x in pair) for pair in statement.apart if pair <= name.keys()}


class Check:
    """Compares specifications with a database. Where `export` made it (`is_own`), its axioms `df-` are definitions without
    further signs, and parameters of terms depend on what the pair's author wanted.

    What is said is a list of symbols; a variable of the specification is in it a tuple of its name."""

    def __init__(self, database, proved="|-", is_own=False):
        self.database, self.is_own, self.code = database, is_own, database.codes.get
        self.is_proved = (lambda code: code.startswith("|-")) if is_own else (lambda code: code == proved)
        self.logic, self.syntax = {}, {}
        for it in database.statements:
            table = self.logic if self.is_proved(it.code) else self.syntax if it.is_axiom else {}
            table.setdefault(identifier(it.label), []).append(it)
        syntax = [(it, it.symbols[1:]) for found in self.syntax.values() for it in found]
        self.expressions = {it.code for it, _ in syntax}
        self.written = {constants(x for x in symbols if not self.code(x)): it.label for it, symbols in syntax}
        # The sorts of typecodes of bound variables: `nat-of-natvar` is what `export` calls the axiom that connects both.
        self.sort_of = {self.code(x[0]): it.code for it, x in syntax if is_own and len(x) == 1 and it.label.startswith(f"{it.code}-of-") and self.code(x[0])}
        self._find_definitions()

    def run(self, text):
        """What differs in a specification, and what was compared: counts; `dropped`: theorems that here lack a `$d` between
        variables that aren't bound; `written`: terms whose notation has other constants than the database's; `short`:
        abbreviations, definitions that the database doesn't have. Axioms and theorems are compared as they are read, terms when
        all their notations are known."""
        reader, terms, faults = Reader(text), [], []
        self.report = SimpleNamespace(terms=0, definitions=0, axioms=0, theorems=0, copies=0, dropped=[], written=[], short=[])
        self.theory, self._productions = reader.theory, {}
        ways = {Sort: self._sort, Assertion: self._assertion, Term: terms.append, Notation: lambda it: None}
        for it, way in itertools.chain(((it, ways[type(it)]) for it in reader.read()), ((it, self._term) for it in terms)):
            self.theory.assertions.clear()  # nothing speaks of one, and they are many
            try:
                way(it)
            except Differs as fault:
                faults.append((it.at, f"{it.name}: {fault}"))
        self.report.faults = [fault for _, fault in sorted(faults)]
        return self.report

    # What the database declares

    def _find_definitions(self):
        """Axioms `df-` by their skeletons, conversions of `export` apart; and those that stand behind a theorem `..just`."""
        self.definitions = {}
        is_definition = lambda it: it.is_axiom and it.label.startswith("df-") and not it.given
        for it in filter(is_definition, self.database.statements):
            if self.is_proved(it.code) or self.is_own and it.code.startswith("defeq-"):
                self.definitions.setdefault((self.is_proved(it.code), self.skeleton(it.symbols[1:])), []).append(it)
        pairs = itertools.pairwise(it for it in self.database.statements if self.is_proved(it.code))
        serves = lambda it: not it.is_axiom and not it.given and (it.label.endswith("just") or self.is_own)
        self.justified = [(it, last) for last, it in pairs if is_definition(it) and serves(last)]

    def kind(self, symbol):
        """The typecode of a variable, None of a constant; of a bound one that `export` wrote the code of its sort."""
        return self.sort_of.get(self.code(symbol), self.code(symbol))

    def skeleton(self, said):
        """Symbols without their variables."""
        return tuple([x if isinstance(x, str) and not self.code(x) else None for x in said])

    def _named(self, table, name):
        """What a name can stand for; `w` before it is `export`'s, `_` or `_2` at its end the translator's."""
        base = re.sub(r"(_\d+|_)$", "", name)
        return [*table.get(name, []), *(table.get("w" + name, []) if self.is_own else []), *(table.get(base, []) if base != name else [])]

    def said(self, statement):
        """All that a statement says, with `$` behind each formula."""
        # One that says of a variable what its typecode says already says nothing.
        given = [x for x in statement.hypotheses if self.is_proved(x[0]) or len(x) != 2 or self.code(x[1]) != x[0]]
        if not all(self.is_proved(x[0]) for x in given):
            raise Differs("a hypothesis there isn't of what is proved")
        return [x for formula in (*given, statement.symbols) for x in (*formula[1:], "$")]

    def matched(self, mine, theirs, variables, is_instance=False):
        """The name here of each of their variables, where both say the same; else None. In an instance some are one here. None is
        bound here for which the database has expressions."""
        name, is_one = {}, lambda a, b: a == b or a.__class__ is not str and name.setdefault(b, a[0]) == a[0]
        if len(mine) != len(theirs) or not all(map(is_one, mine, theirs)) or not is_instance and len({*name.values()}) < len(name):
            return None
        if not all(is_sort(variables[a].sort, self.kind(b)) for b, a in name.items()):
            return None
        for b, a in name.items():
            if variables[a].bound and self.code(b) in self.expressions - {*self.sort_of.values()}:
                raise Differs(f"{a} is bound here, and stands for expressions in the database")
        return name

    # Sorts and terms

    def _sort(self, it):
        codes = self.database.constants if self.is_own else {*self.database.codes.values(), *self.expressions}
        if not any(is_sort(it.name, code) for code in codes):
            raise Differs("the database has no such typecode")

    def _term(self, it):
        items, theirs = self.production(it.name)
        forms = self.theory.notations.forms.get(it.name, [])
        if theirs is None:
            names = [x if isinstance(x, str) else it.parameters[x].name for x in items if x not in ("(", ")")]
            if any(shown(form) != names for form in forms):
                raise Differs("written otherwise than what it abbreviates")
            self.report.short.append(it.name)
            return
        self._look_at_notations(it, forms, items, " ".join(theirs.symbols[1:]))
        self.report.terms += 1
        if it.kind == "def":
            self._definition(it)
            self.report.definitions += 1
        if not self.is_own:
            self._look_at_needs(it)

    def production(self, name):
        """How the database writes a term: symbols, and numbers of the term's parameters; and the axiom. A definition without bound
        variables that the database has no syntax for abbreviates its body."""
        if name not in self._productions:
            term = self.theory.terms[name]
            theirs = self._named(self.syntax, name)
            if not theirs and term.kind == "def" and term.body is not None and not any(x.bound for x in (*term.parameters, *term.dummies)):
                number = {(p.name,): i for i, p in enumerate(term.parameters)}
                self._productions[name] = [number.get(x, x) for x in self.flat(term.body)], None
            else:
                self._productions[name] = next(filter(None, (self._fitting(term, it) for it in theirs)), None)
        if self._productions[name] is None:
            raise Differs(f"the database has no such syntax: {name}")
        return self._productions[name]

    def _fitting(self, term, statement):
        """A term's production by an axiom, if the sorts fit. Parameters stand in the order of the notation; without one the bound
        ones are the first, as the translator has them, or it is the order of the axiom."""
        symbols, forms = statement.symbols[1:], self.theory.notations.forms.get(term.name)
        variables = [x for x in symbols if self.code(x)]
        bound_first = sorted(variables, key=lambda x: self.code(x) in self.expressions)
        for numbers in [order(forms[0])] if forms else [map(bound_first.index, variables), range(len(variables))]:
            number = dict(zip(variables, numbers))
            if (len(number) == len(variables) == len(term.parameters) and is_sort(term.sort, statement.code)
                    and all(self._is_kind(term.parameters[i], x, len(symbols) == 1) for x, i in number.items())):
                return [number.get(x, x) for x in symbols], statement
        return None

    def _is_kind(self, parameter, symbol, is_coercion):
        """A bound parameter needs a typecode that only variables have; of such a code a regular one stands in a coercion."""
        has_more = self.code(symbol) in self.expressions
        return is_sort(parameter.sort, self.kind(symbol)) and (not has_more if parameter.bound else has_more or is_coercion or self.is_own)

    def _look_at_notations(self, term, forms, items, theirs):
        """A notation is to be read as in the database. Its constants may be others than there, but not those of something else."""
        for form in forms:
            mine = constants(form.constants)
            if mine != constants(items) and mine in self.written:
                raise Differs(f"written with {' '.join(mine)}, as the database writes {self.written[mine]}")
            if order(form) != [x for x in items if isinstance(x, int)]:
                raise Differs("written in two orders")
            if mine != constants(items):
                self.report.written.append((term.name, theirs, " ".join(shown(form))))
        if len(items) != 1 and any(term is it for path in self.theory.notations.paths.values() for it in path):
            raise Differs("a coercion here, and written in the database")

    def _look_at_needs(self, it):
        """On which bound parameters the others and the result depend: with a body as it has them free. Without one each
        regular parameter depends on all of them, and the result on none, or on all where there are no others."""
        bound, regular = {p.name for p in it.parameters if p.bound}, [p for p in it.parameters if not p.bound]
        result, wanted = set() if regular else bound, {p.name: bound for p in regular}
        if it.kind == "def" and it.body is not None:
            known = {p.name: {p.name} for p in (*it.parameters, *it.dummies) if p.bound}
            result = self._free(it.body, known)
            wanted = {p.name: {x for x in bound if x in result or x not in self._free(it.body, {**known, p.name: {x}})} for p in regular}
        for name, needs, right in [(p.name, p.needs, wanted[p.name]) for p in regular] + [("the result", it.needs, result)]:
            if set(needs) != right:
                raise Differs(f"{name} depends on {' '.join(needs) or 'nothing'}, and should on {' '.join(sorted(right)) or 'nothing'}")

    def _free(self, tree, known):
        """The bound variables that are free in a tree; `known`: those of each variable."""
        if isinstance(tree, str):
            return known.get(tree, set())
        term = self.theory.terms[tree[0]]
        operand = {p.name: x for p, x in zip(term.parameters, tree[1:])}
        inner = [self._free(operand[p.name], known) - {operand[x] for x in p.needs} for p in term.parameters if not p.bound]
        return {operand[x] for x in term.needs}.union(*inner)

    # Definitions

    def _definition(self, it):
        """A definition is the database's where an axiom `df-` says `t left body`, and t is reflexive and symmetric by rules of
        the database; or where it says of the left side what the theorem `..just` right before it says of the body."""
        if it.body is None:
            if not any(x.label == f"df-{it.name}" for found in self.definitions.values() for x in found):
                raise Differs("its body is left open here")
            return
        variables = {p.name: p for p in (*it.parameters, *it.dummies)}
        left, body = self.flat((it.name, *(p.name for p in it.parameters))), self.flat(it.body)
        if not it.dummies and self._is_justified(left, body, variables):
            return
        said = [(False, [*left, ":=", *body])] + [(True, self._between(relation, left, body)) for relation in self.relations]
        for is_proved, mine in said:
            for found in self.definitions.get((is_proved, self.skeleton(mine)), []):
                name = self.matched(mine, found.symbols[1:], variables)
                apart, names = (set(), ()) if name is None else (kept_apart(found, name), {*name.values()})
                if name is not None and all({d.name, x} in apart for d in it.dummies if d.name in names for x in names if x != d.name):
                    self._note_dropped(it, apart)
                    return
        raise Differs("no axiom of the database is this definition")

    @cached_property
    def relations(self):
        """Syntax of two expressions of one kind that is reflexive and symmetric by the database's own rules, without any `$d`."""
        rules = {}
        for it in itertools.chain(*self.logic.values()):
            if len(it.given) < 2 and len(it.text) < LONGEST_RULE and all(self.is_proved(x[0]) for x in it.hypotheses):
                rules.setdefault(self.skeleton(self.said(it)), []).append(it)
        return [it for found in self.syntax.values() for it in found if self._is_relation(it, rules)]

    def _is_relation(self, it, rules):
        codes = [self.kind(x) for x in it.symbols[1:] if self.code(x)]
        if len(codes) != 2 or codes[0] != codes[1]:
            return False
        a, b, variables = [("a",)], [("b",)], {x: Variable(x, identifier(codes[0])) for x in "ab"}
        between = lambda left, right: [*self._between(it, left, right), "$"]
        is_free = lambda rule: not any(pair <= set(rule.symbols) for pair in rule.apart)
        is_rule = lambda said: any(is_free(x) and self.matched(said, self.said(x), variables) is not None for x in rules.get(self.skeleton(said), []))
        return self.is_own or is_rule(between(a, a)) and is_rule(between(a, b) + between(b, a))

    def _between(self, relation, left, right):
        """That a relation holds of these two."""
        sides = iter((left, right))
        return [x for symbol in relation.symbols[1:] for x in (next(sides) if self.code(symbol) else [symbol])]

    def _is_justified(self, left, body, variables):
        """Whether an axiom, with the body wherever it has the left side, is the theorem before it."""
        for axiom, theorem in self.justified:
            says = axiom.symbols[1:]
            for at in range(len(says) - len(left) + 1):
                name = self.matched(left, says[at : at + len(left)], variables)
                if name is not None and all(x in name for x in says if self.code(x)):
                    opened = replaced([(name[x],) if x in name else x for x in says], left, body)
                    if self.matched(opened, theorem.symbols[1:], variables) is not None:
                        return True
        return False

    def flat(self, tree):
        """A tree in the database's symbols."""
        if isinstance(tree, str):
            return [(tree,)]
        return [x for it in self.production(tree[0])[0] for x in (self.flat(tree[it + 1]) if it.__class__ is int else (it,))]

    # Axioms and theorems

    def _assertion(self, it):
        found = self._named(self.logic, it.name)
        instance = None if found else INSTANCE.fullmatch(it.name)
        faults = [Differs("the database has no such statement")]
        for other in self._named(self.logic, instance[1]) if instance else found:
            try:
                self._compare(it, other, instance is not None)
                vars(self.report)["copies" if instance else f"{it.kind}s"] += 1
                return
            except Differs as fault:
                faults.append(fault)
        raise faults[-1]

    def _compare(self, it, other, is_instance):
        if it.kind == "axiom" and not other.is_axiom:
            raise Differs("an axiom here, and a theorem there")
        mine = [x for tree in (*(h for _, h in it.hypotheses), it.conclusion) for x in (*self.flat(tree), "$")]
        name = self.matched(mine, self.said(other), {p.name: p for p in it.parameters}, is_instance)
        if name is None:
            raise Differs("the statement isn't one with variables made one" if is_instance else "the statement differs")
        apart = kept_apart(other, name)
        if any(len(pair) == 1 for pair in apart):
            raise Differs("variables are one that the database keeps apart")
        # A parameter may depend on a bound variable where no `$d` keeps them apart.
        for p, x in itertools.product([p for p in it.parameters if p.name in name.values()], repeat=2):
            if x.bound and not p.bound and (x.name in p.needs) == ({p.name, x.name} in apart):
                raise Differs(f"whether {p.name} may depend on {x.name} differs")
        # Those that aren't bound can't be kept apart here: so an axiom says more, while a theorem is proved in this form.
        if self._note_dropped(it, apart) and it.kind == "axiom":
            raise Differs("an axiom whose regular variables the database keeps apart: it says more here")

    def _note_dropped(self, it, apart):
        """The pairs that the database keeps apart, and the specification doesn't: neither by what is bound nor by dependencies."""
        pairs = [f"{x.name} {p.name}" for i, p in enumerate(it.parameters) for x in it.parameters[:i] if {p.name, x.name} in apart
                 and not (p.bound and x.bound) and (p.bound == x.bound or x.name in p.needs or p.name in x.needs)]
        self.report.dropped += [(it.name, pairs)] * bool(pairs)
        return pairs
