"""Math strings, read by the notations that are declared; what keeps one from being read is said with its place."""
from .notations import MAX, OF_TERM


class Stopped(Exception):
    """The tokens go on in no way: at which token, and why. `kind` is syntax or sort."""

    def __init__(self, at, why, kind="syntax"):
        super().__init__(why)
        self.at, self.why, self.kind = at, why, kind


class Reading:
    """One math string. Expressions are as trees.py has them; with each goes its sort."""

    def __init__(self, tokens, spec, variables):
        self.tokens, self.spec, self.variables = tokens, spec, variables
        self.notations, self.at = spec.notations, 0

    def whole(self):
        """The expression of all tokens and its sort."""
        e, sort = self.level(0)
        if self.at < len(self.tokens):
            raise Stopped(self.at, self.cannot_go_on(self.tokens[self.at]))
        return e, sort

    def cannot_go_on(self, token):
        before = " ".join(self.tokens[: self.at])
        if token == ")":
            return f"`)` closes nothing that was opened in `{before}`"
        form = self.notations.infix.get(token)
        if form:
            return f"`{token}` of precedence {form.level} can't take `{before}` on its left: parentheses are missing"
        return f"behind `{before}` an infix constant or the end belongs, and not `{token}`"

    def peek(self):
        return self.tokens[self.at] if self.at < len(self.tokens) else None

    def take(self, wanted):
        token = self.peek()
        if token is None:
            raise Stopped(self.at, f"the string ends, and {wanted} belongs here")
        self.at += 1
        return token

    def level(self, level):
        begun = self.at
        e = self.first(level)
        while self.peek() in self.notations.infix:
            form = self.notations.infix[self.peek()]
            if form.level < level:
                break
            self.at += 1
            e = self.applied(form.term, self.operands(form, 2, {form.literals[0]: e}), begun)
        return e

    def first(self, level):
        begun, token = self.at, self.take("an operand")
        if token == "(":
            e = self.level(0)
            opened = f"for the `(` of token {begun + 1}"
            if self.take(f"a `)` {opened}") != ")":
                raise Stopped(self.at - 1, f"a `)` {opened} belongs here, and not `{self.tokens[self.at - 1]}`")
            return e
        if token in self.variables:
            return token, self.variables[token].sort
        if token in self.notations.leading:
            form = self.notations.leading[token]
            if form.level < level:
                raise Stopped(begun, f"`{token}` has precedence {form.level}, and one of {named_level(level)} belongs here: put it into parentheses")
            return self.applied(form.term, self.operands(form, 1, {}), begun)
        if token in self.spec.terms:
            binders = self.spec.terms[token].binders
            if binders and level > OF_TERM:
                raise Stopped(begun, f"`{token}` has operands: it stands in parentheses here")
            return self.applied(token, [self.level(MAX) for _ in binders], begun)
        if token in self.notations.infix:
            raise Stopped(begun, f"`{token}` stands between two operands, and none is before it here")
        raise Stopped(begun, f"an operand belongs here, and not `{token}`")

    def operands(self, form, begin, found):
        for at, it in enumerate(self.notations.levels(form)):
            if at < begin:
                continue
            if isinstance(it, str):
                if self.take(f"`{it}`") != it:
                    raise Stopped(self.at - 1, f"`{it}` belongs here, and not `{self.tokens[self.at - 1]}`")
            else:
                found[it[0]] = self.level(it[1])
        return [found[it] for it in sorted(found)]

    def applied(self, name, operands, begun):
        if name not in self.spec.terms:
            return (name, *(e for e, _ in operands)), ""
        term = self.spec.terms[name]
        for (e, sort), binder in zip(operands, term.binders):
            if binder.bound:
                self.ask_bound(e, sort, binder, name, begun)
            elif not self.leads(sort, binder.sort):
                shown = " ".join(self.tokens[begun : self.at])
                raise Stopped(begun, f"{name} wants for {binder.name} the sort {binder.sort}, and in `{shown}` its operand has the sort {sort}; no coercion leads from {sort} to {binder.sort}", "sort")
        made = tuple(e for e, _ in operands)
        return ((name, *made) if made else name), term.sort

    def ask_bound(self, e, sort, binder, name, begun):
        variable = self.variables.get(e) if isinstance(e, str) else None
        if variable is None or not variable.bound or sort != binder.sort:
            what = f"the regular variable {e}" if variable is not None and not variable.bound else f"{e} of the sort {sort}" if variable is not None else "an expression"
            raise Stopped(begun, f"{name} binds {binder.name}: a bound variable of the sort {binder.sort} belongs there, and not {what}", "sort")

    def leads(self, low, high):
        """Whether coercions lead from one sort to another."""
        reached, todo = {low}, [low]
        while todo:
            at = todo.pop()
            for _, a, b, _ in self.notations.coercions:
                if a == at and b not in reached:
                    reached.add(b)
                    todo.append(b)
        return high in reached


def named_level(level):
    return "precedence max" if level == MAX else f"at least precedence {level}"
