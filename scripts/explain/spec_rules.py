"""What is said of a refused specification, beside its rule."""
import difflib
import re

from . import characters, grammar, specs
from .notations import MAX
from .proof_rules import named_byte
from .reading import Reading, Stopped
from .source import many

MOST_TOKENS = 4096


class Explaining:
    """One refusal. Each rule that has more to say has a function `rule_S..`, which gives lines."""

    def __init__(self, source, refusal):
        self.source, self.data, self.at, self.code = source, source.data, refusal.byte, refusal.code
        self.start = specs.start_of(self.data, min(self.at, max(len(self.data) - 1, 0)))
        if self.at >= len(self.data):
            self.start = self.last_start()
        self.found = specs.lexemes(self.data, self.start)
        self.spec = specs.Spec(self.data, self.start)

    def last_start(self):
        """Where the statement begins within which the text ends."""
        end = len(self.data.rstrip(b" \n"))
        return specs.start_of(self.data, max(end - 1, 0))

    def lines(self):
        rule = getattr(self, f"rule_{self.code}", None)
        return [it for it in rule() if it] if rule else []

    def line(self, at):
        return f"line {self.source.line(at)}, `{self.source.first_line(at)}`"

    def declared(self):
        return specs.declaration(self.data, self.start)

    def word(self):
        found = re.match(rb"[A-Za-z_]\w*|\d+|\$[^$]*\$|[^\s]", self.data[self.at : self.at + 2000])
        return found.group().decode("latin-1") if found else ""

    # lexemes and grammar

    def rule_S1(self):
        where = ", in a comment" if specs.is_comment(self.data, self.at) else ", in a math string" if self.is_in_math() else ""
        return [named_byte(self.data, self.at) + where]

    def is_in_math(self):
        piece = re.sub(rb"--[^\n]*", b"", self.data[self.start : self.at])
        return piece.count(b"$") % 2 == 1

    def rule_S2(self):
        if self.data[self.at : self.at + 1] == b"$":
            return [f"the math string that begins at {self.source.named(self.at)} has no second $"]
        return [named_byte(self.data, self.at), "a lexeme is a name, a number, a math string in $ $, or one of * . : ; ( ) > { } = _"]

    def rule_S3(self):
        before = [it for it in self.found if it.at < self.at]
        wanted = grammar.wanted_behind(before)
        said = ["found: the text ends here" if self.at >= len(self.data) else f"found: {self.word()}", *self.running_on(before)]
        if before:
            said.append(f"the statement begins on line {self.source.line(self.start)}, and behind `{shown(before)}` belongs: {', '.join(wanted) or 'nothing more'}")
        else:
            said.append("a statement begins with: " + ", ".join(wanted))
            near = difflib.get_close_matches(self.word(), [*grammar.STATEMENTS, "input", "output"], 1)
            said += [f"near it: {near[0]}"] if near else []
        return said

    def running_on(self, before):
        """A math string that runs on into the next statement: its `$` is likely forgotten."""
        for it in before:
            found = it.kind == "math" and re.search(rf";\s*\n\s*({'|'.join(grammar.STATEMENTS)})\b", it.text)
            if found:
                begin = self.data[it.at : it.at + 1 + found.start() + 1].decode("latin-1")
                return [f"the math string of {self.source.named(it.at)} runs on into the next statement: a $ is likely missing in `{begin}`"]
        return []

    def rule_S15(self):
        return [f"the precedence is {self.word()}, and 4294967294 is the greatest; above all is max"]

    def rule_S16(self):
        return [f"{self.word()} statements can be left out by hand: no declaration depends on one"]

    # names

    def rule_S4(self):
        word, made = self.word(), self.declared()
        spaces = {"sort": (self.spec.sorts, "sort"), "term": (self.spec.terms, "term or definition"), "def": (self.spec.terms, "term or definition")}
        space, what = spaces.get(made.kind if made else "", (self.spec.assertions, "axiom or theorem"))
        name_at = next((it.at for it in self.found if it.kind == "name" and it.text == (made.name if made else None)), None)
        if self.at == name_at and word in space:
            return [f"{word} is a {what} already, of {self.line(space[word].at)}"]
        others = [it for it in self.found if it.text == word and it.kind == "name" and it.at < self.at]
        return [f"{word} is a variable of this statement already, at {self.source.named(others[0].at)}"] if others else []

    def rule_S5(self):
        word = self.word()
        what, names = self.names_here()
        near = difflib.get_close_matches(word, list(dict.fromkeys(names)), 3)
        said = [f"there is no {what} {word} before this statement" + (f"; near it: {', '.join(near)}" if near else "")]
        kinds = {"sort": rb"sort", "term": rb"term|def"}.get(what)
        if kinds:
            later = specs.Names(self.data, len(self.data), kinds).find(word)
            if later is not None:
                said.append(f"it is declared only later, on line {self.source.line(later)}")
        return said

    def names_here(self):
        """What a name at the place stands for, and which names of that kind there are."""
        before = [it for it in self.found if it.at < self.at]
        last, head = before[-1] if before else None, before[0].text if before else ""
        made = self.declared()
        if head in ("infixl", "infixr", "prefix", "notation", "coercion") and len(before) == 1:
            return "term", self.spec.terms.all()
        if last is not None and last.kind == "symbol" and last.text in (":", ">"):
            return "sort", self.spec.sorts.all()
        return "variable", list(made.variables()) if made else []

    # binders and sorts

    def rule_S6(self):
        made, said = self.declared() or self.notation_binders(), []
        if made is None:
            return []
        before = []
        for it in sorted([*made.binders, *made.dummies], key=lambda it: it.at):
            is_dummy = it in made.dummies
            if it.bound and it.needs:
                said.append(f"{it.name} is {'a dummy' if is_dummy else 'bound'}: it depends on nothing, and here {', '.join(it.needs)} stands behind its sort")
            if it.bound and not is_dummy and "strict" in self.modifiers(it.sort):
                said.append(f"{it.name} is bound, and the sort {it.sort} is strict ({self.sort_line(it.sort)}): a regular one stands in ( )")
            for need in it.needs if not it.bound else []:
                if need not in before:
                    said.append(f"{it.name} can depend on bound variables before it alone ({', '.join(before) or 'there are none'}), and {need} is none")
            if it.bound and not is_dummy:
                before.append(it.name)
        for need in made.needs:
            if need not in before:
                said.append(f"the result can depend on bound parameters alone ({', '.join(before) or 'there are none'}), and {need} is none")
        return said

    def notation_binders(self):
        return None

    def modifiers(self, sort):
        return self.spec.sorts[sort].modifiers if sort in self.spec.sorts else []

    def sort_line(self, sort):
        return self.line(self.spec.sorts[sort].at) if sort in self.spec.sorts else "it isn't declared"

    def rule_S19(self):
        made = self.declared()
        said = []
        for it in made.dummies if made else []:
            words = [word for word in self.modifiers(it.sort) if word in ("strict", "free")]
            said += [f"{it.name} is a dummy of the sort {it.sort}, which is {' and '.join(words)} ({self.sort_line(it.sort)})"] if words else []
        return said

    def rule_S7(self):
        made = self.declared()
        return [f"the result has the sort {made.sort}, which is pure ({self.sort_line(made.sort)})"] if made else []

    # math strings

    def math(self):
        """The math string at the place: its text, and the place of its first byte inside."""
        for it in self.found:
            if it.kind == "math" and it.at <= self.at <= it.at + len(it.text) + 1:
                return it.text, it.at + 1
        return "", self.at

    def variables(self):
        made = self.declared()
        return made.variables() if made else {}

    def reading(self):
        tokens = self.spec.notations.tokens(self.math()[0])
        return Reading(tokens, self.spec, self.variables())

    def rule_S9(self):
        text, start = self.math()
        token = next((it for it, at in self.spec.notations.placed_tokens(text) if start + at == self.at), self.word())
        said = [f"the token is `{token}`"]
        parts = characters.parted(token, {*self.known(), *self.spec.terms.all()}, bool(self.spec.notations.delimiters))
        if parts:
            return [*said, *parts, *self.delimiters()]
        later = [it for it in specs.Spec(self.data).notations.forms if it.at > self.start and token in constants(it)]
        if later:
            return [*said, f"a notation with it is declared only later, on line {self.source.line(later[0].at)}"]
        known = self.known()
        near = difflib.get_close_matches(token, sorted(known), 3)
        said += [f"near it: {', '.join(near)}"] if near else []
        names = list(self.variables())
        said.append(f"variables here: {', '.join(names[:20])}" if names else "the statement has no variables")
        return said

    def known(self):
        notations = self.spec.notations
        return {*self.variables(), *notations.leading, *notations.infix, *(it for form in notations.forms for it in constants(form)), *self.spec.notations.left, *self.spec.notations.right}

    def delimiters(self):
        return [f"delimiters are those of {self.line(it)}" for it in self.spec.notations.delimiters[:3]]

    def rule_S17(self):
        tokens = self.reading().tokens
        if len(tokens) > MOST_TOKENS:
            return [f"the string has {len(tokens):,} tokens, and {MOST_TOKENS:,} are the most"]
        return [f"the string has {len(tokens):,} tokens; its expression is higher than {MOST_TOKENS:,}"]

    def rule_S10(self):
        reading = self.reading()
        try:
            reading.whole()
        except Stopped as stopped:
            count = len(reading.tokens)
            where = f"token {stopped.at + 1} of {count}" if stopped.at < count else f"behind the last of {many(count, 'token')}"
            return [f"{where}: {stopped.why}", self.marked(reading.tokens, stopped.at), *self.infix_here()]
        return []

    def marked(self, tokens, at):
        """The tokens around the one at which reading stopped, which stands between > and <."""
        piece = [*tokens[max(0, at - 8) : at], f">{tokens[at]}<" if at < len(tokens) else "> <", *tokens[at + 1 : at + 5]]
        return f"in $ {'.. ' if at > 8 else ''}{' '.join(piece)}{' ..' if at + 5 < len(tokens) else ''} $"

    def infix_here(self):
        forms = self.spec.notations.infix
        if not forms:
            return ["no infix constant is declared before this statement"]
        named = [f"{it} ({'max' if form.level == MAX else form.level}, {'left' if form.is_left else 'right'})" for it, form in list(forms.items())[:12]]
        return [f"infix constants and their precedences: {', '.join(named)}"]

    def rule_S11(self):
        reading = self.reading()
        try:
            _, sort = reading.whole()
        except Stopped as stopped:
            return [stopped.why, *self.coercions()]
        made = self.declared()
        return [f"the body has the sort {sort}, and the result {made.sort}; no coercion leads from one to the other", *self.coercions()] if made else []

    def coercions(self):
        found = self.spec.notations.coercions
        return [f"coercions: {', '.join(f'{low} > {high} by {name}' for name, low, high, _ in found)}" if found else "no coercion is declared before this statement"]

    def rule_S8(self):
        reading = self.reading()
        _, sort = reading.whole()
        provable = [it for it in dict.fromkeys(self.spec.sorts.all()) if "provable" in self.modifiers(it)]
        reached = [it for it in provable if reading.leads(sort, it)]
        said = f"the formula has the sort {sort}, which isn't provable ({self.sort_line(sort)})"
        if reached:
            return [said, f"coercions lead to several provable sorts: {', '.join(reached)}"]
        return [said, f"provable sorts: {', '.join(provable) or 'none is declared'}", *self.coercions()]

    def rule_S18(self):
        made = self.declared()
        body = made.body if made else None
        if body is None:
            return []
        e, _ = Reading(self.spec.notations.tokens(body), self.spec, made.variables()).whole()
        free = sorted(self.free(e, made) - set(made.needs))
        said = [f"free in the body, and no dependency of the result: {', '.join(free)}"]
        allowed = [it for it in free if any(one.name == it and one.bound for one in made.binders)]
        if allowed:
            said.append(f"a result that depends on {'it' if len(allowed) == 1 else 'them'} is written `: {made.sort} {' '.join([*made.needs, *allowed])}`")
        if len(allowed) < len(free):
            said.append(f"{', '.join(it for it in free if it not in allowed)}: a dummy has to be bound in the body by the terms that hold it")
        return said

    def free(self, e, made):
        """The variables that are free in an expression."""
        if isinstance(e, str):
            variable = made.variables().get(e)
            if variable is None:
                return set()
            return {e} if variable.bound else set(variable.needs)
        term = self.spec.terms[e[0]]
        operands = dict(zip((it.name for it in term.binders), e[1:]))
        found = {operands[it] for it in term.needs if isinstance(operands.get(it), str)}
        for binder, operand in zip(term.binders, e[1:]):
            if not binder.bound:
                found |= self.free(operand, made) - {operands[it] for it in binder.needs if isinstance(operands.get(it), str)}
        return found

    # notations

    def own_form(self):
        """What this statement would declare, with the notations before it."""
        before = self.spec.notations
        count = len(before.forms)
        try:
            before.add(self.found, self.spec)
            own = before.forms[count:]
        finally:
            forms = before.forms[:count]
        return own[0] if own else None, forms

    def rule_S12(self):
        own, forms = self.own_form()
        if own is None:
            return []
        said = []
        mine = dict(it for it in own.literals if isinstance(it, tuple))
        first = own.literals[0]
        infix = own.literals[1][0] if not isinstance(first, tuple) and len(own.literals) > 1 and isinstance(own.literals[1], tuple) else None
        for other in forms:
            theirs = dict(it for it in other.literals if isinstance(it, tuple))
            where = self.line(other.at)
            is_infix = not isinstance(other.literals[0], tuple)
            if infix and is_infix and other.level == own.level and other.is_left != own.is_left:
                said.append(f"precedence {own.level} groups to the {'left' if other.is_left else 'right'} since {where}; here it is to group to the {'left' if own.is_left else 'right'}")
            for constant in mine:
                if constant in theirs and theirs[constant] != mine[constant]:
                    said.append(f"`{constant}` has precedence {shown_level(theirs[constant])} since {where}; here it is to have {shown_level(mine[constant])}")
            if not infix and not is_infix and isinstance(first, tuple) and other.literals[0][0] == first[0]:
                said.append(f"`{first[0]}` begins a notation already, of {where}")
            if infix and is_infix and len(other.literals) > 1 and isinstance(other.literals[1], tuple) and other.literals[1][0] == infix:
                said.append(f"`{infix}` is an infix constant already, of {where}")
        if infix and own.level == MAX:
            said.append(f"`{infix}` is infix, and can't have precedence max")
        levels = {}
        for constant, level in (it for it in own.literals if isinstance(it, tuple)):
            if levels.setdefault(constant, level) != level:
                said.append(f"`{constant}` has two precedences in this notation: {shown_level(levels[constant])} and {shown_level(level)}")
        return said[:6]

    def rule_S13(self):
        head = self.found[0].text if self.found else ""
        texts = [it.text for it in self.found]
        if head == "delimiter":
            return [f"`{it}` isn't one character" for one in self.found if one.kind == "math" for it in one.text.split() if len(it) != 1]
        if head == "coercion":
            return self.coercion_form(texts)
        name = texts[1] if len(texts) > 1 else ""
        if name not in self.spec.terms:
            return []
        term, said = self.spec.terms[name], []
        where = self.line(term.at)
        for it in self.found:
            if it.kind == "math" and not self.is_one_token(it.text):
                said.append(f"the constant `{it.text.strip()}` isn't one token: {' '.join(self.spec.notations.tokens(it.text)) or 'it is empty'}")
            elif it.kind == "math" and it.text.strip() in ("(", ")"):
                said.append("a parenthesis can't be a constant")
        if head in ("infixl", "infixr") and len(term.binders) != 2:
            said.append(f"an infix operator has two operands, and {name} has {many(len(term.binders), 'parameter')}: {where}")
        if head == "notation":
            said += self.notation_form(term, where)
        return said

    def is_one_token(self, text):
        return len(self.spec.notations.tokens(text)) == 1

    def coercion_form(self, texts):
        name, low, high = texts[1], texts[3], texts[5]
        if name not in self.spec.terms:
            return []
        term = self.spec.terms[name]
        said = []
        if len(term.binders) != 1 or term.binders[0].bound:
            said.append(f"a coercion's term has one regular parameter, and {name} has {many(len(term.binders), 'parameter')}")
        elif term.binders[0].sort != low:
            said.append(f"the parameter of {name} has the sort {term.binders[0].sort}, and not {low}")
        if term.sort != high:
            said.append(f"the result of {name} has the sort {term.sort}, and not {high}")
        return [*said, self.line(term.at)]

    def notation_form(self, term, where):
        own, _ = self.own_form()
        said = []
        if own is None:
            return said
        names, literals = own.names, [it for it in own.literals if isinstance(it, int)]
        if len(names) != len(term.binders):
            said.append(f"the notation has {many(len(names), 'binder')}, and {own.term} has {many(len(term.binders), 'parameter')}: {where}")
        missing = [name for number, name in enumerate(names) if literals.count(number) != 1]
        if missing:
            said.append(f"each parameter stands once among the literals; {', '.join(missing)} doesn't")
        if not said:
            said.append(f"binders, sorts and type have to be those of {where}; the literals begin with a constant, or with a parameter and a constant of the precedence behind them")
        return said

    def rule_S14(self):
        texts = [it.text for it in self.found]
        if len(texts) < 6:
            return []
        low, high, found = texts[3], texts[5], self.spec.notations.coercions
        if low == high:
            return [f"a coercion from {low} to itself is a cycle"]
        said = [f"this one leads from {low} to {high}"]
        back = path(found, high, low)
        if back:
            return [*said, f"and back lead: {self.way(back)}"]
        for start in [low, *(a for _, a, _, _ in found)]:
            for end in [high, *(b for _, _, b, _ in found)]:
                known = path(found, start, end)
                ours = (start == low or path(found, start, low)) and (end == high or path(found, high, end))
                if known and ours:
                    return [*said, f"so there would be two ways from {start} to {end}; there is already: {self.way(known)}"]
        return said

    def way(self, steps):
        return ", ".join(f"{low} > {high} by {name} (line {self.source.line(at)})" for name, low, high, at in steps)


def path(coercions, low, high):
    """The coercions that lead from one sort to another, or none."""
    ways = {low: []}
    todo = [low]
    while todo:
        at = todo.pop(0)
        for it in coercions:
            if it[1] == at and it[2] not in ways:
                ways[it[2]] = [*ways[at], it]
                todo.append(it[2])
    return ways.get(high, []) if low != high else []


def constants(form):
    return [it[0] for it in form.literals if isinstance(it, tuple)]


def shown_level(level):
    return "max" if level == MAX else level


def shown(lexemes, most=60):
    text = " ".join(f"${it.text}$" if it.kind == "math" else it.text for it in lexemes)
    return text if len(text) <= most else ".. " + text[-most:]


def explain(source, refusal):
    """Lines on the refusal of a specification."""
    return Explaining(source, refusal).lines()
