"""What is said of a refused binary, beside its rule: the statement, its command, and the stack with names."""

from . import specs
from .binaries import ASSERTIONS, COMMANDS, SORTS, STATEMENTS, TERMS, Binary, Names, command, named
from .machine import CONVERSION, EXPRESSION, OBLIGATION, PROOF, Machine, Refused
from .notations import Writer
from .source import Source, many
from .trees import is_same

MOST_ITEMS = 8
STATEMENT_COMMANDS = "02 an axiom, 04 a sort, 05 a term or definition, 06 a theorem, 0D a local definition, 0E a local theorem, 00 the end"
KINDS = {0x04: "sort", 0x05: "term or definition", 0x0D: "local definition", 0x02: "axiom", 0x06: "theorem", 0x0E: "local theorem"}


def signs(kind, *shown):
    """An item of the stack as the pages write it."""
    return {EXPRESSION: "{}", PROOF: "⊢ {}", OBLIGATION: "{} =?= {}", CONVERSION: "{} = {}"}[kind].format(*shown)


class Explaining:
    """One refusal of a binary. Each rule that has more to say has a function `rule_K..`, which gives lines."""

    def __init__(self, refusal, given):
        self.verb, self.refusal, self.at = given[0], refusal, refusal.byte
        self.binary = Binary(given[1] if self.verb == "show" else given[2])
        self.data = self.binary.data
        self.source = Source(given[1]) if self.verb != "show" else None
        self.read_statements()
        notations = self.spec.notations if self.spec else None
        self.writer = Writer(notations, [name for name, _, _, _ in notations.coercions] if notations else [])

    def read_statements(self):
        self.listing = self.binary.statements(self.refusal.statement)
        self.spec = specs.Spec(self.source.data) if self.source else None
        self.names = Names(self.listing, self.spec.name_of if self.spec else lambda number: None)
        is_there = self.refusal.statement and len(self.listing) == self.refusal.statement
        self.statement = self.listing.last if is_there else None

    def show(self, e):
        return self.writer.write(e) or "an expression that is too long to be shown"

    def shown_item(self, one):
        return signs(one.kind, *map(self.show, one[1:]))

    # the statement

    def lines(self):
        said = self.about() if self.refusal.statement else []
        rule = getattr(self, f"rule_{self.refusal.code}", None)
        return [it for it in [*said, *(rule() if rule else self.in_body())] if it]

    def name(self):
        it = self.statement
        if it.code == 0x04:
            return self.names.sort(it.row)
        return self.names.term(it.row) if it.is_term else self.names.theorem(it.row)

    def about(self):
        """Which statement it is."""
        it = self.statement
        if it is None:
            return [f"the list has {many(len(self.listing), 'statement')} before it"]
        made = self.declaration()
        where = f", declared at {self.source.named(made.at)}" if made and made.name == self.name() else ""
        return [f"statement {it.number} is the {KINDS[it.code]} {self.name()} of row {it.row}{where}; it begins at byte {it.at}"]

    def declaration(self):
        """What the specification declares under the statement's number among the public ones."""
        number = self.listing.public_number(self.refusal.statement) if self.spec and self.statement else None
        return self.spec.numbered(number) if number else None

    def found_command(self, end=None):
        """The command at the place."""
        return command(self.data, self.at, len(self.data) if end is None else end)

    # header, tables, list

    def rule_K1(self):
        if len(self.data) < 40:
            return [f"the file has {len(self.data)} bytes, and a header has 40"]
        if self.at == 0:
            return [f"the first four bytes are {self.data[:4].hex(' ').upper()}, and 4D 4D 30 42, MM0B, begin a binary"]
        if self.at == 4:
            return [f"byte 4, the version, is {self.data[4]}; version 1 is read"]
        if self.at == 5:
            return [f"byte 5, the number of sorts, is {self.data[5]}; 128 are the most"]
        return [f"{self.binary.sorts} sorts have their bytes from 40 to {40 + self.binary.sorts}, and the file has {len(self.data)}"]

    def rule_K2(self):
        length = len(self.data)
        tables = {16: ("term", self.binary.terms, self.binary.term_table), 20: ("theorem", self.binary.theorems, self.binary.theorem_table)}
        if self.at in tables:
            what, rows, place = tables[self.at]
            return [f"the {what} table of {many(rows, 'row')} begins at {place} and would end at {place + 8 * rows}; the file has {length} bytes"]
        if self.at == 24:
            return [f"the list of statements would begin at {self.binary.list}; the file has {length} bytes"]
        return [f"the record at {self.at} says {int.from_bytes(self.data[self.at : self.at + 2], 'little')} parameters, whose words would pass the file's end"]

    def rule_K3(self):
        if self.at >= len(self.data):
            return ["the file ends here, where a command belongs; the list ends with the byte 00"]
        byte = self.data[self.at]
        end = self.statement.end if self.statement and self.statement.body <= self.at else len(self.data)
        found = self.found_command(end)
        if found is None:
            return [f"the byte is {byte:02X}, whose operand of {(0, 1, 2, 4)[byte >> 6]} bytes passes the end of {'the body' if end < len(self.data) else 'the file'}"]
        if found[0] not in COMMANDS:
            return [f"the byte is {byte:02X}: there is no command of code {found[0]:02X}"]
        if self.statement and self.at >= self.statement.body:
            where = {0x02: "an axiom's body", 0x0D: "a definition's body", 0x05: "a definition's body"}.get(self.statement.code, "this body")
            return [f"the command is {named(*found[:2])} (code {found[0]:02X}), which doesn't belong to {where}", *self.stack_if_any()]
        return [f"the byte is {byte:02X}, {named(*found[:2])}; a statement begins with {STATEMENT_COMMANDS}"]

    def rule_K4(self):
        it = self.statement
        if it and self.at == it.at:
            distance = it.end - it.at
            if distance < it.body - it.at:
                return [f"the distance to the next statement is {distance}, and the command alone has {it.body - it.at} bytes"]
            if it.end > len(self.data):
                return [f"the distance is {distance}, which leads to {it.end}; the file has {len(self.data)} bytes"]
            return [f"a {KINDS[it.code]} without a body is followed by the next statement at {it.body}; here {it.end - it.body} bytes are between: {self.data[it.body : it.body + 8].hex(' ').upper()}"]
        return [f"END stands at {self.at}, and the next statement begins at {it.end}: {it.end - self.at - 1} bytes are left between"] if it else []

    def rule_K5(self):
        found = self.found_command()
        if found and found[0] not in STATEMENTS:
            return [f"the command is {found[0]:02X}; a statement begins with {STATEMENT_COMMANDS}"]
        return [f"row {self.statement.row} of the term table has no flag of a definition (bit 7 of its third byte)"] if self.statement else []

    def rule_K6(self):
        counts = {0x04: (self.binary.sorts, "sorts"), 0x05: (self.binary.terms, "terms"), 0x0D: (self.binary.terms, "terms")}
        code = self.statement.code if self.statement else self.found_command()[0]
        count, what = counts.get(code, (self.binary.theorems, "theorems"))
        return [f"the header says {many(count, what[:-1])}, and all their rows are taken"]

    def rule_K7(self):
        taken = [self.listing.count(it) for it in (SORTS, TERMS, ASSERTIONS)]
        rows = zip(("sorts", "terms", "theorems"), (self.binary.sorts, self.binary.terms, self.binary.theorems), taken)
        return [f"the header says {many(count, what[:-1])}, and the list has {took}" for what, count, took in rows if count != took]

    def word_at(self):
        """The word at the place, which one it is, and those before it."""
        words, _, result, _, _ = self.binary.term(self.statement.row) if self.statement.is_term else (*self.binary.theorem(self.statement.row)[:1], 0, None, False, 0)
        place = (self.binary.term(self.statement.row)[4] - 8 * (len(words) + 1)) if self.statement.is_term else self.binary.theorem(self.statement.row)[1] - 8 * len(words)
        number = (self.at - place) // 8
        return number, (words[number] if number < len(words) else result), words

    def said_word(self, word):
        return f"the word {word.value:016X}: {'bound' if word.bound else 'regular'}, sort {word.sort}{self.named_sort(word.sort)}, bits {word.bits:014X}"

    def named_sort(self, sort):
        return f" ({self.names.sort(sort)})" if sort < self.declared_sorts() else ""

    def sorts_before(self):
        return f"{many(self.declared_sorts(), 'sort')} declared before this statement"

    def declared_sorts(self):
        return self.listing.count(SORTS)

    def rule_K8(self):
        number, word, words = self.word_at()
        said = [f"parameter {number} of {len(words)} has {self.said_word(word)}"]
        before = sum(it.bound for it in words[:number])
        if word.sort >= self.declared_sorts():
            said.append(self.sorts_before())
        elif word.bound and "strict" in self.binary.modifiers(word.sort):
            said.append("the sort is strict")
        elif word.bound:
            said.append(f"{before} bound parameters stand before it, so it has bit {before} and no other" if before < 55 else "55 bound parameters are the most")
        else:
            said.append(f"{before} bound parameters stand before it, so it can have bits 0 to {before - 1}" if before else "no bound parameter stands before it, so it can have no bit")
        return said

    def rule_K9(self):
        _, sort, word, _, _ = self.binary.term(self.statement.row)
        words = self.binary.term(self.statement.row)[0]
        said = [f"the result has {self.said_word(word)}; the record says sort {sort}{self.named_sort(sort)}"]
        bound = sum(it.bound for it in words)
        if word.sort >= self.declared_sorts():
            said.append(self.sorts_before())
        elif word.sort == sort and "pure" in self.binary.modifiers(sort):
            said.append("the sort is pure")
        elif word.bound:
            said.append("a result isn't bound")
        elif word.bits >> bound:
            said.append(f"the term has {bound} bound parameters, so the result can have {f'bits 0 to {bound - 1}' if bound else 'no bit'}")
        return said

    # bodies

    def machine(self):
        """The machine before the command that is refused."""
        it = self.statement
        words = self.binary.term(it.row)[0] if it.is_term else self.binary.theorem(it.row)[0]
        made = self.declaration()
        given = [one.name for one in made.binders] if made else []
        names = [given[i] if i < len(given) and given[i] != "_" else f"v{i}" for i in range(len(words))]
        machine = Machine(self.binary, self.names, it, names, words)
        machine.run(self.at)
        return machine

    def stack_if_any(self):
        try:
            return self.stack(self.machine())
        except (IndexError, KeyError, AttributeError, TypeError):
            return []

    def stack(self, machine):
        count = len(machine.stack)
        shown = [self.shown_item(it) for it in machine.stack[-MOST_ITEMS:]]
        if not shown:
            return ["the stack is empty"]
        head = f"the stack, its top last{f' (the top {MOST_ITEMS} of {count})' if count > MOST_ITEMS else ''}:"
        return [head, *(f"  {it}" for it in shown)]

    def in_body(self):
        found = self.found_command(self.statement.end if self.statement else None)
        if found is None or self.statement is None:
            return []
        code, value, _ = found
        machine = self.machine()
        return [f"the command is {self.said(code, value)}", *self.cause(machine, code, value), *self.stack(machine)]

    def said(self, code, value):
        """A command, with the name of what it names."""
        text = named(code, value)
        if code in (0x10, 0x11) and value < self.listing.count(TERMS):
            return f"{text} ({self.names.term(value)})"
        if code in (0x14, 0x15) and value < self.listing.count(ASSERTIONS):
            return f"{text} ({self.names.theorem(value)})"
        return text

    def cause(self, machine, code, value):
        """Why the command is refused, where the rule's own words leave that open."""
        rule = getattr(self, f"cause_{self.refusal.code}", None)
        return rule(machine, code, value) if rule else []

    def needs(self, code, value):
        """How many items the command takes, and of which kinds, from the top."""
        if code in (0x10, 0x11):
            return [EXPRESSION] * len(self.binary.term(value)[0])
        if code in (0x14, 0x15):
            return [EXPRESSION] * (len(self.binary.theorem(value)[0]) + 1)
        return {0x16: [EXPRESSION], 0x17: [PROOF, EXPRESSION], 0x18: [OBLIGATION], 0x19: [OBLIGATION], 0x1A: [OBLIGATION], 0x1B: [EXPRESSION, EXPRESSION, OBLIGATION],
                0x1C: [OBLIGATION], 0x1E: [CONVERSION], 0x1F: [EXPRESSION]}.get(code, [OBLIGATION] if code in (0x12, 0x1D) else [])

    def wants(self, code, value):
        kinds = self.needs(code, value)
        if not kinds:
            return []
        if code in (0x10, 0x11):
            return [f"it takes {many(len(kinds), 'expression')} from the stack"]
        if code in (0x14, 0x15):
            count = self.binary.hypotheses_of(value)
            return [f"it takes {many(len(kinds) - 1, 'operand')} and the conclusion from the stack" + (f", and below them {count} {'proof' if count == 1 else 'proofs'}" if count else "")]
        return [f"it takes from the top: {', '.join(kinds)}"]

    def cause_K10(self, machine, code, value):
        return [*self.wants(code, value), f"the stack has {many(len(machine.stack), 'item')}"]

    def cause_K11(self, machine, code, value):
        kinds = self.needs(code, value)
        said = self.wants(code, value)
        if machine.stack and kinds:
            said.append(f"the top of the stack is {article(machine.stack[-1].kind)}")
        if code == 0x1D and value < len(machine.heap):
            said = [f"place {value} of the heap has {article(machine.heap[value].kind)}: {self.shown_item(machine.heap[value])}"]
        return said

    def cause_K12(self, machine, code, value):
        last = f"; the last is {self.shown_item(machine.heap[-1])}" if machine.heap else ""
        return [f"the heap has {many(len(machine.heap), 'place')}, from 0{last}"]

    def cause_K13(self, machine, code, value):
        count = self.listing.count(TERMS, len(self.listing) - 1)
        return [f"{many(count, 'term')} declared before this statement, from row 0" if count else "no term is declared before this statement"]

    def cause_K14(self, machine, code, value):
        count = self.listing.count(ASSERTIONS, len(self.listing) - 1)
        own = value == self.statement.row and self.statement.is_assertion
        return ["it names its own row: nothing cites itself" if own else "", f"axioms and theorems declared before this statement: {count}"]

    def operands(self, machine, code, value):
        """The parameters' words and the operands of a term or a citation, and what is named."""
        if code in (0x10, 0x11):
            words, name, top = self.binary.term(value)[0], self.names.term(value), len(machine.stack)
        else:
            words, name, top = self.binary.theorem(value)[0], self.names.theorem(value), len(machine.stack) - 1
        return name, words, [it[1] for it in machine.stack[top - len(words) : top]]

    def cause_K15(self, machine, code, value):
        name, words, operands = self.operands(machine, code, value)
        for number, (word, e) in enumerate(zip(words, operands)):
            if machine.sort(e) != word.sort:
                return [f"operand {number + 1} of {name} wants the sort {self.names.sort(word.sort)}; {self.show(e)} has the sort {self.names.sort(machine.sort(e))}"]
        return []

    def cause_K16(self, machine, code, value):
        name, words, operands = self.operands(machine, code, value)
        for number, (word, e) in enumerate(zip(words, operands)):
            if word.bound and not machine.is_bound(e):
                return [f"operand {number + 1} of {name} is bound by it: a bound variable belongs there, and not {self.show(e)}"]
        return []

    def cause_K17(self, machine, code, value):
        if value >= self.declared_sorts():
            return [f"{self.sorts_before()}, and it names sort {value}"]
        return [f"the sort {self.names.sort(value)} is {' and '.join(it for it in self.binary.modifiers(value) if it in ('strict', 'free'))}"]

    def cause_K18(self, machine, code, value):
        return [f"the statement has {len(machine.bound)} bound variables already"]

    def cause_K19(self, machine, code, value):
        if machine.stack:
            e = machine.stack[-1][1]
            return [f"{self.show(e)} has the sort {self.names.sort(machine.sort(e))}, which isn't provable"]
        return []

    def cause_K25(self, machine, code, value):
        name, words, operands = self.operands(machine, code, value)
        bound, said = [], []
        for number, (word, e) in enumerate(zip(words, operands)):
            if word.bound:
                bound.append((number, e))
        for k, (number, variable) in enumerate(bound):
            for other, (word, e) in enumerate(zip(words, operands)):
                if other != number and not (not word.bound and word.bits >> k & 1) and variable in machine.variables(e):
                    said.append(f"{name} keeps its operand {other + 1} apart from its operand {number + 1}: {variable} is one of the variables of {self.show(e)}")
        return said

    def sides(self, machine):
        """The obligation on the top, and where its two sides differ."""
        if machine.stack and machine.stack[-1].kind == OBLIGATION:
            _, e, f = machine.stack[-1]
            same = is_same(e, f)
            return [f"left side: {self.show(e)}", f"right side: {self.show(f)}", *self.alike(same)]
        return []

    def alike(self, same):
        return ["both are the same expression, made by two commands: verifiers that compare by identity take them for two"] if same and self.verb == "portable" else []

    def cause_K26(self, machine, code, value):
        return self.sides(machine)

    def cause_K27(self, machine, code, value):
        return self.sides(machine)

    def cause_K29(self, machine, code, value):
        said = self.sides(machine)
        if value < len(machine.heap):
            saved = machine.heap[value]
            said.append(f"place {value} of the heap has: {self.shown_item(saved)}")
            top = machine.stack[-1] if machine.stack else None
            if top and top.kind == OBLIGATION and saved.kind == CONVERSION and is_same(top[1], saved[2]) and is_same(top[2], saved[1]):
                said.append("it goes the other way: a Symm before it turns the obligation")
        return said

    def cause_K30(self, machine, code, value):
        return ["draft takes a binary with gaps, and says which theorems rest on one" if self.verb != "draft" else "the two sides of the obligation have two sorts"]

    def cause_K28(self, machine, code, value):
        stack = machine.stack
        if len(stack) > 1 and stack[-2].kind == OBLIGATION:
            obligation, middle = stack[-2], None
        else:
            obligation, middle = (stack[-3], stack[-2]) if len(stack) > 2 else (None, None)
        if obligation is None or obligation.kind != OBLIGATION:
            return []
        left = obligation[1]
        if middle is not None and not is_same(middle[1], left):
            return [f"left side of the obligation: {self.show(left)}", f"middle item: {self.show(middle[1])}"]
        name = left if isinstance(left, str) else left[0]
        if name in machine.words:
            return [f"{name} is a variable: only the application of a definition is unfolded"]
        said = [] if self.verb != "portable" or middle is None else ["both are the same expression, made by two commands: verifiers that compare by identity take them for two"]
        row = self.names.row_of(name)
        return [f"{name} is a plain term, and has no definition"] if row is not None and not self.binary.term(row)[3] else said

    def unified(self, machine, code, value):
        """What a stream wanted, and what it found."""
        try:
            self.unify(machine, code, value)
        except Refused as refused:
            where, wanted, found = refused.args[0]
            want = wanted if isinstance(wanted, str) else f"{wanted[0]} {self.show(wanted[1])} is wanted"
            return [f"{where}: {want}" + (f"; found: {self.show(found)}" if found is not None else "")]
        if self.verb == "portable":
            return ["the trees are the same, made by several commands: verifiers that compare by identity take them for two"]
        return []

    def unify(self, machine, code, value):
        stack = list(machine.stack)
        if code in (0x14, 0x15):
            words, place = self.binary.theorem(value)
            target = stack.pop()[1]
            operands = [stack.pop()[1] for _ in words][::-1]
            machine.unify(place, operands, target, lambda: stack.pop()[1] if stack and stack[-1].kind == PROOF else None)
        elif code == 0x1B:
            target, below = stack.pop()[1], stack.pop()
            left = below[1] if below.kind == OBLIGATION else stack.pop()[1]
            row = self.names.row_of(left if isinstance(left, str) else left[0])
            machine.unify(self.binary.term(row)[4], [] if isinstance(left, str) else list(left[1:]), target, lambda: None)
        elif code == 0:
            it, hypotheses = self.statement, list(machine.hypotheses)
            names = list(machine.words)[: len(self.binary.term(it.row)[0] if it.is_term else self.binary.theorem(it.row)[0])]
            place = self.binary.term(it.row)[4] if it.is_term else self.binary.theorem(it.row)[1]
            machine.unify(place, names, stack[-1][1], lambda: hypotheses.pop() if hypotheses else None)
            if hypotheses:
                raise Refused(("at the stream's end", f"{many(len(hypotheses), 'hypothesis', 'hypotheses')} of the body left", hypotheses[-1]))

    def with_instance(self, machine, code, value):
        said = self.unified(machine, code, value)
        if code in (0x14, 0x15):
            name, _, operands = self.operands(machine, code, value)
            hypotheses, conclusion = machine.instance_of(value, operands)
            text = " > ".join(f"$ {self.show(it)} $" for it in [*hypotheses, conclusion])
            said.append(f"{name} with these operands says: {text}")
        elif code == 0x1B:
            said.append("the stream of a definition says what its body is, with the operands put in")
        elif code == 0:
            said.append("at its end a body has to leave what its own row says")
        return said

    cause_K20 = cause_K21 = cause_K22 = cause_K23 = cause_K24 = with_instance

    def cause_K31(self, machine, code, value):
        wanted = "one proof" if self.statement.code in (0x06, 0x0E) else "one expression"
        return [f"at the END {wanted} has to be left, and nothing else"]

    def cause_K32(self, machine, code, value):
        sort, e = self.binary.term(self.statement.row)[1], machine.stack[-1][1]
        return [f"the result has the sort {self.names.sort(sort)}; the body {self.show(e)} has the sort {self.names.sort(machine.sort(e))}"]

    def cause_K33(self, machine, code, value):
        words, _, result, _, _ = self.binary.term(self.statement.row)
        bound = [name for name, word in machine.words.items() if word.bound]
        allowed = {it for k, it in enumerate(bound[: sum(word.bound for word in words)]) if result.bits >> k & 1}
        found = sorted(machine.free(machine.stack[-1][1]) - allowed)
        return [f"free in the body, and no dependency of the result: {', '.join(found)}"]

    def cause_K34(self, machine, code, value):
        return ["an obligation stands for what is still to be shown, so that it can't be used again"]


def article(kind):
    return f"an {kind}" if kind[0] in "eo" else f"a {kind}"


def explain(refusal, given):
    """Lines on the refusal of a binary."""
    return Explaining(refusal, given).lines()
