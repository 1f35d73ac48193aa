"""What is said of a refused proof text, beside its rule: what was wanted, and what is there."""
import difflib
import re

from . import characters
from .notations import Writer
from .source import many, specification_of
from .specs import Spec
from .texts import TOP, Atom, Statement, Theory, exact_start, given_by, is_comment, read_one, start_of, tree, written
from .trees import TooLarge, first_difference, instance, is_same, prefix


STATEMENTS = ("sort", "term", "axiom", "def", "theorem", "local")


def named_byte(data, at):
    """A byte in hexadecimal, with its name where it has one, and the letter that it begins."""
    if at >= len(data):
        return "the text ends there"
    name = characters.named(data, at)
    return f"the byte is {data[at]:02X} in hexadecimal" + (f", {name}" if name else "")


class Explaining:
    """One refusal of a text. Each rule that has more to say has a function `rule_U..`, which gives lines."""

    def __init__(self, source, refusal):
        self.source, self.data, self.at = source, source.data, refusal.byte
        self.number, self.refusal = refusal.statement, refusal
        self.writer = self.writer_of(source.path)
        self.statement = None

    @staticmethod
    def writer_of(path):
        beside = specification_of(path)
        if not beside:
            return None
        with open(beside, "rb") as file:
            notations = Spec(file.read()).notations
        return Writer(notations) if notations.by_term else None

    def say(self, e):
        """The expression as texts write it, and as the specification beside does where it has notations."""
        text = prefix(e)
        shown = self.writer.write(e) if self.writer and len(text) < 600 else None
        return f"{text}   $ {shown} $" if shown and shown != text else text

    def begin(self):
        start = start_of(self.data, self.at)
        self.start = start
        node, _ = read_one(self.data, start)
        self.theory = Theory(self.data, start)
        self.statement = Statement(self.theory, node)
        return node

    def lines(self):
        rule = getattr(self, f"rule_{self.refusal.code}", None)
        if rule is None:
            return []
        if self.refusal.code not in ("U1", "U2", "U16"):
            self.begin()
        return [it for it in rule() if it]

    def word(self):
        found = re.match(rb"[^\s()]+", self.data[self.at : self.at + 400])
        return found.group().decode("latin-1") if found else ""

    # the whole text

    def rule_U1(self):
        return [named_byte(self.data, self.at) + (", in a comment" if is_comment(self.data, self.at) else "")]

    def rule_U2(self):
        if self.at < len(self.data):
            start = exact_start(self.data, self.at) if self.at < 2_000_000 else start_of(self.data, self.at)
            return [f"the statement before it, of line {self.source.line(start)}, was closed already: there is one ) too many, in it or here",
                    f"it begins: {self.source.first_line(start)}"]
        return self.never_closed()

    def never_closed(self):
        start, following = self.first_unbalanced()
        said = [f"the statement of line {self.source.line(start)} is never closed: {self.source.first_line(start)}"]
        if following is not None:
            said.append(f"line {self.source.line(following)} begins the next one while it is still open: a ) is likely missing at the end of line {self.source.line(following - 1)}")
        return said

    def first_unbalanced(self):
        """Where the last statement begins at the margin with nothing open before it, and the next `(` at the margin."""
        data = without_comments(self.data)
        low, high = 0, len(data)
        while True:
            middle = (low + high) // 2
            found = data.find(b"\n(", middle, high)
            found = found if found >= 0 else data.rfind(b"\n(", low, middle + 1)
            if found < 0 or found + 1 in (low, high):
                break
            is_open = data.count(b"(", low, found) != data.count(b")", low, found)
            low, high = (low, found + 1) if is_open else (found + 1, high)
        start = data.find(b"(", low)
        return max(start, 0), high if high < len(data) else None

    def rule_U16(self):
        return [f"4,096 parentheses are unclosed before it; those of the statement of line {self.source.line(start_of(self.data, self.at))}"]

    # forms and names

    def is_between(self):
        """Whether the place is between two statements, and not in one."""
        marks = [it.group() for it in TOP.finditer(self.data, self.start, self.at)]
        return self.data[self.at : self.at + 1] != b"(" and marks.count(b"(") == marks.count(b")")

    def statement_begins(self, word=""):
        """How a statement begins, with the nearest of these words."""
        near = difflib.get_close_matches(word, STATEMENTS, 1)
        return [f"a statement begins with sort, term, axiom, def, theorem, local def or local theorem{f'; near it: {near[0]}' if near else ''}"]

    def rule_U3(self):
        if self.is_between():
            return [f"found here: {self.word()}, which stands between two statements", *self.statement_begins()]
        nodes = self.path_to(self.at)
        head = str(self.statement.node[0]) if self.statement.node and isinstance(self.statement.node[0], str) else ""
        shapes = {"sort": "(sort NAME modifier..)", "term": "(term NAME (binder..) (sort (dependency..)))", "axiom": "(axiom NAME (binder..) (hypothesis..) conclusion)",
                  "def": "(def NAME (binder..) (sort (dependency..)) (dummy..) body)", "theorem": "(theorem NAME (binder..) ((name hypothesis)..) conclusion (dummy..) proof)"}
        found = nodes[-1] if nodes else self.statement.node
        said = [f"found here: {cut(written(found))}" if found is not None and not isinstance(found, Atom) else f"found here: {self.word()}"]
        if head in shapes:
            said.append(f"a statement that begins with {head} is written {shapes[head]}")
            if len(nodes) < 2:
                parts = len(self.statement.node)
                said.append(f"this one has {parts - 1} parts behind the keyword {head}")
        elif len(nodes) < 2 or not head:
            said += self.statement_begins(head)
        if len(nodes) > 1:
            said.append(self.form_wanted(nodes))
        return said

    def form_wanted(self, nodes):
        """What is wanted at a node inside a statement."""
        parent, node = nodes[-2], nodes[-1]
        place = next((i for i, it in enumerate(parent) if it is node), None)
        statement = self.statement.node
        offset = 0
        if parent is statement or (nodes[0][0:1] == ["local"] and parent is nodes[0]):
            offset = 1 if parent[0] == "local" else 0
            wants = {"term": ["", "a name", "a list of binders", "a result (sort (dependency..))"], "axiom": ["", "a name", "a list of binders", "a list of hypotheses", "an expression"],
                     "def": ["", "a name", "a list of binders", "a result (sort (dependency..))", "a list of dummies (x sort)", "an expression"],
                     "theorem": ["", "a name", "a list of binders", "a list of hypotheses (name expression)", "an expression", "a list of dummies (x sort)", "a proof"], "sort": ["", "a name"]}
            said = wants.get(str(statement[0]), [])
            at = (place or 0) - offset
            if 0 <= at < len(said) and said[at]:
                return f"{said[at]} belongs here"
            return "a modifier belongs here: pure, strict, provable or free, each once" if statement[0] == "sort" else ""
        if isinstance(node, list) and node and str(node[0]).startswith(":"):
            return "forms with a colon: (:conv expr conv proof), (:let name proof proof), (:refl expr), (:sym conv), (:unfold term (expr..) (var..) conv)"
        if parent and len(nodes) > 2 and nodes[-3] is statement:
            return "a bound variable is written (x sort), a regular one (a sort (dependency..)), a dummy (x sort)"
        return "a proof is a name, or (NAME (expr..) proof..); an expression a name, or (TERM expr..)"

    def path_to(self, at):
        """The lists around a place, from the statement inwards, and at last the node that begins there."""
        found = []
        node, _ = read_one(self.data, self.start)

        def go(it):
            found.append(it)
            if it.at == at:
                return True
            if isinstance(it, list):
                inside = [one for one in it if one.at <= at]
                if inside and go(inside[-1]):
                    return True
            return it.at == at

        if node is not None:
            go(node)
            if found[-1].at != at and isinstance(found[-1], str):
                found.pop()
        return found

    def rule_U4(self):
        word, said = self.word(), []
        for names, what in ((self.theory.sorts, "sort"), (self.theory.terms, "term or definition"), (self.theory.assertions, "axiom or theorem")):
            if word in names:
                node = names[word]
                said.append(f"{word} is the {what} of line {self.source.line(node.at)} already: {self.source.first_line(node.at)}")
        places = [it for it in self.atoms(word) if it < self.at]
        if not said and places:
            said.append(f"{word} is a name of this statement already, on line {self.source.line(places[0])}")
        return said or [f"{word} is taken"]

    def atoms(self, word):
        """Where an atom stands in the statement."""
        found = []

        def go(it):
            if isinstance(it, str):
                if it == word:
                    found.append(it.at)
            else:
                for one in it:
                    go(one)

        go(self.statement.node)
        return found

    def rule_U5(self):
        word = self.word()
        what, names = self.names_here()
        near = difflib.get_close_matches(word, list(dict.fromkeys(names)), 3)
        said = [f"there is no {what} {word} here" + (f"; near it: {', '.join(near)}" if near else "")]
        later = re.search(rb"\(\s*(?:local\s+)?(sort|term|axiom|def|theorem)\s+" + re.escape(word.encode("latin-1")) + rb"[\s()]", self.data[self.start :])
        if later and not is_comment(self.data, self.start + later.start()):
            said.append(f"a {later[1].decode()} of this name is declared on line {self.source.line(self.start + later.start())}, which is not before this statement")
        if what.startswith("hypothesis"):
            said += [f"visible here: {name} proves {self.say(e)}" for name, e in list(self.visible().items())[:12]]
        elif what.startswith("variable"):
            said.append("variables of this statement: " + (", ".join(f"{name} ({binder[1]})" for name, binder in list(self.statement.variables.items())[:20]) or "none"))
            if word in self.theory.terms:
                count = len(self.theory.terms[word].binders)
                said.append(f"the term {word} has {count} operands: write ({word} ..)" if count else "")
        return said

    def visible(self):
        """Hypotheses and lets that are visible at the place, with what they prove."""
        return next((named for kind, node, named, _, _ in self.hits() if kind == "proof"), self.statement.hypotheses)

    def names_here(self):
        """What a name at the place stands for, and the names that there are of that kind."""
        statement, theory = self.statement, self.theory
        for kind, node, _, _, _ in self.hits():
            is_head = isinstance(node, list)
            if kind == "proof" and is_head:
                return "axiom or theorem before this one", theory.assertions.all()
            if kind == "proof":
                return "hypothesis or let", [*self.visible()]
            if kind == "expr":
                return ("term" if is_head else "variable or term without operands"), [*theory.terms.all(), *statement.variables]
            if kind == "conv":
                return "term", theory.terms.all()
        if self.is_sort_here():
            return "sort", theory.sorts.all()
        return "variable or term", [*statement.variables, *theory.terms.all(), *theory.sorts.all()]

    def is_sort_here(self):
        nodes = self.path_to(self.at)
        if len(nodes) < 2:
            return False
        parent = nodes[-2]
        if parent is not self.statement.node and len(nodes) > 2 and isinstance(parent, list):
            return len(parent) > 1 and parent[1] is nodes[-1] or (parent and parent[0] is nodes[-1])
        return False

    # the nodes of the statement

    def hits(self):
        """The nodes that begin at the place, or whose head does: (kind, node, what is named there, kind and node of the parent,
        which part of it)."""
        if not hasattr(self, "found"):
            self.found = []
            try:
                self.walk()
            except (KeyError, IndexError, AttributeError, TypeError, TooLarge):
                pass
        return self.found

    def hit(self, kind, node, named, parent, number):
        if node.at == self.at or (isinstance(node, list) and node and getattr(node[0], "at", -1) == self.at):
            self.found.append((kind, node, named, parent, number))

    def walk(self):
        node = self.statement.node
        kind = self.statement.kind
        named = self.statement.hypotheses
        if kind == "theorem":
            for it in node[3]:
                self.expression(it[1], named, None, None)
            self.expression(node[4], named, None, None)
            self.proof(node[6], named, None, None)
        elif kind == "axiom":
            for it in [*node[3], node[4]]:
                self.expression(it, named, None, None)
        elif kind == "def":
            self.expression(node[5], named, None, None)

    def proof(self, node, named, parent, number):
        self.hit("proof", node, named, parent, number)
        if isinstance(node, str) or not node:
            return
        if node[0] == ":let":
            self.proof(node[2], named, ("proof", node), 0)
            try:
                proved = self.statement.proves(node[2], named)
            except (KeyError, IndexError):
                proved = "?"
            self.proof(node[3], {**named, str(node[1]): proved}, ("proof", node), 1)
        elif node[0] == ":conv":
            self.expression(node[1], named, ("proof", node), None)
            self.conversion(node[2], named, ("proof", node), None)
            self.proof(node[3], named, ("proof", node), 0)
        elif node[0] == ":sorry":
            self.expression(node[1], named, ("proof", node), None)
        else:
            for i, it in enumerate(node[1]):
                self.expression(it, named, ("proof", node), i)
            for i, it in enumerate(node[2:]):
                self.proof(it, named, ("proof", node), i)

    def expression(self, node, named, parent, number):
        self.hit("expr", node, named, parent, number)
        if isinstance(node, list):
            for i, it in enumerate(node[1:]):
                self.expression(it, named, ("expr", node), i)

    def conversion(self, node, named, parent, number):
        self.hit("conv", node, named, parent, number)
        if isinstance(node, str) or not node:
            return
        if node[0] == ":refl":
            self.expression(node[1], named, ("conv", node), None)
        elif node[0] == ":sym":
            self.conversion(node[1], named, ("conv", node), None)
        elif node[0] == ":unfold":
            for i, it in enumerate(node[2]):
                self.expression(it, named, ("conv", node), i)
            self.conversion(node[4], named, ("conv", node), None)
        elif node[0] == ":sorry":
            for it in node[1:]:
                self.expression(it, named, ("conv", node), None)
        else:
            for i, it in enumerate(node[1:]):
                self.conversion(it, named, ("conv", node), i)

    # types

    def cited(self, kind, node):
        """The name, the declaration and the operands of what a node names."""
        if node[0] == ":unfold":
            return str(node[1]), self.theory.terms[str(node[1])], node[2]
        name = str(node[0])
        if kind == "proof":
            return name, self.theory.assertions[name], node[1]
        return name, self.theory.terms[name], node[1:]

    def rule_U6(self):
        for kind, node, _, _, _ in self.hits():
            if not isinstance(node, list):
                continue
            name, found, operands = self.cited(kind, node)
            where = f"line {self.source.line(found.at)}: {self.signature(found)}"
            if kind == "proof":
                return [f"{name} has {many(len(found.binders), 'variable')} and {many(len(found.hypotheses), 'hypothesis', 'hypotheses')}; "
                        f"given are {many(len(operands), 'operand')} and {many(len(node) - 2, 'subproof')}", *self.left_out(found, operands, node), where]
            if node[0] == ":unfold":
                return [f"{name} has {many(len(found.binders), 'operand')} and {many(len(found.dummies), 'dummy', 'dummies')}; given are {len(operands)} and {len(node[3])}", where]
            return [f"{name} has {many(len(found.binders), 'operand')}; given are {len(operands)}", where]
        return []

    def left_out(self, cited, operands, node):
        """The hypotheses that have no subproof, with the operands put in."""
        given = given_by(cited.binders, operands)
        return [f"left out is a proof of hypothesis {number}: {self.say(instance(it, given))}"
                for number, it in enumerate(cited.hypotheses, 1) if number > len(node) - 2 and len(operands) == len(cited.binders)]

    def signature(self, found):
        """The statement as the text has it, without its proof or body."""
        node = found.node
        return cut(written(node[:5] if node[0] in ("axiom", "theorem") else node[:4]), 160)

    def operand(self):
        """The operand at the place: (its node, what it is an operand of, the parameter)."""
        for kind, node, _, parent, number in self.hits():
            if kind in ("expr", "conv") and number is not None and parent is not None:
                name, found, _ = self.cited(*parent)
                if number < len(found.binders):
                    return node, name, found, found.binders[number]
        return None

    def rule_U7(self):
        found = self.operand()
        if found:
            node, name, cited, binder = found
            e = self.statement.sides(node)[0] if any(k == "conv" and n is node for k, n, *_ in self.hits()) else tree(node)
            return [f"{name} wants for {binder[0]} the sort {binder[1]}; {self.say(e)} has the sort {self.statement.sort(e)}",
                    f"line {self.source.line(cited.at)}: {self.signature(cited)}"]
        node = self.statement.node
        if self.statement.kind == "def":
            e = tree(node[5])
            return [f"the result has the sort {node[3][0]}; the body {self.say(e)} has the sort {self.statement.sort(e)}"]
        return []

    def rule_U8(self):
        found = self.operand()
        if found:
            node, name, cited, binder = found
            e = tree(node)
            variable = self.statement.variables.get(e) if isinstance(e, str) else None
            said = f"{self.say(e)} is no variable" if variable is None else ""
            if variable is not None and len(variable) == 3:
                said = f"{e} is a regular variable: a bound one is written ({e} {binder[1]})"
            return [f"{name} binds {binder[0]}: a bound variable of the sort {binder[1]} belongs here", said, f"line {self.source.line(cited.at)}: {self.signature(cited)}"]
        word = self.word()
        return [f"{word} stands for a dummy of the unfolded definition: a bound variable of its sort belongs here"]

    def rule_U9(self):
        said = []
        for kind, node, _, _, _ in self.hits():
            if isinstance(node, list) and len(node) > 1:
                name, found, operands = self.cited(kind, node)
                said += self.meeting(name, found.binders, [tree(it) for it in operands])
                if node[0] == ":unfold":
                    said += self.new_variables(found, node)
                break
        return said

    def meeting(self, name, binders, operands):
        """Which variable meets which: operands of parameters that must not have a variable in common."""
        for binder, one in zip(binders, operands):
            if len(binder) != 2:
                continue
            for other, e in zip(binders, operands):
                if other is binder or (len(other) == 3 and str(binder[0]) in map(str, other[2])):
                    continue
                if isinstance(one, str) and one in self.statement.variables_of(e):
                    yield (f"{name} keeps its {other[0]} apart from its {binder[0]}: put in for {other[0]} is {self.say(e)}, "
                           f"and {one}, put in for {binder[0]}, is one of the variables of that{self.because(one, e)}")

    def because(self, variable, e):
        """Where a variable comes from that isn't written in the expression."""
        if variable in re.findall(r"[^\s()]+", prefix(e)):
            return ""
        regular = [name for name, it in self.statement.variables.items() if len(it) == 3 and variable in map(str, it[2]) and name in re.findall(r"[^\s()]+", prefix(e))]
        return f" ({', '.join(regular)} may depend on it)" if regular else ""

    def new_variables(self, term, node):
        variables = [str(it) for it in node[3]]
        for it in sorted({it for it in variables if variables.count(it) > 1}):
            yield f"{it} stands for two dummies of {node[1]}"
        for it in variables:
            for binder, operand in zip(term.binders, node[2]):
                if it in self.statement.variables_of(tree(operand)):
                    yield f"{it} stands for a dummy of {node[1]}, and is in what stands for {binder[0]}: {self.say(tree(operand))}"

    def rule_U10(self):
        for kind, node, named, parent, number in self.hits():
            if kind != "proof" or parent is None or number is None or str(parent[1][0]).startswith(":"):
                continue
            name, cited, operands = self.cited(*parent)
            given = {str(binder[0]): tree(it) for binder, it in zip(cited.binders, operands)}
            wants = [instance(it, given) for it in cited.hypotheses]
            found = self.statement.proves(node, named)
            said = [f"{name} wants for its hypothesis {number + 1} of {len(wants)}: {self.say(wants[number])}", f"the subproof proves: {self.say(found)}"]
            others = [i + 1 for i, it in enumerate(wants) if i != number and is_same(it, found)]
            if others:
                said.append(f"that is its hypothesis {others[0]}: are they in the wrong order?")
            return [*said, *self.difference(wants[number], found)]
        return []

    def difference(self, wanted, found):
        a, b = first_difference(wanted, found)
        said = [f"they differ in {self.say(a)} and {self.say(b)}"] if a is not wanted else []
        try:
            if is_same(self.statement.normal(wanted), self.statement.normal(found)):
                said.append("both are the same where definitions are unfolded: a (:conv ..) is missing")
        except (TooLarge, KeyError):
            pass
        return said

    def rule_U11(self):
        node = self.statement.node
        found, wanted = self.statement.proves(node[6], self.statement.hypotheses), tree(node[4])
        return [f"wanted: {self.say(wanted)}", f"proved: {self.say(found)}", *self.difference(wanted, found)]

    def rule_U12(self):
        for _, node, named, _, _ in self.hits():
            if isinstance(node, list) and node[0] == ":conv":
                return self.conv_sides(node, named)
            if isinstance(node, list) and node[0] == ":unfold":
                term = self.theory.terms[str(node[1])]
                if term.body is None:
                    return [f"{node[1]} is a term, of line {self.source.line(term.at)}, and has no definition to unfold"]
                return [f"{node[1]} unfolds to: {self.say(self.statement.unfolded(node))}", f"its part begins with: {self.say(self.statement.sides(node[4])[0])}"]
        return []

    def conv_sides(self, node, named):
        left, right = self.statement.sides(node[2])
        wanted, proved = tree(node[1]), self.statement.proves(node[3], named)
        said = []
        if not is_same(left, wanted):
            said += [f"to be proved: {self.say(wanted)}", f"the conversion goes from: {self.say(left)}"]
        if not is_same(right, proved):
            said += [f"its proof proves: {self.say(proved)}", f"the conversion goes to: {self.say(right)}"]
        if is_same(left, proved) and is_same(right, wanted):
            said.append("the conversion goes the other way: put (:sym ..) around it")
        return said

    # declarations

    def rule_U13(self):
        node = self.statement.node
        here = [it for it in self.binders_here() if it.at == self.at]
        if here:
            return self.bad_binder(here[0])
        if self.statement.kind == "def" and node[5].at == self.at:
            return self.free_in_body(node)
        for it in [node[4], *(one[1] if self.statement.kind == "theorem" else one for one in node[3])] if self.statement.kind in ("axiom", "theorem") else []:
            if it.at == self.at:
                sort = self.statement.sort(tree(it))
                return [f"{self.say(tree(it))} has the sort {sort}, which isn't provable", self.sort_line(sort)]
        if self.statement.kind in ("term", "def") and node[3].at == self.at:
            sort = str(node[3][0])
            if "pure" in self.theory.sorts[sort][2:]:
                return [f"the sort {sort} is pure: no term has it as its result", self.sort_line(sort)]
            bound = [name for name, it in self.statement.variables.items() if len(it) == 2]
            return [f"a result depends on bound parameters alone: {', '.join(bound) or 'there are none'}"]
        return [f"this is {self.source.first_line(self.at)}"]

    def binders_here(self):
        return [it for it in self.statement.binders if isinstance(it, list)]

    def bad_binder(self, binder):
        if len(binder) == 2:
            return [f"{binder[0]} is bound, and the sort {binder[1]} is strict", self.sort_line(str(binder[1]))]
        before = [str(it[0]) for it in self.binders_here() if it.at < binder.at and len(it) == 2]
        wrong = [str(it) for it in binder[2] if str(it) not in before]
        return [f"{binder[0]} can depend on bound parameters before it alone ({', '.join(before) or 'there are none'}), and not on {', '.join(wrong)}"]

    def sort_line(self, sort):
        node = self.theory.sorts[sort]
        return f"line {self.source.line(node.at)}: {written(node)}"

    def free_in_body(self, node):
        body = tree(node[5])
        allowed = set(map(str, node[3][1]))
        found = sorted(self.free(body) - allowed)
        if not found:
            return []
        result = f"({node[3][0]} ({' '.join(sorted(allowed | set(found)))}))"
        return [f"free in the body, and no dependency of the result: {', '.join(found)}", f"a result that may depend on it is written {result}"]

    def free(self, e):
        """The variables that are free in an expression."""
        if isinstance(e, str):
            return self.statement.variables_of(e)
        term = self.theory.terms[e[0]]
        operands = dict(zip((str(it[0]) for it in term.binders), e[1:]))
        found = {operands[str(it)] for it in term.node[3][1] if isinstance(operands.get(str(it)), str)}
        for binder, operand in zip(term.binders, e[1:]):
            if len(binder) == 3:
                found |= self.free(operand) - {operands[str(it)] for it in binder[2] if isinstance(operands.get(str(it)), str)}
        return found

    def rule_U14(self):
        nodes = self.path_to(self.at)
        dummy = nodes[-1] if nodes and isinstance(nodes[-1], list) else None
        if dummy is None or len(dummy) != 2:
            return []
        node = self.theory.sorts[str(dummy[1])]
        return [f"{dummy[0]} is a dummy of the sort {dummy[1]}, which is {' and '.join(str(it) for it in node[2:] if it in ('strict', 'free'))}", self.sort_line(str(dummy[1]))]

    def rule_U15(self):
        return ["compile_draft takes a text with open proofs; compile and spec take finished ones"]


def without_comments(data):
    """The text with blanks in place of those comments in which parentheses stand."""
    if b"--" not in data:
        return data
    return re.sub(rb"(?<![^\s()])--[^\n]*[()][^\n]*", lambda found: b" " * len(found.group()), data)


def cut(text, most=100):
    return text if len(text) <= most else text[:most] + " .."


def explain(source, refusal):
    """Lines on the refusal of a text."""
    return Explaining(source, refusal).lines()
