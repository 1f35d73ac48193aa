"""Prints expressions in the specification's notations, and reads what is printed back by the specification's rules."""
import re
from dataclasses import dataclass
from html import escape, unescape
from typing import NamedTuple, Optional

from .lexemes import Unreadable
from .notations import Constant, Formula, by_name

LONGEST = 4096  # the most tokens that a formula of a specification may have
_GLUE = "\0"


class _Literal(NamedTuple):
    """A constant as it stands in HTML, or an operand's place: its number, sort, and precedences."""

    constant: Optional[str]
    index: int = 0
    sort: str = ""
    level: float = 0
    left: Optional[float] = None


class Printer:
    """How each term is written."""

    def __init__(self, theory, symbols=()):
        self.theory, self.notations, self.symbols = theory, theory.notations, symbols
        self._forms = {}
        self.coercions = {it.name for path in self.notations.paths.values() for it in path}
        self.parentheses = self._glued("("), self._glued(")")
        # Around a constant alone `typeset` takes them away.
        self.around_constant = ("<s>(</s>", "<s>)</s>") if symbols else self.parentheses

    def form(self, term):
        """The form in which a term is written, and its literals."""
        made = self._forms.get(term)
        if made is None:
            form = self._notation(term) or by_name(term, term.written)
            literals = [_Literal(self._glued(it.text)) if isinstance(it, Constant)
                        else _Literal(None, it.index, term.parameters[it.index].sort, it.level, it.left)
                        for it in form.literals]
            made = self._forms[term] = form, literals
        return made

    def _notation(self, term):
        """A notation of the term that can be read at the end of the specification."""
        for form in self.notations.forms.get(term.declared.name, ()) if term.declared else ():
            table = self.notations.leading if isinstance(form.literals[0], Constant) else self.notations.infix
            if table[form.constants[0]] is form and all(map(self.notations.is_token, form.constants)):
                return form
        return None

    def token(self, word):
        """A token in HTML; one that has a symbol is marked, so that `typeset` puts it there when all is read back."""
        shown = escape(word, quote=False)
        return f"<u>{shown}</u>" if word in self.symbols else shown

    def _glued(self, word):
        """A token in HTML, with a mark where a delimiter makes the space beside it needless. Browsers would break an arrow."""
        before = _GLUE if word[0] in self.notations.right else ""
        after = _GLUE if word[-1] in self.notations.left else ""
        shown = self.token(word)
        return before + (f"<span>{shown}</span>" if "-" in word and len(word) > 1 else shown) + after


def _linked(word, address):
    """A constant as a link, its marks around it."""
    inner = word.strip(_GLUE)
    before, _, after = word.partition(inner)
    return f'{before}<a href="{address}">{inner}</a>{after}'


def _spaced(words):
    text = " ".join(words)
    return text.replace(_GLUE + " ", "").replace(" " + _GLUE, "").replace(_GLUE, "") if _GLUE in text else text


class Page:
    """Prints the expressions of one statement in HTML."""

    def __init__(self, printer, trees):
        self.printer, self.trees = printer, trees
        shown = ((printer.token(it.name), "b" if it.bound else "i") for it in trees.variables)
        self._variables = [f"<{mark}>{name}</{mark}>" for name, mark in shown]

    def formula(self, number, link=None):
        """A formula; with `link`, which gives an address for a term, its constants lead to their terms."""
        return self._written(self._bare(number, self._is_read_as_formula), link)

    def expression(self, number, sort, link=None):
        """An expression as it stands where one of this sort is asked for."""
        return self._written(self._bare(number, self._is_read_as(sort)), link)

    def is_long(self, number):
        return self.trees.sizes[number] > LONGEST

    def _written(self, number, link):
        words = []
        self._write(number, 0, None, words, link)
        return _spaced(words)

    def _write(self, number, level, left, words, link):
        if number < len(self._variables):
            words.append(self._variables[number])
            return
        printer, term, operands = self.printer, self.trees.heads[number], self.trees.operands[number]
        form, literals = printer.form(term)
        is_inside = form.level < level and not (form.groups_left and form.level == left)
        parentheses = printer.parentheses if operands else printer.around_constant
        if is_inside:
            words.append(parentheses[0])
        for constant, index, sort, inner, inner_left in literals:
            if constant is None:
                operand = operands[index]
                if printer.coercions:
                    operand = self._bare(operand, self._is_read_as(sort))
                self._write(operand, inner, inner_left, words, link)
            else:
                words.append(_linked(constant, link(term)) if link else constant)
        if is_inside:
            words.append(parentheses[1])

    def _bare(self, number, is_read):
        """What is left of an expression without the coercions at its top that a reader puts there."""
        found, inner, path = number, number, []
        while not self.trees.is_variable(inner):
            term = self.trees.heads[inner]
            if not term.declared or term.declared.name not in self.printer.coercions:
                break
            inner = self.trees.operands[inner][0]
            path.insert(0, term.declared)
            if is_read(self.trees.sort(inner), path):
                found = inner
        return found

    def _is_read_as(self, sort):
        paths = self.printer.notations.paths
        return lambda low, path: paths.get((low, sort)) == tuple(path)

    def _is_read_as_formula(self, low, path):
        theory, paths = self.printer.theory, self.printer.notations.paths
        ends = [it for it in theory.provable if (low, it) in paths]
        return low not in theory.provable and len(ends) == 1 and paths[low, ends[0]] == tuple(path)


@dataclass
class _Written:
    """A term under the name by which it is written."""

    name: str
    parameters: list
    sort: str


class ReadBack:
    """Reads printed expressions by the specification's rules, and compares what is read with what was to be printed."""

    def __init__(self, printer):
        self.printer, self.count = printer, 0
        self.theory = printer.theory
        self.notations = printer.notations
        self.provable = printer.theory.provable
        self.terms = dict(printer.theory.terms)

    def add(self, term):
        """A term that the specification doesn't declare, or not under this name."""
        if term.written not in self.terms:
            self.terms[term.written] = _Written(term.name if term.declared else term.written, term.parameters, term.sort)

    def check(self, trees, number, html, sort=None):
        """Fails where what is printed isn't read as this expression."""
        variables = {it.name: it for it in trees.variables}
        text = plain(html)
        try:
            formula = Formula(text, 0, self, variables)
            tree = formula.of_sort(sort) if sort else formula.statement()
        except Unreadable as fault:
            raise AssertionError(f"{text!r} isn't read back: {fault}") from fault
        if not self._is_same(trees, number, tree):
            raise AssertionError(f"{text!r} is read back as {tree!r}")
        self.count += 1

    def _is_same(self, trees, number, tree):
        if isinstance(tree, str):
            return trees.is_variable(number) and trees.variables[number].name == tree
        if trees.is_variable(number):
            return False
        term, operands = trees.heads[number], trees.operands[number]
        if (term.name if term.declared else term.written) != tree[0] or len(operands) != len(tree) - 1:
            return False
        for operand, read in zip(operands, tree[1:]):
            if not self._is_same(trees, operand, read):
                return False
        return True


def typeset(html, symbols):
    """HTML with symbols in the place of marked tokens, and without parentheses around a constant alone."""
    if not symbols:
        return html
    html = html.replace("<s>(</s> ", "").replace(" <s>)</s>", "")
    shown = lambda it: f'<span title="{it[1]}">{escape(symbols[unescape(it[1])], quote=False)}</span>'
    return re.sub("<u>([^<]*)</u>", shown, html)


def plain(html):
    """The text of a piece of HTML."""
    return unescape(re.sub(r"<[^>]*>", "", html))
