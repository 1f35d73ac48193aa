"""Reads formulas by the grammar that the syntax axioms of a database spell.

Two readers give the same trees. `Grammar.read` takes the first reading that it finds, from the left with what was found
before: it is quick, and right where no production begins with what it makes. `Grammar.read_all` finds every reading, so that
it can tell where there are two; it takes any grammar, left recursion and empty productions too."""


class _Node:
    """A place in the tree of all productions of a typecode, by what follows."""

    __slots__ = ("constants", "codes", "term")

    def __init__(self):
        self.constants, self.codes, self.term = {}, {}, None


class _Tree:
    """A reading of some symbols: of one variable (`kids` is its place), or of a term and its operands as they stand."""

    __slots__ = ("term", "kids", "is_clear")

    def __init__(self, term, kids):
        self.term, self.kids, self.is_clear = term, kids, True


class Grammar:
    """Terms are numbered as they are added. A formula is read as a list of numbers: of a variable's place, or ~ of a term,
    operands before it in the order of its parameters."""

    def __init__(self):
        self._roots, self._orders, self._heads = {}, [], []
        self._first = None  # of each typecode the constants with which it can begin, and the typecodes

    def add(self, code, items, order):
        """`items`: ("constant", symbol) or ("code", typecode); `order[i]`: the occurrence that is the parameter i."""
        node, self._first = self._roots.setdefault(code, _Node()), None
        for kind, it in items:
            node = (node.constants if kind == "constant" else node.codes).setdefault(it, _Node())
        if node.term is not None:
            raise ValueError("the grammar has one production twice")
        node.term = len(self._orders)
        self._orders.append(order)
        self._heads.append(~node.term)

    def read(self, code, symbols, variables):
        """`variables`: the typecode and the place of each."""
        if self._first is None:
            self._analyse()
        if self._is_plain:
            found = _Reading(self, symbols, variables).phrase(code, 0)
            if found and found[1] == len(symbols):
                return found[0]
        return self.read_all(code, symbols, variables)

    def begins(self, code):
        """The constants, and the typecodes of variables, with which an expression can begin."""
        if self._first is None:
            self._analyse()
        return self._first.get(code, set())

    def read_all(self, code, symbols, variables):
        """As `read`, with a fault where there is a second reading."""
        if self._first is None:
            self._analyse()
        whole = _Chart(self, symbols, variables).whole(code)
        if whole is None:
            raise ValueError("the grammar of the database has no reading of it")
        made, open_ = [], [whole]
        while open_:
            it = open_.pop()
            if not isinstance(it, _Tree):
                made.append(it)
            elif it.term is None:
                made.append(it.kids)
            elif not it.is_clear:
                raise ValueError("the grammar of the database has two readings of it, and a specification says one")
            else:
                open_.append(self._heads[it.term])
                open_ += [it.kids[i] for i in reversed(self._orders[it.term])]
        return made

    def _analyse(self):
        """What each typecode can begin with, and whether none begins with itself and none is empty."""
        roots = self._roots
        leads = {code: set(root.codes) for code, root in roots.items()}
        self._is_plain = all(root.term is None for root in roots.values())
        self.order, left = [], dict(leads)
        while left:
            ready = [code for code, inner in left.items() if not inner & left.keys()]
            self._is_plain &= bool(ready)
            for code in ready or list(left):
                self.order.append(code)
                del left[code]
        self._first = {}
        for code in self.order:
            inner = leads[code]
            self._first[code] = set(roots[code].constants).union(inner, *(self._first.get(it, ()) for it in inner))

    @property
    def is_plain(self):
        return self._is_plain


class _Reading:
    """The quick reader: of each typecode at each place the first phrase that is found, and its end."""

    def __init__(self, grammar, symbols, variables):
        self.roots, self.orders, self.heads = grammar._roots, grammar._orders, grammar._heads
        self.first, self.symbols, self.variables = grammar._first, [*symbols, None], variables
        self.known = {}

    def phrase(self, code, at):
        key = code, at
        if key in self.known:
            return self.known[key]
        symbol, made = self.symbols[at], None
        variable = self.variables.get(symbol)
        if variable is not None and variable[0] == code:
            made = [variable[1]], at + 1
        elif (symbol if variable is None else variable[0]) in self.first.get(code, ()):
            root = self.roots[code]
            after = root.constants.get(symbol)
            if after is not None:
                made = self._walk(after, at + 1, ())
            if made is None:
                made = self._operands(root, at, ())
        self.known[key] = made
        return made

    def _walk(self, node, at, kids):
        after = node.constants.get(self.symbols[at])
        if after is not None:
            made = self._walk(after, at + 1, (*kids,))
            if made is not None:
                return made
        if node.codes:
            made = self._operands(node, at, kids)
            if made is not None:
                return made
        if node.term is None:
            return None
        made = []
        for i in self.orders[node.term]:
            made += kids[i]
        made.append(self.heads[node.term])
        return made, at

    def _operands(self, node, at, kids):
        for code, after in node.codes.items():
            found = self.phrase(code, at)
            if found is not None:
                made = self._walk(after, found[1], (*kids, found[0]))
                if made is not None:
                    return made
        return None


class _Chart:
    """The reader that finds all: from the last place to the first, what can stand there, by typecode and end."""

    def __init__(self, grammar, symbols, variables):
        self.grammar, self.symbols = grammar, symbols
        self.found = [None] * (len(symbols) + 1)
        for at in range(len(symbols), -1, -1):
            here = self.found[at] = {code: {} for code in grammar.order}
            variable = variables.get(symbols[at]) if at < len(symbols) else None
            if variable is not None:
                here.setdefault(variable[0], {})[at + 1] = _Tree(None, variable[1])
            while self._pass(at) and not grammar.is_plain:
                pass

    def whole(self, code):
        return self.found[0].get(code, {}).get(len(self.symbols))

    def _pass(self, at):
        """Adds what follows from what was found; whether it was anything."""
        is_more = False
        for code in self.grammar.order:
            ends = self.found[at][code]
            for term, kids, end in list(self._walk(self.grammar._roots[code], at, ())):
                known = ends.get(end)
                if known is None:
                    ends[end] = _Tree(term, kids)
                    is_more = True
                elif known.term != term or any(a is not b for a, b in zip(known.kids, kids)):
                    known.is_clear = False
        return is_more

    def _walk(self, node, at, kids):
        if node.term is not None:
            yield node.term, kids, at
        after = node.constants.get(self.symbols[at]) if at < len(self.symbols) else None
        if after is not None:
            yield from self._walk(after, at + 1, kids)
        for code, after in node.codes.items():
            for end, it in list(self.found[at].get(code, {}).items()):
                yield from self._walk(after, end, (*kids, it))
