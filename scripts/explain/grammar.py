"""What the grammar of specifications wants next, behind the first lexemes of a statement."""
NAME, NUMBER, MATH = "a name", "a number", "a math string"
STATEMENTS = ("sort", "pure", "strict", "provable", "free", "term", "axiom", "theorem", "def", "delimiter", "infixl", "infixr", "prefix", "notation", "coercion")
MODIFIERS = ("pure", "strict", "provable", "free")


class Wanted(Exception):
    """What may come next."""

    def __init__(self, options):
        super().__init__()
        self.options = list(options)


def fits(lexeme, option):
    if option == NAME:
        return lexeme.kind == "name" or lexeme.text == "_" and lexeme.kind == "symbol"
    if option in (NUMBER, MATH):
        return lexeme.kind == {NUMBER: "number", MATH: "math"}[option]
    return lexeme.text == option and lexeme.kind != "math"


class Statement:
    """The first lexemes of a statement, which fit. Reads them, and ends with what may come next."""

    def __init__(self, lexemes):
        self.lexemes, self.at = lexemes, 0

    def next(self, *options):
        """Which of these stands next; raises them where nothing stands."""
        if self.at < len(self.lexemes):
            lexeme = self.lexemes[self.at]
            # (a keyword comes before a name)
            for option in sorted(options, key=lambda it: it == NAME):
                if fits(lexeme, option):
                    self.at += 1
                    return option
        raise Wanted(options)

    def read(self):
        word = self.next(*STATEMENTS)
        if word == "sort" or word in MODIFIERS:
            while word != "sort":
                word = self.next(*MODIFIERS[MODIFIERS.index(word) + 1 :], "sort")
            self.next(NAME)
            self.next(";")
        elif word in ("term", "axiom", "theorem", "def"):
            self.next(NAME)
            self.groups(word)
            self.tail(word)
        elif word == "delimiter":
            self.next(MATH)
            if self.next(MATH, ";") == MATH:
                self.next(";")
        elif word == "notation":
            self.notation()
        elif word == "coercion":
            for it in (NAME, ":", NAME, ">", NAME, ";"):
                self.next(it)
        else:
            for it in (NAME, ":", MATH, "prec"):
                self.next(it)
            self.next(NUMBER, "max")
            self.next(";")

    def groups(self, word):
        while (opened := self.next("{", "(", ":")) != ":":
            dots = (".",) if word == "def" else ()
            while (found := self.next(NAME, *dots, ":")) != ":":
                if found == ".":
                    self.next(NAME)
            closing = "}" if opened == "{" else ")"
            if word in ("axiom", "theorem") and opened == "(" and self.next(NAME, MATH) == MATH:
                self.next(closing)
            else:
                if word not in ("axiom", "theorem") or opened == "{":
                    self.next(NAME)
                while self.next(NAME, closing) != closing:
                    pass

    def tail(self, word):
        if word in ("axiom", "theorem"):
            while True:
                if self.next(MATH, NAME) == MATH:
                    if self.next(">", ";") == ";":
                        return
                else:
                    while self.next(NAME, ">") != ">":
                        pass
        ends = (">", ";") if word == "term" else ("=", ";")
        while True:
            self.next(NAME)
            while (found := self.next(NAME, *ends)) == NAME:
                pass
            if found == ";":
                return
            if found == "=":
                self.next(MATH)
                self.next(";")
                return

    def notation(self):
        self.next(NAME)
        self.groups("notation")
        self.next(NAME)
        while self.next(NAME, "=") != "=":
            pass
        options = ("(", NAME)
        while (found := self.next(*options)) not in (":", ";"):
            options = ("(", NAME, ":", ";")
            if found == "(":
                self.next(MATH)
                self.next(":")
                self.next(NUMBER, "max")
                self.next(")")
        if found == ":":
            self.next(NUMBER, "max")
            self.next("lassoc", "rassoc")
            self.next(";")


def wanted_behind(lexemes):
    """What may come behind these lexemes; none where the statement is whole."""
    try:
        Statement(lexemes).read()
    except Wanted as wanted:
        return wanted.options
    return []
