"""Writes the pages of a development."""
import json
import os
import re
import shutil
from dataclasses import dataclass, field
from html import escape
from typing import NamedTuple, Optional

from . import pages, sources
from .crew import Crew
from .files import Files
from .kept import END, Kept, digest, of_scripts
from .names import Names
from .pages import link
from .printer import Page, Printer, ReadBack, plain, typeset
from .proofs import Proof, outline
from .specification import Notation, read_specification
from .texts import Term, Text
from .trees import Trees

HERE = os.path.dirname(os.path.abspath(__file__))
ROWS = 400  # statements on one page of the list
BATCH = 100  # axioms and theorems that a process prints at a time
LONGEST_OVER = 40  # symbols of an expression that is shown over a link


@dataclass
class Fate:
    """What is known of an assertion besides what it says: on which axioms it rests, by number, and whether on a gap."""

    axioms: int = 0
    is_gapped: bool = False
    as_cited: str = ""  # a digest of what the pages of those that cite it are made of


@dataclass
class Counts:
    pages: int = 0
    steps: int = 0
    theorems: int = 0
    formulas: int = 0
    kept: int = 0


@dataclass
class Uses:
    """What other statements have to do with a statement: a list of links under each heading."""

    cited: list = field(default_factory=list)
    unfolded: list = field(default_factory=list)
    mentioned: list = field(default_factory=list)

    def html(self):
        return (pages.listed("Cited by", self.cited) + pages.listed("Unfolded by", self.unfolded) +
                pages.listed("In the statements of", self.mentioned))


@dataclass
class Prepared:
    """A statement that is to be printed, with what its page needs."""

    it: object
    fate: Fate
    before: object
    behind: object
    made_of: str  # a digest of all that its page is made of; empty where the page is always printed


class Listed(NamedTuple):
    """What is kept of a page: what it is made of, its name, its row in a list, its entry for the search, a link where it has a
    gap, and how many steps its proof has; an axiom has none."""

    page: str
    made_of: str
    name: str
    row: str
    found: str
    gapped: str
    steps: Optional[int]


@dataclass
class Printed:
    """What comes of printing a batch besides its pages."""

    pages: list = field(default_factory=list)
    counts: Counts = field(default_factory=Counts)


class Site:
    def __init__(self, development, folder, processes=None):
        self.development, self.folder = development, folder
        total = len(re.findall(r"\((?:local\s+)?(?:axiom|theorem)\s", development.text))
        processes = processes or (os.cpu_count() if total > BATCH else 1)
        self.crew, self.batch = Crew(processes, self._take, total), []
        self.statements, self.theory = read_specification(development.specification)
        self.names = Names(self.statements, self.theory, development.is_made)
        self.text = Text(development.text, self.theory, self.names)
        self.printer = Printer(self.theory, development.symbols)
        self.read_back = ReadBack(self.printer)
        self.files = Files(it for it in self.statements if it.space)
        self.lines = _lines(self.statements, development.specification)
        self.parts = sources.cut(self.statements, len(development.specification))
        self.source_page = {id(it): sources.part_name(i) for i, part in enumerate(self.parts) for it in part[2]}
        self.notations = _by_term(self.statements)
        self.fates, self.axioms, self.uses, self.links, self.resting = {}, [], {}, {}, {}
        grammar = [development.specification[it.at : it.end] for it in self.statements if it.space != "assertion"]
        self.grammar = digest(of_scripts(), development.title, development.is_made, grammar, self.names.usual())
        self.printed, self.counts = Printed(), Counts()
        self.rows, self.found, self.gapped = [], [], []
        self.list_parts, self.symbols = [], {}

    def write(self):
        """Writes all pages, and says how many there are."""
        for it in ("", "sorts", "terms", "theorems"):
            os.makedirs(os.path.join(self.folder, it), exist_ok=True)
        for it in ("style.css", "find.js", "fold.js"):
            shutil.copyfile(os.path.join(HERE, it), os.path.join(self.folder, it))
        self.read_before, self.kept = self.read_back.count, Kept(self.folder)
        self._sources()
        self._sorts()
        before = None
        for here, behind in _with_next(self.text.statements()):
            self._statement(before, here, behind)
            before = here
        self._hand_over()
        self.crew.finish()
        self._tails()
        self._index()
        self.kept.finish()
        self.counts.pages += self.printed.counts.pages
        self.counts.formulas += self.read_back.count - self.read_before
        return self.counts

    # Files and links.

    def _put(self, path, text, mode="w"):
        with open(os.path.join(self.folder, path), mode, encoding="utf-8") as file:
            file.write(typeset(text, self.development.symbols))
        self.printed.counts.pages += mode == "w"

    def _file(self, it):
        """The page of a term or an assertion, from the top of the folder."""
        space = "term" if isinstance(it, Term) else "assertion"
        return self.files.of(space, it.name, it.declared is None)

    def _to(self, it):
        made = self.links.get(it)
        if made is None:
            made = self.links[it] = link(f"../{self._file(it)}", it.name)
        return made

    def _navigation(self, up="", before=None, behind=None):
        made = [link(f"{up}index.html", escape(self.development.title)), link(f"{up}spec.html", "Specification")]
        if before:
            made.append(link(f"{up}{self._file(before)}", f"← {before.name}", " class=way rel=prev"))
        if behind:
            made.append(link(f"{up}{self._file(behind)}", f"{behind.name} →", " class=way rel=next"))
        return "".join(made)

    def _said_at(self, declared):
        """A link to a declaration in the specification."""
        address = f"../{self.source_page[id(declared)]}#{sources.anchor(declared)}"
        return f"<p class=soft>{link(address, f'Line {self.lines[id(declared)]} of the specification')}</p>\n"

    # The specification and its sorts.

    def _sources(self):
        text = self.development.specification
        for i, (start, end, statements) in enumerate(self.parts):
            body = sources.source(text, start, end, statements, lambda space, name: self.files.of(space, name, False))
            ways = "".join(link(sources.part_name(j), f"Part {j + 1}", " class=way") for j in range(len(self.parts)))
            navigation = self._navigation() + (ways if len(self.parts) > 1 else "")
            title = f"Specification · {self.development.title}"
            self._put(sources.part_name(i), pages.page(title, navigation, f"<h1>Specification</h1>\n{body}"))
        for it in self.statements:
            it.forget()

    def _sorts(self):
        terms = {}
        for it in self.theory.terms.values():
            terms.setdefault(it.sort, []).append(link("../" + self.files.of("term", it.name, False), it.name))
        for it in self.theory.sorts.values():
            modifiers = f"<p>{' '.join(it.modifiers)}</p>\n" if it.modifiers else ""
            body = (pages.heading("sort", it.name) + pages.about(it.about) + modifiers + self._said_at(it) +
                    pages.listed("Terms of this sort", terms.get(it.name, [])))
            self._put(self.files.of("sort", it.name, False), self._page(it.name, body))

    def _page(self, name, body, before=None, behind=None):
        return pages.page(f"{name} · {self.development.title}", self._navigation("../", before, behind), body, "../")

    # Terms.

    def _statement(self, before, here, behind):
        self.uses[here] = Uses()
        self._file(here)  # which has its name from now on
        if isinstance(here, Term):
            if here.declared is None or here.written != here.name:
                self._hand_over()  # what stands before doesn't know this name
            self.grammar = digest(self.grammar, here.name, here.kind, here.parameters, here.sort, here.needs, here.written, self._file(here))
            self.read_back.add(here)
            self._put(self._file(here), self._page(here.name, self._term(here), before, behind))
            return
        if behind:
            self._file(behind)
        self.batch.append(self._prepared(here, before, behind))
        if len(self.batch) == BATCH:
            self._hand_over()

    def _hand_over(self):
        """Has the pages of what is prepared printed."""
        if self.batch:
            self.crew.hand_over(self.batch, self._print)
            for prepared in self.batch:
                prepared.it.node = prepared.it.trees = None  # what it says is kept as patterns
            self.batch = []

    def _print(self, batch):
        """Prints the pages of a batch; what is found by the way."""
        kept, self.printed = self.printed, Printed()
        count = self.read_back.count
        for it in batch:
            page = self._file(it.it)
            if it.made_of and self.kept.stays(page, it.made_of):
                self.printed.pages.append(Listed(page, *self.kept.before[page]))
                self.printed.counts.kept += 1
            else:
                self._put(page, self._page(it.it.name, self._assertion(it) + END, it.before, it.behind))
        made, self.printed = self.printed, kept
        made.counts.formulas, self.read_back.count = self.read_back.count - count, count
        return made

    def _take(self, made):
        """Takes what was found while a batch was printed."""
        for name in ("pages", "formulas", "kept"):
            setattr(self.counts, name, getattr(self.counts, name) + getattr(made.counts, name))
        for it in made.pages:
            self.kept.note(*it)
            self.found.append(it.found)
            self.gapped += [it.gapped] if it.gapped else []
            self.rows.append((it.name, it.row))
            self.counts.theorems += it.steps is not None
            self.counts.steps += it.steps or 0
            if len(self.rows) == ROWS:
                self._list_part()

    def _term_link(self, term):
        return f"../{self._file(term)}"

    def _term(self, term):
        trees = term.trees or Trees(term.parameters)
        page = Page(self.printer, trees)
        left = trees.apply(term, tuple(range(len(term.parameters))))
        shown = self._expression(page, left, term.sort, self._term_link)
        if term.body is not None:
            body = self._expression(page, term.body, term.sort, self._term_link)
            shown += f" <span class=soft>is defined as</span> {body}"
            self._mention(term, trees.terms_of([term.body]))
        sort = " ".join([link(f"../{self.files.of('sort', term.sort, False)}", term.sort), *term.needs])
        written = "".join(f"<p class=f>{escape(it)}</p>\n" for it in self.notations.get(term.declared and term.name, ()))
        declared = term.declared
        return (pages.heading(term.kind, term.name, declared is None) + pages.about(declared.about if declared else "") +
                pages.variables(term.parameters, term.dummies) + f"<div class='said f'>{shown}</div>\n<p>Sort: {sort}</p>\n" +
                (f"<h2>Notation</h2>{written}" if written else "") + (self._said_at(declared) if declared else ""))

    def _expression(self, page, number, sort, term_link=None):
        if page.is_long(number):
            return _long(page, number)
        made = page.expression(number, sort, term_link)
        self.read_back.check(page.trees, number, made, sort)
        return made

    def _mention(self, it, terms):
        for term in terms:
            if term is not it:
                self.uses[term].mentioned.append(self._to(it))

    # Axioms and theorems.

    def _formula(self, page, number, term_link=None):
        if page.is_long(number):
            return _long(page, number)
        made = page.formula(number, term_link)
        self.read_back.check(page.trees, number, made)
        return made

    def _prepared(self, it, before, behind):
        """What the page of an assertion needs, and what others have to know of it."""
        known = outline(self.text, it) if it.node else None
        self._mention(it, dict.fromkeys(term for pattern in (*it.hypotheses, it.conclusion) for term in pattern if not isinstance(term, int)))
        fate = self.fates[it] = self._fate(it, known)
        fate.as_cited = digest(it.name, self._file(it), fate.is_gapped, it.parameters)
        return Prepared(it, fate, before, behind, self._made_of(it, known, fate, before, behind))

    def _made_of(self, it, known, fate, before, behind):
        """A digest of all that a theorem's page is made of; an axiom's is always printed."""
        if known is None:
            return ""
        about = it.declared.about if it.declared else None
        around = [(one.name, self._file(one)) for one in (before, it, behind) if one]
        cited = [self.fates[one].as_cited for one in known.cited]
        _, rests = self._rests_on(fate)
        said = self.text.source[slice(*it.span)]
        return digest(self.grammar, said, it.parameters, it.names, about, before is None, around, cited, rests, fate.is_gapped)

    def _assertion(self, prepared):
        it, fate = prepared.it, prepared.fate
        proof = Proof(self.text, it) if it.node else None
        trees = proof.trees if proof else it.trees
        given = list(range(len(it.parameters)))
        numbers = [trees.instance(pattern, given) for pattern in (*it.hypotheses, it.conclusion)]
        page = Page(self.printer, trees)
        shown = [self._formula(page, number, self._term_link) for number in numbers]
        self._list(it, page, numbers, prepared, len(proof.steps) if proof else None)
        declared = it.declared
        body = (pages.heading(it.kind, it.name, declared is None) + pages.about(declared.about if declared else "") +
                pages.variables(it.parameters) + pages.apart(it.parameters) +
                pages.said(list(zip(it.names, shown)), shown[-1]))
        if proof:
            body += self._gap_note(proof, fate) + self._steps(it, proof, page) + self._rests(fate, proof)
        return body + self._symbols(trees, proof.expressions() if proof else numbers)

    def _list(self, it, page, numbers, prepared, steps):
        """Notes a statement for the list and for the search."""
        shown = [self._formula(page, number) for number in numbers]
        address = self._file(it)
        kind = f"local {it.kind}" if it.declared is None else it.kind
        is_gapped = prepared.fate.is_gapped
        row = pages.statement_row(it.kind, it.declared is None, address, it.name, shown[:-1], shown[-1], is_gapped)
        words = "; ".join(map(plain, shown[:-1])) + (" ⊢ " if shown[:-1] else "") + plain(shown[-1])
        found = json.dumps([it.name, kind, address, words], ensure_ascii=False, separators=(",", ":"))
        self.printed.pages.append(Listed(address, prepared.made_of, it.name, row, found, link(address, it.name) if is_gapped else "", steps))

    def _list_part(self):
        """Writes a page of the list with what has been noted."""
        name = f"list-{len(self.list_parts) + 1}.html"
        first, last, body = self.rows[0][0], self.rows[-1][0], "".join(row for _, row in self.rows)
        self.rows.clear()
        self.list_parts.append(link(name, f"{first} – {last}"))
        table = pages.rows(("Kind", "Name", "Says"), [body])
        self._put(name, pages.page(f"{first} – {last}", self._navigation(), f"<h1>{first} – {last}</h1>\n{table}"))

    def _fate(self, it, known):
        if known is None:
            self.axioms.append(it)
            return Fate(1 << (len(self.axioms) - 1))
        fate = Fate(0, known.has_gap)
        for other in known.cited:
            fate.axioms |= self.fates[other].axioms
            fate.is_gapped |= self.fates[other].is_gapped
            self.uses[other].cited.append(self._to(it))
        for term in known.unfolded:
            self.uses[term].unfolded.append(self._to(it))
        self._agree(it, fate)
        return fate

    def _agree(self, it, fate):
        """Fails where the program says that a theorem rests on something else."""
        if it.declared is None:
            return
        if self.development.axioms and self._rests_on(fate)[0] != self.development.axioms[it.name]:
            raise AssertionError(f"mz says that {it.name} rests on {self.development.axioms[it.name]}")
        if fate.is_gapped != (it.name in self.development.gaps):
            raise AssertionError(f"mz says otherwise whether {it.name} rests on a gap")

    def _rests_on(self, fate):
        """The names of the axioms on which something rests, and a digest of what its page is made of by them."""
        found = self.resting.get(fate.axioms)
        if found is None:
            axioms = list(self._axioms(fate))
            found = self.resting[fate.axioms] = [it.name for it in axioms], digest(*(self.fates[it].as_cited for it in axioms))
        return found

    def _axioms(self, fate):
        mask = fate.axioms
        while mask:
            yield self.axioms[(mask & -mask).bit_length() - 1]
            mask &= mask - 1

    def _gap_note(self, proof, fate):
        if proof.has_gap:
            return "<p class=gap>This proof has a gap.</p>\n"
        if fate.is_gapped:
            others = ", ".join(self._to(it) for it in proof.cited if self.fates[it].is_gapped)
            return f"<p class=gap>This proof rests on a gap, by {others}.</p>\n"
        return ""

    def _steps(self, it, proof, page):
        by = {"hypothesis": lambda number: f"hypothesis {escape(it.names[number])}",
              "unfolded": lambda terms: "unfolding " + ", ".join(map(self._to, terms)) if terms else "conversion",
              "gap": lambda _: "gap"}
        return pages.steps(([part + 1 for part in step.parts],
                            self._cited(step.by, proof.operands[step], page) if step.kind == "cited" else by[step.kind](step.by),
                            self._formula(page, step.says), step.kind == "gap") for step in proof.steps)

    def _cited(self, other, operands, page):
        """A link to what a step cites. Over it stands what is put in for its variables."""
        given = "; ".join(f"{it.name} := {self._short(page, number, it.sort)}" for it, number in zip(other.parameters, operands))
        shown = link(f"../{self._file(other)}", other.name, f' title="{escape(given)}"' if given else "")
        return shown + (" (gap)" if self.fates[other].is_gapped else "")

    def _short(self, page, number, sort):
        """An expression as plain text; a long one isn't shown."""
        return plain(page.expression(number, sort)) if page.trees.sizes[number] <= LONGEST_OVER else ".."

    def _rests(self, fate, proof):
        axioms = [self._to(it) for it in self._axioms(fate)]
        said = "<h2>Rests on</h2><p>no axiom</p>\n" if not axioms and not fate.is_gapped else ""
        return (said + pages.listed("Rests on the axioms", axioms) +
                pages.listed("Definitions unfolded", list(map(self._to, proof.unfolded))))

    def _symbols(self, trees, numbers):
        """How the terms on a page are written, with links."""
        shown = [self._symbol(term) for term in trees.terms_of(numbers)]
        return f"<h2>Written here</h2><p>{' · '.join(shown)}</p>\n" if shown else ""

    def _symbol(self, term):
        made = self.symbols.get(term)
        if made is None:
            trees = Trees(term.parameters)
            left = trees.apply(term, tuple(range(len(term.parameters))))
            written = self._expression(Page(self.printer, trees), left, term.sort)
            made = self.symbols[term] = f"{self._to(term)} <span class=f>{written}</span>"
        return made

    # What is known at the end.

    def _tails(self):
        """What stands below a page, and changes where others change: where its statement is in the specification, and what uses it."""
        for it, uses in self.uses.items():
            place = self._said_at(it.declared) if it.declared and not isinstance(it, Term) else ""
            tail = place + uses.html()
            if tail:
                self._put(self._file(it), tail, "a")

    def _index(self):
        title = self.development.title
        opening = _opening(self.development.specification)
        table = ""
        if self.list_parts and self.rows:
            self._list_part()
        if self.list_parts:
            table = f"<h2>All statements</h2><ol>{''.join(f'<li>{it}' for it in self.list_parts)}</ol>\n"
        elif self.rows:
            table = "<h2>All statements</h2>" + pages.rows(("Kind", "Name", "Says"), [row for _, row in self.rows])
        terms = [link(self._file(it), it.name) for it in self.text.terms.values()]
        sorts = [link(self.files.of("sort", it, False), it) for it in self.theory.sorts]
        gaps = f"<p class=gap>On a gap rest: {', '.join(self.gapped)}</p>\n" if self.gapped else ""
        search = ('<p><input id=find type=search placeholder="a name, or a part of a formula" autofocus>'
                  " <span id=count class=soft></span></p><table id=found class=wide></table>\n"
                  "<script src=statements.js></script><script src=find.js></script>\n")
        body = (f"<h1>{escape(title)}</h1>\n{pages.about(opening)}<p>mz says: <code>{escape(self.development.verdict)}</code>"
                f"</p>\n{gaps}{search}{pages.listed('Sorts', sorts)}{pages.listed('Terms and definitions', terms)}{table}")
        self._put("index.html", pages.page(title, self._navigation(), body))
        found = ",\n".join(self.found)
        with open(os.path.join(self.folder, "statements.js"), "w", encoding="utf-8") as file:
            file.write(f"const statements = [\n{found}\n];\n")


def _long(page, number):
    return f"<em>a formula of {page.trees.sizes[number]:,} symbols</em>"


def _with_next(items):
    """Each item with the one behind it, or nothing."""
    items = iter(items)
    here = next(items, None)
    while here is not None:
        behind = next(items, None)
        yield here, behind
        here = behind


def _lines(statements, text):
    """The line on which each declaration begins."""
    made, line, at = {}, 1, 0
    for it in statements:
        line += text.count("\n", at, it.at)
        at = it.at
        made[id(it)] = line
    return made


def _by_term(statements):
    """The notations of each term, as they are written."""
    made = {}
    for it in statements:
        if isinstance(it, Notation) and it.name:
            made.setdefault(it.name, []).append(it.text)
    return made


def _opening(text):
    """The comment with which a specification begins, up to its first empty line."""
    words = []
    for line in text.split("\n"):
        if not line.startswith("--") or not line.strip("- "):
            break
        words.append(line.lstrip("-").removeprefix("|").strip("- "))
    return " ".join(words)
