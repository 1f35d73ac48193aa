"""Lemmas of propositional logic for `rw` and `prop`: what is had under a context. A source names its implication, its negation,
the axioms and modus ponens,

    propositional im not ax_1 ax_2 ax_3 ax_mp;

and a lemma is written as a local theorem where it is cited first. Where the source or an import has a theorem that says the
same, that one is cited. A context of several formulas is ~(a -> ~b), which says both."""
from .logic import App, instance, walk
from .places import Source
from .sources import SourceReader
from .specification import Reader, Theory

SPECIFICATION = """delimiter $ ( ~ $ $ ) $;
provable sort wff;
term im (a b: wff): wff; infixr im: $->$ prec 25;
term not (a: wff): wff; prefix not: $~$ prec 41;
axiom ax_1 (a b: wff): $ a -> b -> a $;
axiom ax_2 (a b c: wff): $ (a -> b -> c) -> (a -> b) -> a -> c $;
axiom ax_3 (a b: wff): $ (~a -> ~b) -> b -> a $;
axiom ax_mp (a b: wff): $ a -> b $ > $ a $ > $ b $;
"""
LEMMAS = """
local theorem a1i (a b: wff): $ a $ > $ b -> a $ = ax_mp(ax_1, h);
local theorem a2i (a b c: wff): $ a -> b -> c $ > $ (a -> b) -> a -> c $ = ax_mp(ax_2, h);
local theorem mpd (a b c: wff): $ a -> b $ > $ a -> b -> c $ > $ a -> c $ = ax_mp(a2i(h2), h1);
local theorem id (a: wff): $ a -> a $ = mpd(ax_1[b := $ a $], ax_1);
local theorem syl (a b c: wff): $ b -> c $ > $ a -> b $ > $ a -> c $ = mpd(h2, a1i(h1));
local theorem sylc (a b c d: wff): $ b -> c -> d $ > $ a -> b $ > $ a -> c $ > $ a -> d $ = mpd(h3, syl(h1, h2));
local theorem a2d (a b c d: wff): $ a -> b -> c -> d $ > $ a -> (b -> c) -> b -> d $ = syl(ax_2, h);
local theorem a3d (a b c: wff): $ a -> ~b -> ~c $ > $ a -> c -> b $ = syl(ax_3, h);
local theorem syld (a b c d: wff): $ a -> b -> c $ > $ a -> c -> d $ > $ a -> b -> d $ = mpd(h1, a2d(syl(ax_1, h2)));
local theorem syl5 (a b c d: wff): $ b -> c $ > $ a -> c -> d $ > $ a -> b -> d $ = syld(a1i(h1), h2);
local theorem syl6 (a b c d: wff): $ c -> d $ > $ a -> b -> c $ > $ a -> b -> d $ = syld(h2, a1i(h1));
local theorem com12 (a b c: wff): $ a -> b -> c $ > $ b -> a -> c $ = syl(a2i(h), ax_1);
local theorem mpcom (a b: wff): $ a -> (a -> b) -> b $ = com12(id);
local theorem imidm (a b: wff): $ (a -> a -> b) -> a -> b $ = mpd(a1i(id), ax_2);
local theorem imim2i (a b c: wff): $ b -> c $ > $ (a -> b) -> a -> c $ = a2i(a1i(h));
local theorem imim1 (a b c: wff): $ (a -> b) -> (b -> c) -> a -> c $ = com12(a2d(ax_1));
local theorem absurd (a b: wff): $ ~a -> a -> b $ = a3d(ax_1);
local theorem dne (a: wff): $ ~~a -> a $ = ax_mp(imidm, a3d(absurd));
local theorem notnot1 (a: wff): $ a -> ~~a $ = ax_mp(ax_3, dne);
local theorem pm2_18 (a: wff): $ (~a -> a) -> a $ = ax_mp(imidm, a3d(a2i(absurd)));
local theorem con1i (a b: wff): $ ~a -> b $ > $ ~b -> a $ = ax_mp(ax_3, syl(notnot1, h));
local theorem con2 (a b: wff): $ (a -> ~b) -> b -> ~a $ = a3d(syl5(dne, id));
local theorem con3 (a b: wff): $ (a -> b) -> ~b -> ~a $ = syl(con2, imim2i(notnot1));
local theorem con3i (a b: wff): $ a -> b $ > $ ~b -> ~a $ = ax_mp(con3, h);
local theorem pm2_61 (a b: wff): $ (a -> b) -> (~a -> b) -> b $ = syl6(pm2_18, syl(imim1, con3));
local theorem cases (a b: wff): $ a -> b $ > $ ~a -> b $ > $ b $ = ax_mp(ax_mp(pm2_61, h1), h2);
local theorem nimp1 (a b: wff): $ ~(a -> b) -> a $ = con1i(absurd);
local theorem nimp2 (a b: wff): $ ~(a -> b) -> ~b $ = con3i(ax_1);
local theorem nimp (a b: wff): $ a -> ~b -> ~(a -> b) $ = syl(con3, mpcom);
local theorem anl (a b: wff): $ ~(a -> ~b) -> a $ = nimp1;
local theorem anr (a b: wff): $ ~(a -> ~b) -> b $ = syl(dne, nimp2);
local theorem ian (a b: wff): $ a -> b -> ~(a -> ~b) $ = syl(con2, mpcom);
local theorem anwl (a b c: wff): $ a -> c $ > $ ~(a -> ~b) -> c $ = syl(h, anl);
local theorem anwr (a b c: wff): $ b -> c $ > $ ~(a -> ~b) -> c $ = syl(h, anr);
local theorem imp (a b c: wff): $ a -> b -> c $ > $ ~(a -> ~b) -> c $ = sylc(h, anl, anr);
local theorem exp (a b c: wff): $ ~(a -> ~b) -> c $ > $ a -> b -> c $ = syl6(h, ian);
"""
AXIOMS = ("ax_1", "ax_2", "ax_3", "ax_mp")


class Kit:
    """The lemmas, in the names of a source. For a scope it is a development like those that are imported."""

    name, imports, said, forms = "propositional logic", (), (), None

    def __init__(self, names, sort, place):
        self.im, self.not_, *axioms = names
        self.axioms = dict(zip(AXIOMS, axioms))
        own = {it: "prop_" + it for it in self.lemma_names()} | self.axioms
        own |= {"im": self.im, "not": self.not_, "wff": sort}
        self.theory, self.proofs, self.sayings, self.made = Theory(), {}, {}, {}
        for made in Reader(Source("propositional logic", renamed(SPECIFICATION, own)), self.theory).specification():
            self.proofs[made.name] = None
        for item in SourceReader(Source("propositional logic", renamed(LEMMAS, own)), self.theory).items():
            item.place = place
            self.theory.add(item.made, place)
            self.proofs[item.name] = item
            self.sayings[item.name.removeprefix("prop_")] = self.form(item.made)

    @staticmethod
    def lemma_names():
        return [line.split()[2] for line in LEMMAS.splitlines() if line]

    def known_form(self, theorem):
        """The form of a theorem, which is made once."""
        if theorem not in self.made:
            self.made[theorem] = self.form(theorem)
        return self.made[theorem]

    def form(self, theorem):
        """What a theorem says, whatever its variables are called and with definitions unfolded; nothing where other terms are in
        it than implication and negation."""
        numbers, formulas = {}, [*(e for _, e in theorem.hypotheses), theorem.conclusion]
        made = tuple(self.form_of(it, numbers) for it in formulas)
        return None if None in made or any(it.bound for it in theorem.binders) else made

    def form_of(self, e, numbers):
        e = unfolded_connective(walk(e))
        if not isinstance(e, App):
            return numbers.setdefault(e, len(numbers))
        if e.term.name not in (self.im, self.not_):
            return None
        parts = tuple(self.form_of(it, numbers) for it in e.operands)
        return None if None in parts else (e.term.name, *parts)


def renamed(text, names):
    """The text with others for its names, which stand between what isn't part of a name."""
    out, word = [], ""
    for char in text + " ":
        if char.isalnum() or char == "_":
            word += char
            continue
        out += [names.get(word, word), char]
        word = ""
    return "".join(out)


def unfolded_connective(e):
    """The expression without the definitions at its top that have no variables of their own."""
    while isinstance(e, App) and e.term.body is not None and not e.term.dummies:
        e = walk(instance(e.term.body, dict(zip(e.term.binders, e.operands))))
    return e
