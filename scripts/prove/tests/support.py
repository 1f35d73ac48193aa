"""What the tests share."""
import os
import tempfile
from contextlib import contextmanager

from prove.command import examined
from prove.development import EXAMPLES

os.environ["MZ_EXPLAIN"] = "0"
LIBRARIES = ("propositional", "predicate", "arithmetic", "classes", "primes", "groups")

MONOID = """delimiter $ ( $ $ ) $;
provable sort wff;
sort elt;
term eq (a b: elt): wff;
infixl eq: $=$ prec 50;
term one: elt;
prefix one: $1$ prec max;
term mul (a b: elt): elt;
infixl mul: $*$ prec 70;
term all {x: elt} (p: wff x): wff;
prefix all: $A.$ prec 41;
axiom eq_refl (a: elt): $ a = a $;
axiom eq_symm (a b: elt): $ a = b $ > $ b = a $;
axiom eq_trans (a b c: elt): $ a = b $ > $ b = c $ > $ a = c $;
axiom mul_eq (a b c d: elt): $ a = b $ > $ c = d $ > $ a * c = b * d $;
axiom one_mul (a: elt): $ 1 * a = a $;
axiom mul_one (a: elt): $ a * 1 = a $;
axiom mul_assoc (a b c: elt): $ (a * b) * c = a * (b * c) $;
axiom gen {x: elt} (p: wff x): $ p $ > $ A. x p $;
axiom drop {x: elt} (p: wff): $ A. x p $ > $ p $;
def cancels (a b: elt): wff = $ a * b = 1 $;
def central (a: elt) {.x: elt}: wff = $ A. x a * x = x * a $;
"""

LOGIC = """delimiter $ ( ~ $ $ ) $;
provable sort wff;
sort nat;
term im (a b: wff): wff; infixr im: $->$ prec 25;
term not (a: wff): wff; prefix not: $~$ prec 41;
def an (a b: wff): wff = $ ~(a -> ~b) $; infixl an: $/\\$ prec 34;
def or (a b: wff): wff = $ ~a -> b $; infixl or: $\\/$ prec 30;
def iff (a b: wff): wff = $ (a -> b) /\\ (b -> a) $; infixl iff: $<->$ prec 20;
axiom ax_1 (a b: wff): $ a -> b -> a $;
axiom ax_2 (a b c: wff): $ (a -> b -> c) -> (a -> b) -> a -> c $;
axiom ax_3 (a b: wff): $ (~a -> ~b) -> b -> a $;
axiom ax_mp (a b: wff): $ a -> b $ > $ a $ > $ b $;
term eq (a b: nat): wff; infixl eq: $=$ prec 50;
term all {x: nat} (p: wff x): wff; prefix all: $A.$ prec 41;
def ex {x: nat} (p: wff x): wff = $ ~A. x ~p $; prefix ex: $E.$ prec 41;
term zero: nat; prefix zero: $0$ prec max;
term add (a b: nat): nat; infixl add: $+$ prec 64;
def sum (a b c: nat) {.x: nat}: wff = $ E. x (a + b) + x = c $;
axiom eqid (a: nat): $ a = a $;
axiom eqcom (a b: nat): $ a = b -> b = a $;
axiom eqtr (a b c: nat): $ a = b -> b = c -> a = c $;
axiom addeq (a b c d: nat): $ a = b -> c = d -> a + c = b + d $;
axiom eqeq (a b c d: nat): $ a = b -> c = d -> (a = c <-> b = d) $;
axiom add0 (a: nat): $ a + 0 = a $;
axiom addcom (a b: nat): $ a + b = b + a $;
axiom addass (a b c: nat): $ a + b + c = a + (b + c) $;
axiom biid (a: wff): $ a <-> a $;
axiom bicom (a b: wff): $ (a <-> b) -> (b <-> a) $;
axiom bitr (a b c: wff): $ (a <-> b) -> (b <-> c) -> (a <-> c) $;
axiom bi1 (a b: wff): $ (a <-> b) -> a -> b $;
axiom imeq (a b c d: wff): $ (a <-> b) -> (c <-> d) -> (a -> c <-> b -> d) $;
axiom noteq (a b: wff): $ (a <-> b) -> (~a <-> ~b) $;
axiom albii {x: nat} (p q: wff x): $ p <-> q $ > $ A. x p <-> A. x q $;
axiom albidv {x: nat} (a: wff) (p q: wff x): $ a -> (p <-> q) $ > $ a -> (A. x p <-> A. x q) $;
"""


def library(name):
    writer, problems = examined(os.path.join(EXAMPLES, name))
    assert not problems, problems
    return writer


@contextmanager
def room(**files):
    """A folder with these files, NAME_ENDING for NAME.ENDING."""
    with tempfile.TemporaryDirectory(prefix="prove-tests-") as path:
        for name, text in files.items():
            with open(os.path.join(path, ".".join(name.rsplit("_", 1))), "w", encoding="ascii") as file:
                file.write(text)
        yield path


@contextmanager
def source(theorem, proofs, spec=MONOID):
    """A source with a specification that ends with this theorem."""
    with room(a_mm0=spec + theorem, a_proofs=proofs) as path:
        yield examined(os.path.join(path, "a.proofs"))


def said(problems):
    """The problems as they are printed, with the bare names of files."""
    text = "\n".join(map(str, problems))
    return "\n".join(" ".join(word[word.rfind("/") + 1 :] if word.startswith("/") else word for word in line.split(" "))
                     for line in text.split("\n"))
