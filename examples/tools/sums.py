"""sums N DIR: writes DIR/sums.mm0, which claims N + N = 2 N of numbers in strokes, and DIR/sums.mmu, which proves it."""
import sys

SPEC = """provable sort wff; sort nat;
term eq (a b: nat): wff; infixl eq: $=$ prec 50;
term zero: nat; term suc (a: nat): nat; prefix suc: $S$ prec max;
term add (a b: nat): nat; infixl add: $+$ prec 64;
axiom trans (a b c: nat): $ a = b $ > $ b = c $ > $ a = c $;
axiom suc_eq (a b: nat): $ a = b $ > $ S a = S b $;
axiom add_zero (a: nat): $ a + zero = a $;
axiom add_suc (a b: nat): $ a + S b = S ( a + b ) $;
theorem sum: $ %s + %s = %s $;
"""
TEXT = """(sort wff provable) (sort nat)
(term eq ((a nat ()) (b nat ())) (wff ()))
(term zero () (nat ())) (term suc ((a nat ())) (nat ())) (term add ((a nat ()) (b nat ())) (nat ()))
(axiom trans ((a nat ()) (b nat ()) (c nat ())) ((eq a b) (eq b c)) (eq a c))
(axiom suc_eq ((a nat ()) (b nat ())) ((eq a b)) (eq (suc a) (suc b)))
(axiom add_zero ((a nat ())) () (eq (add a zero) a))
(axiom add_suc ((a nat ()) (b nat ())) () (eq (add a (suc b)) (suc (add a b))))
"""
STEP = """(trans ((add {0} (suc {1})) (suc (add {0} {1})) (suc {2})) (add_suc ({0} {1}))
(suc_eq ((add {0} {1}) {2}) {3}))"""  # {3} proves {0} + {1} = {2}; this proves {0} + S {1} = S {2}

def numeral(k): return "(suc " * k + "zero" + ")" * k
def equation(number, m, k): return f"(eq (add {number(m)} {number(k)}) {number(m + k)})"
def spec(n): return SPEC % tuple("S " * k + "zero" for k in (n, n, 2 * n))
def text(n):
    proof = f"(add_zero ({numeral(n)}))"
    for k in range(n):
        proof = STEP.format(numeral(n), numeral(k), numeral(n + k), proof)
    return TEXT + f"(theorem sum () () {equation(numeral, n, n)} () {proof})\n"

if __name__ == "__main__":
    for name, made in (("sums.mm0", spec(int(sys.argv[1]))), ("sums.mmu", text(int(sys.argv[1])))):
        print(name, open(f"{sys.argv[2]}/{name}", "w").write(made))
