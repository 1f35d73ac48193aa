"""shared N DIR: writes DIR/shared.mmu, which proves what sums.mm0 claims, with a local definition for each number."""
import sys
from sums import STEP, TEXT, equation, numeral

def name(k): return f"n{k}" if k else "zero"
def opened(k): return f"(:unfold {name(k)} () () (suc {name(k - 1)}))"
def spelled(k): return "".join(f"(:unfold {name(i)} () () (suc " for i in range(k, 0, -1)) + "zero" + "))" * k
def theorem(k, claim, proof): return f"(local theorem s{k} () () {claim} () {proof})\n"
def text(n):
    made = [f"(local def {name(k)} () (nat ()) () (suc {name(k - 1)}))\n" for k in range(1, 2 * n + 1)]
    made.append(theorem(0, equation(name, n, 0), f"(add_zero ({name(n)}))"))
    for k in range(n):
        claim, proof = equation(name, n, k + 1), STEP.format(name(n), name(k), name(n + k), f"(s{k} ())")
        sides = f"(eq (add {name(n)} {opened(k + 1)}) {opened(n + k + 1)})"
        made.append(theorem(k + 1, claim, f"(:conv {claim} {sides} {proof})"))
    claim = equation(numeral, n, n)
    made.append(f"(theorem sum () () {claim} () (:conv {claim} (:sym {equation(spelled, n, n)}) (s{n} ())))\n")
    return TEXT + "".join(made)

print("shared.mmu", open(sys.argv[2] + "/shared.mmu", "w").write(text(int(sys.argv[1]))))
