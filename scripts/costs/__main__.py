"""Says what proofs cost.

    scripts/costs CRATE           the functions of a crate that was checked here, the dearest first
    scripts/costs --watch FILE    reads off, until it is interrupted, what a gate's run in this checkout takes, into the file
    scripts/costs --run FILE      what each crate, its tests, its must-fail edits and each wrong body took there
    scripts/costs --record FILE   keeps the proofs' seconds for the estimates of ./mz build (scripts/build/costs.txt)

All seconds but those of functions are processor seconds. Start the watch beside the gate:

    python3 scripts/costs --watch /tmp/costs & ./mz test; kill $!; wait; python3 scripts/costs --run /tmp/costs

Seconds are to be compared within one run alone: other work on the machine makes the same proof take up to half more.
The seconds of functions are right where `rt check --jobs 1` began with no out/; else only the sizes are.
"""
import collections
import os
import signal
import sys

TOP = os.path.dirname(os.path.dirname(os.path.dirname(os.path.abspath(__file__))))
sys.path.insert(0, os.path.join(TOP, "scripts"))

from build import costs as recorded
from costs import functions, watching
from wrong.kit import uses_of

KINDS = ("proof", "tests", "edits", "wrong")


def table(head, rows):
    """The rows below a head: the first column flush left, numbers flush right."""
    lines = [head, *rows]
    widths = [max(len(line[at]) for line in lines) for at in range(len(head))]
    for line in lines:
        print("  ".join(it.ljust(width) if at == 0 else it.rjust(width) for at, (it, width) in enumerate(zip(line, widths))).rstrip())


def of_crate(name):
    """Prints the functions of a crate."""
    found, others = functions.costs(os.path.join(TOP, "crates", name))
    if not found:
        print(f"out/incremental of {name} has nothing: rt check --jobs 1 in crates/{name} fills it", file=sys.stderr)
        return 1
    dearest = sorted(found.items(), key=lambda it: (-it[1].whole(), it[0]))
    rows = [[function, f"{cost.whole():.1f}", *(f"{cost.seconds[it]:.1f}" for it in functions.PARTS), f"{cost.sizes['derivation'] / 1e6:.2f}"] for function, cost in dearest]
    table(["function", "seconds", *functions.PARTS, "MB of derivation"], rows)
    sums = [sum(cost.seconds[it] for cost in found.values()) for it in functions.PARTS]
    print(f"{len(found)} functions, {sum(sums):.0f} seconds: {', '.join(f'{it} {sum_of:.0f}' for it, sum_of in zip(functions.PARTS, sums))}; all else {others:.0f}")
    return 0


def of_run(path):
    """Prints what a run took, crate by crate and body by body."""
    sums = watching.sums_in(path)
    of_kind, by_crate = collections.Counter(), {}
    for (crate, kind, _), seconds in sums.items():
        of_kind[kind] += seconds
        by_crate.setdefault(crate, collections.Counter())[kind] += seconds
    crates = sorted(by_crate.items(), key=lambda it: (-sum(it[1].values()), it[0]))
    table(["crate", *KINDS], [[name, *(f"{row[it]:.0f}" if row[it] else "" for it in KINDS)] for name, row in crates])
    bodies = sorted(((seconds, f"{crate}/{body}") for (crate, kind, body), seconds in sums.items() if kind == "wrong"), reverse=True)
    if bodies:
        print()
        table(["wrong body", "seconds"], [[name, f"{seconds:.0f}"] for seconds, name in bodies])
    told = ", ".join(f"{it} {of_kind[it] / 60:.0f}" for it in KINDS if of_kind[it])
    print(f"{sum(of_kind.values()) / 60:.0f} processor minutes: {told}")
    return 0


def record(path):
    """Keeps the proofs' seconds, for all crates that the run has; those of others stay."""
    proofs = {crate: seconds for (crate, kind, _), seconds in watching.sums_in(path).items() if kind == "proof"}
    recorded.keep(proofs, uses_of(TOP))
    print(f"scripts/build/costs.txt: the proofs of {len(proofs)} crates")
    return 0


def main(words):
    if len(words) == 2 and words[0] == "--watch":
        for number in (signal.SIGTERM, signal.SIGINT):
            signal.signal(number, signal.default_int_handler)
        watching.watch(TOP, words[1])
        return 0
    if len(words) == 2 and words[0] in ("--run", "--record"):
        return (of_run if words[0] == "--run" else record)(words[1])
    if len(words) == 1 and not words[0].startswith("-"):
        return of_crate(words[0])
    print(__doc__.strip(), file=sys.stderr)
    return 2


if __name__ == "__main__":
    sys.exit(main(sys.argv[1:]))
