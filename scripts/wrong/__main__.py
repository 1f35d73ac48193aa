"""Tries wrong bodies: each has to be refused by a goal of its function's contract.

    scripts/wrong-bodies [--jobs N] [--libraries CHECKOUT] [WORD..]

A wrong body is an edit, crates/NAME/wrong/BODY.edit. With words, those of these crates or of these names are tried. The
changed function alone is proved, with what it calls, over the libraries that `rt ci` has built in this checkout, or in the
one that is named. Those of a crate are tried in one run of the prover, whose seconds are shared among them; one that it
doesn't refuse is tried again by itself. Of each the goals that aren't proved are printed, and the processor seconds. The exit number is 1 where a body is
proved, where no goal refuses it, where it is no Rattle, or where it can't be tried.
"""
import argparse
import concurrent.futures
import functools
import multiprocessing
import os
import signal
import sys

TOP = os.path.dirname(os.path.dirname(os.path.dirname(os.path.abspath(__file__))))
sys.path.insert(0, os.path.join(TOP, "scripts"))

from build.program import processors
from wrong import edits, kit, trials

LONGEST = 500  # letters of what is said of one


def arguments(words):
    reader = argparse.ArgumentParser(prog="scripts/wrong-bodies", description=__doc__, formatter_class=argparse.RawDescriptionHelpFormatter)
    reader.add_argument("--jobs", type=int, default=processors(), metavar="N", help="how many are tried at once")
    reader.add_argument("--libraries", default=TOP, metavar="CHECKOUT", help="a checkout in which rt ci has built the libraries")
    reader.add_argument("words", nargs="*", metavar="WORD", help="names of crates or of wrong bodies")
    return reader.parse_args(words)


def stop(*_):
    raise KeyboardInterrupt


def quiet():
    """In a process of the pool: the end comes from this one, and ends the prover too."""
    signal.signal(signal.SIGINT, signal.SIG_IGN)
    signal.signal(signal.SIGTERM, lambda *_: sys.exit(1))


def results(prover, bodies, jobs):
    """Yields the trials, crate by crate. Where this is interrupted, the trials are ended."""
    groups = trials.groups(bodies, lambda crate: os.path.join(TOP, "crates", crate))
    with concurrent.futures.ProcessPoolExecutor(max(jobs, 1), initializer=quiet) as pool:
        try:
            for group in pool.map(functools.partial(trials.tried, prover), groups):
                yield from group
        except (KeyboardInterrupt, GeneratorExit):
            for it in multiprocessing.active_children():
                it.terminate()
            raise


def main(words):
    asked = arguments(words)
    bodies = edits.found(TOP, "wrong", asked.words)
    if not bodies:
        print("wrong bodies: there are none" + (" of these names" if asked.words else ""))
        return 1
    prover = trials.Prover(TOP, os.path.abspath(asked.libraries), kit.uses_of(TOP))
    signal.signal(signal.SIGTERM, stop)
    passed, seconds = 0, 0.0
    for trial in results(prover, bodies, asked.jobs):
        passed += trial.outcome is trials.Outcome.REFUSED
        seconds += trial.seconds
        print(f"{trial.outcome.value:9s} {trial.seconds:4.0f} s  {trial.edit.crate}/{trial.edit.name}: {trial.said[:LONGEST]}", flush=True)
    print(f"wrong bodies: {passed} passed, {len(bodies) - passed} failed, in {seconds:.0f} processor seconds")
    return 0 if passed == len(bodies) else 1


if __name__ == "__main__":
    try:
        sys.exit(main(sys.argv[1:]))
    except KeyboardInterrupt:
        sys.exit(130)
