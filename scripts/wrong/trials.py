"""Tries wrong bodies: proves the functions that they change, and says what refuses each.

Those of one crate that change different functions are tried in one run of the prover, which reads the crate once. A function is
proved by the contracts of those that it calls, and not by their bodies, so what such a run says of a function holds by itself.
What it doesn't refuse is tried alone.
"""
import enum
import os
import re
import resource
import shutil
import signal
import subprocess
import tempfile
from dataclasses import dataclass

from wrong import answers, edits, functions, kit

PARTS = ("src", "specs", "proofs")
SECONDS = 600  # of a processor, for each function in a run of the prover: on a busy machine these are many more by the clock
MOST = 20  # answers that are left out
GOAL = re.compile(r"^note: (?:\./)?(src/\S+?:\d+):\d+: it is not proved that (.*)$", re.M)
OF_CONTRACT = re.compile(r"what the function ensures|requires holds at this call|invariant")
LABEL = re.compile(r"\(`([^`]+)`\)")
REJECTED = re.compile(r"\berror\[[\w-]+\]")
ENDED = re.compile(r"^only=\d+ (?:proved|holes)=\d+", re.M)
UNKNOWN = re.compile(r"has no function|several functions are named")


class Outcome(enum.Enum):
    """What a trial came to; only the first is as it must be."""

    REFUSED = "refused"
    PROVED = "PROVED"
    NO_GOAL = "NO GOAL"
    REJECTED = "NO RUST"
    NOT_TRIED = "NOT TRIED"


@dataclass
class Trial:
    """A wrong body that was tried, and the processor seconds that it took."""

    edit: edits.Edit
    outcome: Outcome
    said: str
    seconds: float = 0.0


def bounded(seconds):
    """In the prover's process, before it begins."""
    resource.setrlimit(resource.RLIMIT_CPU, (seconds, seconds))


@dataclass
class Prover:
    """Where crates and libraries are, and which libraries each crate uses."""

    top: str
    libraries: str
    uses: dict

    def run(self, crate, folder, names, kept):
        """Proves the functions, in a folder that has the crate's files; what is proved is kept for the next run."""
        words = kit.command(crate, folder, self.uses, self.libraries) + ["--incremental", kept]
        for name in names:
            words += ["--only", name]
        how = {"stdin": subprocess.DEVNULL, "stdout": subprocess.PIPE, "stderr": subprocess.STDOUT, "errors": "replace", "text": True}
        return subprocess.run(words, cwd=folder, preexec_fn=lambda: bounded(SECONDS * len(names)), check=False, **how)

    def copy(self, crate, folder):
        """Copies the crate's files into the folder."""
        for part in PARTS:
            source = os.path.join(self.top, "crates", crate, part)
            if os.path.isdir(source):
                shutil.copytree(source, os.path.join(folder, part))


def changes_in(edit, folder):
    """The functions that an edit changes, in a folder that has its crate as it is."""
    found = []
    for made, before, _ in edits.applied(edit.changes(), folder):
        if not made.old.lstrip().startswith("use "):
            place = before.index(made.old) + len(made.old.rstrip()) - 1
            found.append(functions.changed_at(before, made.file, place))
    if not found or not all(it.names for it in found):
        raise edits.Unfit("changes no function, and no module but the root")
    return found


def change(edit, folder):
    """Makes the wrong body in a copy of its crate; returns the functions that it changes."""
    found = changes_in(edit, folder)
    texts = {made.file: after for made, _, after in edits.applied(edit.changes(), folder)}
    for file, text in texts.items():
        with open(os.path.join(folder, file), "w", encoding="utf-8") as it:
            it.write(text)
    return found


def goals_of(said, changed):
    """The goals of the functions' contracts that aren't proved, those of what is ensured first: names, and behind them the place."""
    goals = [it for it in GOAL.findall(said) if OF_CONTRACT.search(it[1]) and any(one.holds(it[0]) for one in changed)]
    at = {}
    for place, text in sorted(goals, key=lambda it: "ensures" not in it[1]):
        label = LABEL.search(text)
        at.setdefault(place, []).append(label[1] if label else text[:80])
    return [f"{', '.join(dict.fromkeys(names))} ({place})" for place, names in at.items()]


def verdicts_on(name, said):
    """What a run of the prover says of the function, or of those of the module: `proved`, `not proved` or `no proof`."""
    return re.findall(rf"^fn (?:\S+::)?{re.escape(name)}(?:::\S+)?: (proved|not proved|no proof)", said, re.M)


def first_line(said, *words):
    """The first line that has one of the words, or the last one."""
    lines = said.strip().split("\n")
    return next((line for line in lines if any(it in line for it in words)), lines[-1])


def judged(ran, changed, turn=0):
    """What a run of the prover came to for the functions, under the names of a turn, and what to say of it."""
    said = ran.stdout
    if REJECTED.search(said):
        return Outcome.REJECTED, first_line(said, "error[")
    verdicts = [verdicts_on(name_in(turn, it), said) for it in changed]
    if ran.returncode in (-signal.SIGXCPU, -signal.SIGKILL):
        return Outcome.NOT_TRIED, "the prover was ended, for memory or after the most processor seconds"
    if ran.returncode not in (0, 1) or not ENDED.search(said) or not all(verdicts):
        return Outcome.NOT_TRIED, first_line(said, "rattle: ")
    if ran.returncode == 0:
        return Outcome.PROVED, "the contract lets this body through"
    if all(it == "proved" for it in sum(verdicts, [])):
        return Outcome.NOT_TRIED, "it is proved, and a function that it calls isn't"
    goals = goals_of(said, changed)
    if goals:
        return Outcome.REFUSED, "; ".join(goals)
    return Outcome.NO_GOAL, first_line(said, ": error", "note: src/")


def name_in(turn, changed):
    """The name that is tried in a turn; a function with fewer keeps its last."""
    return changed.names[min(turn, len(changed.names) - 1)]


def first_known(prover, crate, folder, changed, kept):
    """Runs the prover under the first names that it knows; returns the run and the turn of these names."""
    for turn in range(max(len(it.names) for it in changed)):
        ran = prover.run(crate, folder, [name_in(turn, it) for it in changed], kept)
        if ran.returncode != 2 or not UNKNOWN.search(ran.stdout):
            break
    return ran, turn


def decided(prover, edit, folder):
    """The outcome of an edit, and what to say, in a folder that has a copy of its crate."""
    changed, kept = change(edit, folder), kept_in(folder)
    ran, turn = first_known(prover, edit.crate, folder, changed, kept)
    outcome, said = judged(ran, changed, turn)
    gone = []
    while outcome is Outcome.NO_GOAL and len(gone) < MOST:
        more = answers.leave_out(ran.stdout, folder)
        if not more:
            break
        gone += more
        ran = prover.run(edit.crate, folder, [name_in(turn, it) for it in changed], kept)
        outcome, said = judged(ran, changed, turn)
    behind = f"; without the answers {', '.join(gone)}" if gone else ""
    return outcome, f"{name_in(turn, changed[0])}: {said}{behind}"


def kept_in(folder):
    """A new folder within it for what the prover keeps."""
    path = os.path.join(folder, "kept")
    os.mkdir(path)
    return path


def spent():
    """The processor seconds of all that this process has started and that has ended."""
    used = resource.getrusage(resource.RUSAGE_CHILDREN)
    return used.ru_utime + used.ru_stime


def copied(prover, bodies):
    """A folder with a copy of the crate of the bodies; its name tells scripts/costs what is tried there."""
    more = f"_and_{len(bodies) - 1}_more" if bodies[1:] else ""
    folder = tempfile.TemporaryDirectory(prefix=f"mz-wrong-{bodies[0].crate}.{bodies[0].name}{more}-")
    prover.copy(bodies[0].crate, folder.name)
    return folder


def alone(prover, edit):
    """Tries an edit by itself."""
    try:
        with copied(prover, [edit]) as folder:
            return decided(prover, edit, folder)
    except (edits.Unfit, kit.Missing) as error:
        return Outcome.NOT_TRIED, str(error)


def together(prover, bodies):
    """Tries several edits of a crate in one run. Returns of each that the run refuses what is said of it."""
    try:
        with copied(prover, bodies) as folder:
            changed = {it: change(it, folder) for it in bodies}
            ran, turn = first_known(prover, bodies[0].crate, folder, sum(changed.values(), []), kept_in(folder))
    except (edits.Unfit, kit.Missing):
        return {}
    found = {edit: (judged(ran, its, turn), name_in(turn, its[0])) for edit, its in changed.items()}
    return {edit: (outcome, f"{name}: {said}") for edit, ((outcome, said), name) in found.items() if outcome is Outcome.REFUSED}


def groups(bodies, folder_of):
    """The bodies crate by crate, cut so that no two of a group change one function; one that doesn't fit stands alone."""
    found = []
    for edit in bodies:
        try:
            its = {(it.path, it.first) for it in changes_in(edit, folder_of(edit.crate))}
        except edits.Unfit:
            its = None
        group = next((it for it in found if its and it[0] == edit.crate and it[1] and not it[1] & its), None)
        if group:
            group[1].update(its)
            group[2].append(edit)
        else:
            found.append((edit.crate, its, [edit]))
    return [it for _, _, it in found]


def tried(prover, bodies):
    """Tries a group of edits. No other trial may go on in this process, since the seconds are those of what it starts.

    The seconds of a run that tries several are shared among these.
    """
    began = spent()
    found = together(prover, bodies) if bodies[1:] else {}
    share = (spent() - began) / len(bodies)
    made = []
    for edit in bodies:
        began = spent()
        outcome, said = found.get(edit) or alone(prover, edit)
        made.append(Trial(edit, outcome, said, share + spent() - began))
    return made
