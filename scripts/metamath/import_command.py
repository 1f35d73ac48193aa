"""./mz import: a specification and a binary of a Metamath database, verified and compared with it before they stand there."""
import gc
import os
import re
import tempfile

from explore.program import Refused, run

from .databases import Faulty, read_database
from .expressions import CitesWhatIsLeftOut
from .importing import Import, Options
from .outputs import LONGEST
from .same_command import same
from .telling import CANT_READ, CANT_WRITE, WRONG_WORDS, Failed, Progress, plural

SHOWN = 5  # labels of what is left out for one reason


def import_(path, folder, theorems, options, kept=None):
    """Imports, tells, and gives the exit number. `kept`: the database and its check, where both were read before."""
    gc.disable()  # what isn't needed any more goes at once, so that looking for it is lost time
    show = Progress()
    name, proved = _name(path, theorems, options), "|-"
    chosen = Options("--axioms" not in options, "--plain" not in options, "--text" in options)
    if "--provable" in options:
        chosen.proved, equals, chosen.formulas = options["--provable"].partition("=")
        if not (chosen.proved and equals and chosen.formulas):
            raise Failed("--provable wants two typecodes, as |-=wff", 2)
        proved = chosen.proved
    _folder(folder)
    _keep(path, [os.path.join(folder, name + ending) for ending in (".mm0", ".mmb", ".mmu", ".symbols")])
    made = _translated(kept.database if kept else _read(path, show), theorems, chosen, show)
    with tempfile.TemporaryDirectory(prefix=f".{name}.", dir=folder) as room:
        show.say("writing")
        try:
            files = _write(made, os.path.join(room, name), _title(path, theorems))
        except OSError as fault:
            raise Failed(f"{folder} can't be written: {fault.strerror}", CANT_WRITE) from None
        told = _told(made)
        statements, database = made.output.labels, made.database
        made.output = None  # the two hold each other
        del made
        show.say("verifying")
        verdict = _verified(files, statements, database)
        for it in files:
            os.replace(it, os.path.join(folder, os.path.basename(it)))
    del statements, database
    show.done()
    print(told, verdict, sep="\n")
    show.say("comparing with the database")
    try:
        return same(os.path.join(folder, name + ".mm0"), path, proved, is_brief=True, check=kept and kept.check)
    finally:
        show.done()


def _name(path, theorems, options):
    """The name of the files."""
    name = options.get("--name") or (theorems[0] if theorems else os.path.splitext(os.path.basename(path))[0])
    if name != os.path.basename(name) or name in (".", ".."):
        raise Failed(f"--name {name} is no name of a file", 2)
    return name


def _title(path, theorems):
    return f"{', '.join(theorems) if theorems else 'All'} of {os.path.basename(path)}, made by mz import."


def _folder(folder):
    try:
        os.makedirs(folder, exist_ok=True)
        if not os.access(folder, os.W_OK | os.X_OK):
            raise PermissionError(13, "Permission denied")
    except OSError as fault:
        raise Failed(f"{folder} can't be written: {fault.strerror}", CANT_WRITE) from None


def _keep(path, places):
    """Refuses to write over the database."""
    for it in places:
        if os.path.exists(it) and os.path.exists(path) and os.path.samefile(it, path):
            raise Failed(f"{it} is read, and would be written", WRONG_WORDS)


def _read(path, show):
    show.say(f"reading {path}")
    try:
        return read_database(path)
    except OSError as fault:
        raise Failed(f"{path} can't be read: {fault.strerror}", CANT_READ) from None


def _translated(database, theorems, options, show):
    return Import(database, theorems or None, options).run(show.part)


def _write(made, place, title):
    """Writes the files, and gives their paths."""
    output = made.output
    files = [place + ".mm0", place + ".mmb"]
    lines = [f"-- {title}", "", *output.specification()]
    with open(files[0], "w", encoding="ascii") as file:
        file.writelines(f"{line}\n" for line in lines)
    with open(files[1], "wb") as file:
        file.writelines(output.binary())
    if output.proof_text:
        files.append(place + ".mmu")
        with open(files[2], "w", encoding="ascii") as file:
            file.writelines(output.proof_text.text(output.public_terms()))
    symbols = output.symbols(lines)
    if symbols:
        files.append(place + ".symbols")
        with open(files[-1], "w", encoding="utf-8") as file:
            file.writelines(symbols)
    return files


def _told(made):
    """What was translated, and what was left out."""
    counts, output = made.counts, made.output
    copies = f" and {plural(counts.axiom_copies, 'instance')} of them" if counts.axiom_copies else ""
    local = len(output.theorem_rows) - output.public - counts.axioms - counts.axiom_copies
    lines = [f"imported: {plural(len(made.syntax.sorts), 'sort')}, {plural(len(output.public_terms()), 'term')}, "
             f"{plural(counts.axioms, 'axiom')}{copies}, {plural(output.public, 'theorem')}, {plural(local, 'lemma')}"]
    reasons = {}
    for number, fault in counts.skipped.items():
        why = "that cite what is left out" if isinstance(fault, CitesWhatIsLeftOut) else str(fault)
        reasons.setdefault(why, []).append(made.database.assertions[number].label)
    if output.long:
        reasons[f"of the specification alone, a formula of more than {LONGEST:,} tokens"] = output.long
    for why, labels in reasons.items():
        more = ", .." if len(labels) > SHOWN else ""
        lines.append(f"left out: {len(labels)}, {why}: {', '.join(labels[:SHOWN])}{more}")
    return "\n".join(lines)


def _verified(files, statements, database):
    """The verdict of the program. Where it refuses, the theorem's place in the database is told."""
    try:
        return run("verify", *files[:2]).strip()
    except Refused as refused:
        found = re.search(r"statement (\d+)", refused.line)
        number = dict(statements).get(int(found[1])) if found else None
        if number is None:
            raise
        it = database.assertions[number]
        raise Faulty(str(database.fault(it.at, f"the proof of {it.label} is wrong ({refused})"))) from None
