"""What the program `metamath`, an old and independent verifier, says of a database."""
import os
import shutil
import subprocess
import tempfile

PROGRAM = "metamath"


def is_there():
    return shutil.which(PROGRAM) is not None


def asked(path, *commands):
    """What it prints when it has read a database, and has got these commands. It gets a link, since it can't be given each
    name of a file."""
    with tempfile.TemporaryDirectory(prefix="mz-metamath-") as room:
        os.symlink(os.path.abspath(path), os.path.join(room, "database.mm"))
        words = [PROGRAM, "set scroll continuous", "read database.mm", *commands, "exit"]
        ran = subprocess.run(words, cwd=room, stdout=subprocess.PIPE, stdin=subprocess.DEVNULL, check=False)
    return ran.stdout.decode("latin-1")


def faults(path):
    """Why it doesn't verify a database: no line, if it verifies each proof."""
    printed = asked(path, "verify proof *")
    if "All proofs in the database were verified" in printed and "?Error" not in printed:
        return []
    return [it for it in printed.splitlines() if it.startswith("?") or "rror" in it] or ["it didn't verify all proofs"]


def axioms(path, labels):
    """The axioms, syntax aside, on which it says that each of these proofs rests."""
    printed = asked(path, *(f"show trace_back {it} /axioms /essential" for it in labels))
    said = [it.partition("($a statements):")[2] for it in printed.split("MM> show trace_back ")[1:]]
    return {label: set(it.partition("MM>")[0].split()) - {"(None)"} for label, it in zip(labels, said, strict=True)}
