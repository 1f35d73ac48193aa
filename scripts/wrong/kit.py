"""The prover of the Rattle kit, and how it is asked for some functions of a crate alone."""
import os
import shutil

ROOTS = ("src/main.rt", "src/lib.rt")


class Missing(Exception):
    """What a check needs isn't there."""


def kit():
    """The folder of the kit, by the `rt` that PATH finds."""
    path = shutil.which("rt")
    if not path:
        raise Missing("there is no rt, the command of the Rattle kit")
    return os.path.dirname(os.path.dirname(os.path.realpath(path)))


def uses_of(top):
    """Of each crate in crates.txt the libraries that it names."""
    uses = {}
    with open(os.path.join(top, "crates.txt"), encoding="utf-8") as file:
        for line in file:
            name, _, used = line.partition("#")[0].partition(":")
            if name.strip():
                uses[name.split()[0]] = used.split()
    return uses


def below(crate, uses):
    """The repository's crates on which a crate stands, itself left out."""
    seen, waiting = [], [crate]
    while waiting:
        for it in uses[waiting.pop()]:
            if it in uses and it not in seen:
                seen.append(it)
                waiting.append(it)
    return seen


def library(name, libraries):
    """The library of a crate that `rt ci` has built in a checkout."""
    path = os.path.join(libraries, "crates", name, "out", "rlib", f"{name}.rlib")
    if not os.path.isdir(path):
        raise Missing(f"the library of {name} isn't built: rt ci builds it")
    return path


def command(crate, folder, uses, libraries):
    """The words that check a crate whose sources stand in the folder, over the libraries of a checkout."""
    at = kit()
    root = next((it for it in ROOTS if os.path.isfile(os.path.join(folder, it))), None)
    if root is None or crate not in uses:
        raise Missing(f"{crate} has no root file, or crates.txt hasn't got it")
    words = [f"{at}/bin/rattle", "check", "--crate-name", crate, root, "-L", f"dependency={at}/rlibs"]
    for name in ["std", *uses[crate]]:
        where = library(name, libraries) if name in uses else f"{at}/rlibs/{name}.rlib"
        words += ["--extern", f"{name}={where}"]
    for name in below(crate, uses):
        words += ["-L", f"dependency={os.path.dirname(library(name, libraries))}"]
    return [*words, "--antt-project", f"{at}/rattle/logic/antt-project.json", "--logic-built", f"{at}/logic_built", "--jobs", "1", "--links", f"{crate}="]
