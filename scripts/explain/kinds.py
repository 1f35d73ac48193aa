"""What a file is by its content, where another kind was given than a command takes; and the command that was meant."""
import os
import re

import manual

WANTED = {"SPEC": "specification", "BIN": "binary", "TEXT": "proof text", "LIST": "listing"}
BINARY = b"MM0B"
_FRONT = re.compile(r"(?:\s+|--[^\n]*(?:\n|$))*")
_SPECIFICATION = re.compile(r"(?:delimiter|pure|strict|provable|free|sort|term|axiom|def|theorem|notation|infixl|infixr|prefix|coercion)\b")
_SOURCE = re.compile(r"(?:import\s+\w+|equality|congruence|propositional)\b|(?:local\s+)?(?:theorem|def)\s+\w+[^:;]*?=")
_LISTING = re.compile(r"[a-z]+\s+[0-9]")
FRONT = 1 << 16


def kind_of(path):
    """What a file is; an empty text where that can't be told."""
    if not os.path.isfile(path):
        return ""
    with open(path, "rb") as file:
        data = file.read(FRONT)
    if data.startswith(BINARY):
        return "binary"
    text = data.decode("latin-1")
    begin = _FRONT.match(text).end()
    if path.endswith(".list") or _LISTING.match(text, begin):
        return "listing"
    if text.startswith("(", begin):
        return "proof text"
    if path.endswith(".proofs") or _SOURCE.match(text, begin):
        return "proof source"
    return "specification" if _SPECIFICATION.match(text, begin) else ""


def told(given, number):
    """Lines on files of another kind than the command takes; none where the argument of this number, which was refused, is of
    its kind, or nothing can be told."""
    command = manual.read().named(given[0]) if given else None
    if command is None or number is None or len(given) <= len(command.words):
        return []
    if kind_of(given[number]) in ("", WANTED.get(command.words[number - 1])):
        return []
    pairs = [(WANTED[word], path, kind_of(path)) for word, path in zip(command.words, given[1:]) if word in WANTED]
    wrong = [(wanted, path, kind) for wanted, path, kind in pairs if kind and kind != wanted]
    said = [f"{path} is a {kind}, and a {wanted} belongs there" for wanted, path, kind in wrong]
    return [*said, f"meant is: {meant(command, given, pairs, wrong)}"]


def meant(command, given, pairs, wrong):
    """The command that takes what is there."""
    found = {kind: path for _, path, kind in pairs}
    rest = [path for word, path in zip(command.words, given[1:]) if word not in WANTED]
    if len(found) == len(pairs) and all(wanted in found for wanted, _, _ in pairs):
        return " ".join(["./mz", command.name, *(found[wanted] for wanted, _, _ in pairs), *rest])
    wanted, path, kind = wrong[0]
    base = os.path.splitext(path)[0]
    beside = [{"SPEC": f"{base}.mm0", "BIN": path}[it] for it in command.words if it in ("SPEC", "BIN")]
    return {
        "binary": {
            "proof text": f"./mz decompile SPEC {path} {base}.mmu",
            "listing": f"./mz show {path}",
            "specification": " ".join(["./mz", command.name, *beside, *rest]),
        }.get(wanted),
        "proof text": f"./mz compile {path} {base}.mmb",
        "proof source": f"./mz prove {path}",
        "specification": f"./mz check {path}",
        "listing": f"./mz assemble {path} {base}.mmb",
    }[kind]
