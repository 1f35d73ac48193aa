"""Finds the function that an edit changes: its lines, and the names by which the prover may know it."""
import re
from dataclasses import dataclass

FUNCTION = re.compile(r"^(?P<indent> *)(?:pub(?:\([a-z ]+\))? )?(?:const )?(?:unsafe )?fn (?P<name>\w+)", re.M)
ABOVE = re.compile(r" *(?:///|#\[)")  # a comment or an attribute of what follows
BLOCK = re.compile(r"^(?:impl|(?:pub )?trait)\b(?P<head>[^{;]*)", re.M)


@dataclass(frozen=True)
class Changed:
    """What an edit changes: a function, with its attributes, or a file outside of its functions."""

    names: tuple  # the likeliest first
    path: str
    first: int
    last: int

    def holds(self, place):
        """Whether a place that the prover names, as src/a.rt:12, is within it."""
        path, _, line = place.rpartition(":")
        return path == self.path and self.first <= int(line) <= self.last


def owner_of(head):
    """What the prover calls the owner of an `impl`'s or a `trait`'s functions, by the block's head: its type, and behind it its trait."""
    head = re.sub(r"^<[^>]*>", "", head.strip().split("\n")[0]).strip()
    names = [re.match(r"[\w:]+", it)[0].rpartition("::")[2] for it in reversed(head.split(" for "))]
    return "".join(names)


def module_of(path):
    """The path of the module that a file of src/ is, in the crate."""
    parts = path[len("src/") : -len(".rt")].split("/")
    return "::".join(parts[:-1] if parts[-1] in ("lib", "main", "mod") else parts)


def function_at(text, place):
    """The header of the function within which the place stands, and where the function ends; None outside of functions."""
    headers = list(FUNCTION.finditer(text, 0, place))
    if not headers:
        return None
    end = re.compile(rf"^{headers[-1]['indent']}\}}", re.M).search(text, headers[-1].end())
    end = len(text) if end is None else end.end()
    return (headers[-1], end) if place <= end else None


def names_of(header, text, path):
    """What the prover may know as the function with the header, the likeliest first; without one the file's module."""
    module = module_of(path)
    if header is None:
        return [module] if module else []
    name = header["name"]
    if not header["indent"]:
        return ["::".join(filter(None, [module, name]))]
    owner = owner_of([*BLOCK.finditer(text, 0, header.start())][-1]["head"])
    # (the last is for an impl in another module than its type; it doesn't come first, since a module may have the name)
    return [f"{owner}::{name}", "::".join(filter(None, [module, owner, name])), name]


def first_line_of(header, text):
    """The line at which a function begins: that of its first attribute, where it has one, which is where the prover says what its result lacks."""
    before = text[: header.start()].splitlines()
    while before and ABOVE.match(before[-1]):
        before.pop()
    return len(before) + 1


def changed_at(text, path, place):
    """The function at the place, or the file's module."""
    header, end = function_at(text, place) or (None, len(text))
    first = 1 if header is None else first_line_of(header, text)
    return Changed(tuple(names_of(header, text, path)), path, first, text.count("\n", 0, end) + 1)
