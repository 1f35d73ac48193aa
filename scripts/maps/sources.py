"""What the crates' sources declare, as far as maps are looked for: types that hold one, and what functions return.

The sources are read by their layout, which `rt fmt` makes, and not parsed.
"""
import os
import re
from dataclasses import dataclass, field

from wrong.functions import BLOCK, FUNCTION, module_of, owner_of
from wrong.kit import uses_of

MAPS = ("IndexMap", "IndexSet")
COMMENT = re.compile(r"//[^\n]*")
STRING = re.compile(r'b?"(?:\\.|[^"\\])*"')
LETTER = re.compile(r"b?'(?:\\.|[^'\\\n])'")
TYPE = re.compile(r"^(?:pub(?:\([a-z ]+\))? )?(?:struct|enum) (\w+)", re.M)
LENT = re.compile(r"&(?:'\w+ )?(?:mut )?(?:\[[^\]]*\]|[\w:]+(?:<[^<>]*(?:<[^<>]*>)?[^<>]*>)?)")
WORD = re.compile(r"\b[A-Z]\w*")


@dataclass
class Function:
    """A function: where it stands, what it takes and returns, and its body."""

    crate: str
    file: str
    owner: str
    name: str
    parameters: str
    returned: str
    body: str

    @property
    def path(self):
        return "::".join(filter(None, [module_of(self.file), self.owner, self.name]))

    def takes_itself(self):
        return bool(re.match(r"(?:mut )?self\b", self.parameters.strip()))


@dataclass
class Crate:
    """A crate: its functions, and of each of its types what stands between the braces."""

    name: str
    functions: list = field(default_factory=list)
    types: dict = field(default_factory=dict)


def plain(text):
    """The text without comments, strings and letters, whose braces would mislead."""
    return LETTER.sub("' '", STRING.sub('""', COMMENT.sub("", text)))


def owned(text):
    """The names of types in the text that aren't lent."""
    return set(WORD.findall(LENT.sub("", text)))


def closing(text, at):
    """Where the bracket that opens at the place is closed."""
    depth = 0
    for place in range(at, len(text)):
        depth += (text[place] in "({[") - (text[place] in ")}]")
        if depth == 0:
            return place
    return len(text)


def function_of(crate, file, text, header):
    """The function of a header, or None where it has no body."""
    indent = header["indent"]
    end = re.compile(rf"^{indent}\}}", re.M).search(text, header.end())
    open_at = text.find("(", header.end())
    shut_at = closing(text, open_at)
    alone = re.compile(rf"^{indent}\{{$", re.M).search(text, shut_at, end.end() if end else len(text))
    line = text.find("\n", shut_at)
    if alone:
        begin = alone.end()
    elif text[shut_at:line].rstrip().endswith("{"):
        begin = line
    else:
        return None
    returned = re.match(r"\)\s*->\s*([^\n{]+)", text[shut_at:])
    owner = owner_of([*BLOCK.finditer(text, 0, header.start())][-1]["head"]) if indent else ""
    return Function(crate, file, owner, header["name"], text[open_at + 1 : shut_at], returned[1] if returned else "", text[begin : end.start() if end else len(text)])


def crate_in(folder):
    """The crate whose sources stand in the folder."""
    crate = Crate(os.path.basename(folder))
    for inner, _, files in os.walk(os.path.join(folder, "src")):
        for name in sorted(it for it in files if it.endswith(".rt")):
            whole = os.path.join(inner, name)
            with open(whole, encoding="utf-8") as file:
                text = plain(file.read())
            relative = os.path.relpath(whole, folder)
            crate.functions += filter(None, (function_of(crate.name, relative, text, it) for it in FUNCTION.finditer(text)))
            for it in TYPE.finditer(text):
                begin = re.compile(r"[{(;]").search(text, it.end())
                crate.types[it[1]] = text[begin.start() : closing(text, begin.start())] if begin else ""
    return crate


class Sources:
    """All crates, and which of their types hold a map."""

    def __init__(self, top):
        self.uses = uses_of(top)
        self.crates = {it: crate_in(os.path.join(top, "crates", it)) for it in self.uses}
        self.holders = set()
        while True:
            more = {(crate.name, it) for crate in self.crates.values() for it, inside in crate.types.items() if self.holding(crate.name, owned(inside))}
            if more == self.holders:
                break
            self.holders = more

    def seen_from(self, crate):
        """The crates whose names a crate can use, itself first."""
        return [crate, *(it for it in self.uses[crate] if it in self.crates)]

    def holds(self, crate, name):
        """Whether the type that has the name in a crate holds a map."""
        if name in MAPS:
            return True
        owner = next((it for it in self.seen_from(crate) if name in self.crates[it].types), None)
        return (owner, name) in self.holders

    def holding(self, crate, names):
        """Those of the types that hold a map."""
        return {it for it in names if self.holds(crate, it)}

    def functions_named(self, crate, name):
        return [it for place in self.seen_from(crate) for it in self.crates[place].functions if it.name == name]
