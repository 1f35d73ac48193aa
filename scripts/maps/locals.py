"""Finds in a function the locals that hold a map."""
import re
from dataclasses import dataclass

from maps import alive
from maps.sources import closing, owned

LET = re.compile(r"\blet (?P<pattern>(?:mut )?\w+|(?:Ok|Some)\((?:mut )?\w+\)|\((?:[^()]|\([^()]*\))*\))(?:: (?P<type>[^=;]+?))? = ")
CALL = re.compile(r"(?:(?P<type>[A-Z]\w*)(?:::<[^>]*>)?::)?(?:\w+::)*(?P<name>[a-z_]\w*)(?:::<[^>]*>)?\(|(?P<literal>[A-Z]\w*) \{")
METHOD = re.compile(r"^(?:[\w.&]|\[[^\]]*\])*?\.(\w+)\(")
PARAMETER = re.compile(r"(?:mut )?(\w+): ([^,]*(?:<[^>]*>)?[^,]*)")


@dataclass(frozen=True)
class Finding:
    """A local that holds a map and is dropped at an exit of its function."""

    crate: str
    function: str
    local: str
    exits: tuple

    def key(self):
        """What stays when crates are cut or joined."""
        return f"{self.function} {self.local}"

    def __str__(self):
        return f"{self.crate} {self.key()}"


def returns(sources, function, candidates, own):
    """Whether one of the functions returns a type that holds a map; `Self` is the owner's."""
    for it in candidates:
        names = owned(it.returned)
        if "Self" in names:
            names |= {own or it.owner}
        if sources.holding(it.crate, names):
            return True
    return False


def holds(sources, function, kind, value):
    """Whether what a `let` binds holds a map, by its type, or by the call or the literal that makes it."""
    if kind:
        return bool(sources.holding(function.crate, owned(kind)))
    method = METHOD.match(value)
    if method:
        return returns(sources, function, [it for it in sources.functions_named(function.crate, method[1]) if "self" in it.parameters], None)
    call = CALL.match(value)
    if not call:
        return False
    if call["literal"]:
        return sources.holds(function.crate, call["literal"])
    named = sources.functions_named(function.crate, call["name"])
    if call["type"]:
        own = call["type"] if call["type"] != "Self" else function.owner
        if own in ("IndexMap", "IndexSet"):
            return True
        return returns(sources, function, [it for it in named if it.owner == own], own)
    return returns(sources, function, [it for it in named if not it.owner], None)


def taking(sources):
    """The methods of types that hold a map which take it by value."""
    return {it.name for crate in sources.crates.values() for it in crate.functions
            if it.owner and it.takes_itself() and (it.crate, it.owner) in sources.holders}


def rest_of_block(body, at):
    """What stands behind a place in its block."""
    depth = 0
    for place in range(at, len(body)):
        depth += (body[place] == "{") - (body[place] == "}")
        if depth < 0:
            return body[at:place]
    return body[at:]


def bound(sources, function):
    """Of each local that holds a map its name and the rest of its block."""
    for it in PARAMETER.finditer(function.parameters):
        if not it[2].startswith("&") and sources.holding(function.crate, owned(it[2])):
            yield it[1], function.body
    for it in LET.finditer(function.body):
        end = alive.end_of_statement(function.body, it.end())
        if holds(sources, function, it["type"], function.body[it.end() : end]):
            for name in re.findall(r"\b[a-z]\w*", re.sub(r"\b(?:mut|Ok|Some)\b", "", it["pattern"])):
                if name != "_":
                    yield name, rest_of_block(function.body, end + 1)


def findings(sources):
    """All such locals that are alive at an exit."""
    methods = taking(sources)
    for crate in sources.crates.values():
        for function in crate.functions:
            for name, rest in bound(sources, function):
                exits = alive.exits(rest, name, methods)
                if exits:
                    yield Finding(crate.name, function.path, name, tuple(exits))
