"""Follows a local through the rest of its block: whether it is alive at an exit."""
import re

from maps.sources import closing

TOKEN = re.compile(r"[{}?]|\breturn\b")


def moves(text, name, taking):
    """Whether the text hands the local on; `taking` are the methods that take it by value."""
    for found in re.finditer(rf"(?<![\w.]){name}\b", text):
        before, behind = text[: found.start()].rstrip(), text[found.end() :]
        method = re.match(r"\s*\.(\w+)\(", behind)
        if method:
            if method[1] in taking:
                return True
        elif re.search(r"&(?:mut)?$", before) or re.match(r"\s*(?:[.\[]|[-+*/|&]?=[^=>]|==|:[^:])", behind):
            continue
        else:
            return True
    return False


def end_of_statement(text, at):
    """Where the statement that begins at the place ends."""
    while at < len(text) and text[at] not in ";}":
        at = closing(text, at) + 1 if text[at] in "({[" else at + 1
    return at


def diverges(text):
    """Whether the last statement of a block leaves it for good."""
    last = [it for it in text.strip().split("\n") if it.strip()][-1:]
    return bool(last and re.match(r"\s*(?:return|break|continue)\b", last[0]))


def exits(block, name, taking):
    """The exits of the rest of a block at which the local is alive: `?`, `return`, and `end` where the block itself ends so."""
    found, alive = walk(block, name, taking, True)
    last = diverges(block)
    return found + (["end"] if alive and not last else [])


def walk(text, name, taking, alive):
    """The exits at which the local is alive, and whether it is alive behind the text."""
    found, at = [], 0
    for token in iter(lambda: TOKEN.search(text, at), None):
        if alive and moves(text[at : token.start()], name, taking):
            alive = False
        if token[0] == "{":
            shut = closing(text, token.start())
            inside = text[token.end() : shut]
            more, left = walk(inside, name, taking, alive)
            found += more
            alive = alive if diverges(inside) else left
            at = shut + 1
        elif token[0] == "return":
            end = end_of_statement(text, token.end())
            if alive:
                # (what a `?` in it leaves is found too, since the walk goes on within)
                found += ["return"] * (not moves(text[token.end() : end], name, taking))
            at = token.end()
        else:
            found += ["?"] * (alive and token[0] == "?")
            at = token.end()
    if alive and moves(text[at:], name, taking):
        alive = False
    return found, alive
