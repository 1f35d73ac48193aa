"""What is said of characters, line ends and delimiters: the same for every command, and in editors."""
import re

BYTES = {
    0: "a zero byte", 9: "a tab", 13: "a carriage return: the file has line ends of Windows", 127: "a delete",
    0xA0: "perhaps a space that doesn't break", 0xEF: "the first of a byte order mark, or of a letter outside ASCII",
    0xFE: "perhaps of UTF-16", 0xFF: "perhaps of UTF-16"}
MARK = b"\xef\xbb\xbf"
ODD = re.compile(r"[^ -~\n]")


def letter_at(data, at):
    """The letter outside ASCII that begins at a byte, or nothing."""
    for size in (2, 3, 4):
        try:
            letter = data[at : at + size].decode("utf-8")
        except UnicodeDecodeError:
            continue
        return letter if len(letter) == 1 else None
    return None


def named(data, at):
    """What a byte that may not stand in a file is."""
    byte, letter = data[at], letter_at(data, at)
    if at == 0 and data.startswith(MARK):
        return "the first byte of a byte order mark: the file begins with one, and has to be saved without"
    if byte > 127 and letter and letter.isprintable():
        return f"the first byte of the letter {letter} (U+{ord(letter):04X})"
    return BYTES.get(byte) or ("a control byte" if byte < 32 else "a byte of a letter outside ASCII" if byte > 127 else "")


def odd(text):
    """Where in a text the first character stands that no file may have, and what it is; or nothing. Bytes that are no UTF-8
    are surrogates in it."""
    found = ODD.search(text)
    if not found:
        return None
    front = text[: found.start() + 4].encode("utf-8", "surrogateescape")
    return found.start(), named(front, len(text[: found.start()].encode("utf-8", "surrogateescape")))


def without(text):
    """The text with something that may stand there for what may not: each character for one."""
    return ODD.sub(lambda it: "_" if it.group().isalpha() else " ", text)


def parted(token, known, has_delimiters):
    """What is said of a token that would be several if they were parted; nothing where it wouldn't. The commonest case is a
    parenthesis that is part of it: parentheses stand by themselves where a `delimiter` says so."""
    parts = pieces(token, {*known, "(", ")"})
    if not parts:
        return []
    said = [f"parted it is {' '.join(parts)}: write it so, with spaces"]
    if not has_delimiters:
        return [*said, "no `delimiter` is declared, so that spaces alone part tokens. `delimiter $ ( $ $ ) $;` lets parentheses do it"]
    return [*said, "or let a `delimiter` part it"]


def pieces(token, known):
    """The token as known ones, one behind the other, or nothing; the longest first."""
    ways = {len(token): []}
    for at in range(len(token) - 1, -1, -1):
        end = next((it for it in range(len(token), at, -1) if it in ways and token[at:it] in known), None)
        if end:
            ways[at] = [token[at:end], *ways[end]]
    return ways[0] if len(ways.get(0, [])) > 1 else None
