"""The symbols that a database gives for its tokens, in its comment `$t`."""
import re
from html import unescape

_PART = re.compile(r"/\*.*?\*/|\"(?P<double>[^\"]*)\"|'(?P<single>[^']*)'|(?P<word>[^\s\"';+]+)|(?P<sign>[;+])", re.S)
_TAG = re.compile(r"<[^<>]*>")


def symbols_of(comments):
    """The symbol of each token, in Unicode: of `althtmldef`, without its tags."""
    made = {}
    for comment in comments:
        for kind, token, text in _definitions(comment):
            shown = " ".join(unescape(_TAG.sub("", text)).split())
            if kind == "althtmldef" and shown:
                made[token] = shown
    return made


def _definitions(comment):
    """What is defined: the keyword, the token and the text."""
    words, strings = [], []
    for found in _PART.finditer(comment):
        text = found["double"] if found["double"] is not None else found["single"]
        if text is not None:
            strings.append(text)
        elif found["word"]:
            words.append(found["word"])
        elif found["sign"] == ";":
            if len(words) == 2 and words[1] == "as" and len(strings) > 1:
                yield words[0], strings[0], "".join(strings[1:])
            words, strings = [], []


def symbol_lines(tokens, symbols, made_of):
    """Lines of a token and its symbol, for these tokens. One that is joined of others, as `made_of` says, has that of the
    first of them, so that it looks as in the database."""
    for token in sorted(tokens):
        first = made_of.get(token, [token])[0]
        shown = symbols.get(first, first)
        if shown != token:
            yield f"{token} {shown}\n"
