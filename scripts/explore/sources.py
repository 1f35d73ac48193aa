"""The specification as pages of its own, with a link from every name in it."""
from html import escape

from .pages import link

LONGEST = 250_000  # characters of a specification on one page


def cut(statements, length):
    """The statements in parts of about this many characters: lists of (start, statement), and where each ends."""
    part, start = [], 0
    parts = []
    for it in statements:
        part.append(it)
        if it.end - start > LONGEST:
            parts.append((start, it.end, part))
            part, start = [], it.end
    if part or not parts:
        parts.append((start, length, part))
    else:
        first, _, last = parts[-1]
        parts[-1] = first, length, last
    return parts


def part_name(number):
    return "spec.html" if number == 0 else f"spec-{number + 1}.html"


def anchor(statement):
    """The name of a declaration's place on its page."""
    return f"{statement.space}-{statement.name}"


def source(text, start, end, statements, address):
    """The text between two places, names linked. `address` gives that of a sort, a term or an assertion by its name."""
    made, at = [], start
    for it in statements:
        made.append(_plain(text[at : it.at]))
        inner, at = _statement(text, it, address)
        made.append(f"<span id={anchor(it)}>{inner}</span>" if it.space else inner)
    made.append(_plain(text[at:end]))
    return f"<pre>{''.join(made)}</pre>\n"


def _statement(text, it, address):
    made, at = [], it.at
    for start, end, space, name in it.marks:
        made.append(escape(text[at:start], quote=False))
        word = escape(text[start:end], quote=False)
        made.append(_variable(it, name, start, word) if space == "variable" else link(address(space, name), word))
        at = end
    made.append(escape(text[at : it.end], quote=False))
    return "".join(made), it.end


def _variable(it, name, start, word):
    """A variable: the place where it is declared, or a link to it."""
    declared = it.variables.get(name)
    if declared is None:
        return word
    place = f"x{declared.at}"
    return f"<span class=x id={place}>{word}</span>" if declared.at == start else f"<a class=x href=#{place}>{word}</a>"


def _plain(text):
    """What stands between statements: comments, softer than the rest, but for headings, which begin with `-- #`."""
    made = []
    for line in text.split("\n"):
        before, dashes, comment = line.partition("--")
        shown = escape(comment, quote=False)
        if line.startswith("-- #"):
            made.append(f"<b>--{shown}</b>")
        else:
            made.append(escape(before, quote=False) + (f"<span class=c>--{shown}</span>" if dashes else ""))
    return "\n".join(made)
