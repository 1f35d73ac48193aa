"""The HTML of pages: what stands on each, given what it shows."""
from html import escape

from .specification import parameter_list

KINDS = {"axiom": "Axiom", "theorem": "Theorem", "term": "Term", "def": "Definition", "sort": "Sort"}


def page(title, navigation, body, up=""):
    return (f'<!doctype html><html lang=en><meta charset=utf-8><meta name=viewport content="width=device-width">'
            f"<title>{escape(title)}</title><link rel=stylesheet href={up}style.css>\n"
            f"<nav>{navigation}</nav><main>\n{body}")


def link(address, text, more=""):
    return f'<a href="{address}"{more}>{text}</a>'


def heading(kind, name, is_local=False):
    word = KINDS[kind].lower() if is_local else KINDS[kind]
    return f"<h1><small>{'Local ' if is_local else ''}{word}</small>{escape(name)}</h1>\n"


def about(text):
    return f"<p class=about>{escape(text)}</p>\n" if text else ""


def variables(parameters, dummies=()):
    """Which variables there are, and which of them stay apart."""
    said = parameter_list(parameters, dummies)
    return f"<p class=f>{escape(said)}</p>\n" if said else ""


def apart(parameters):
    """What a bound variable may not stand in: those parameters that don't depend on it."""
    made = []
    for bound in (it for it in parameters if it.bound):
        others = [it.name for it in parameters if it is not bound and bound.name not in it.needs]
        if others:
            made.append(f"{bound.name} isn't in {', '.join(others)}")
    return f"<p class=soft>{escape('; '.join(made))}.</p>\n" if made else ""


def said(hypotheses, conclusion):
    """A statement: its hypotheses by name, and its conclusion."""
    rows = [f"<tr><td>{escape(name)}<td class=f>{formula}" for name, formula in hypotheses]
    return f"<div class=said><table>{''.join(rows)}<tr><td>⊢<td class=f>{conclusion}</table></div>\n"


def steps(rows):
    """The table of a proof: of each step what it uses, by what it goes, and what it says."""
    made = ["<h2>Proof</h2><div class=scroll><table id=steps class=wide><tr><th>Step<th>Uses<th>By<th>Says\n"]
    for number, (uses, by, formula, is_gap) in enumerate(rows, 1):
        used = ", ".join([f"<a href=#s{it}>{it}</a>" for it in uses])
        mark = " class=gap" if is_gap else ""
        made.append(f"<tr id=s{number}{mark}><td>{number}<td>{used}<td class=n>{by}<td class=f>{formula}\n")
    return "".join(made) + "</table></div>\n<script src=../fold.js></script>\n"


def listed(title, links):
    """A heading and links in a row, or nothing where there are none."""
    return f"<h2>{title}</h2><p>{', '.join(links)}</p>\n" if links else ""


def rows(head, lines):
    """A table of lines that are made of cells."""
    if not lines:
        return ""
    cells = "".join(f"<th>{it}" for it in head)
    return f"<div class=scroll><table class=wide><tr>{cells}\n{''.join(lines)}</table></div>\n"


def statement_row(kind, is_local, address, name, hypotheses, conclusion, has_gap):
    said_ = "; ".join(hypotheses) + " ⊢ " + conclusion if hypotheses else conclusion
    mark = " <span class=gap>gap</span>" if has_gap else ""
    return f"<tr><td class=n>{'local ' if is_local else ''}{kind}<td class=n>{link(address, name)}{mark}<td class=f>{said_}\n"
