"""What is said of a refused listing, of a limit, and of a text that has no specification or a binary that has no text."""
import re

from .source import Source
from .texts import AT_MARGIN, Statement, Theory, read_one, start_of_number, written

FIRST = {"sort": "sort ROW MODIFIERS", "term": "term ROW PARAMETERS", "def": "def ROW PARAMETERS", "local def": "local def ROW PARAMETERS", "axiom": "axiom ROW PARAMETERS",
         "theorem": "theorem ROW PARAMETERS", "local theorem": "local theorem ROW PARAMETERS"}
INSIDE = " param WORD,  result WORD,  u COMMAND,  p COMMAND (each with one blank before it)"
LIMITS = {"L1": "128 sorts are the most", "L2": "65,535 parameters are the most of a statement", "L3": "55 bound variables are the most of a statement, dummies included: a word has a bit for each",
          "L5": "4,294,967,295 bytes are the most of a file: places have four bytes"}


def lines_before(data, number):
    """The line with this number, from 1, and the place at which it begins, or nothing behind the end."""
    at = 0
    for _ in range(number - 1):
        at = data.find(b"\n", at) + 1
        if at == 0:
            return None, len(data)
    end = data.find(b"\n", at)
    return (data[at : end if end >= 0 else len(data)].decode("latin-1"), at) if at < len(data) else (None, at)


def head_of(data, at):
    """The last line before a place that begins a statement."""
    found = list(re.finditer(rb"^[a-z][^\n]*", data[max(0, at - 100_000) : at], re.M))
    return found[-1].group().decode("latin-1") if found else ""


def listing(refusal, given):
    source = Source(given[1])
    line, at = lines_before(source.data, refusal.statement)
    if line is None:
        return [f"the text ends behind line {refusal.statement - 1}; a listing ends with a line `end` and a newline"]
    said = [f"{source.path}:{refusal.statement}:1: {line[:100]}"]
    head = head_of(source.data, at)
    if refusal.code == "A3":
        kind = line.rpartition(" ")[0].rpartition(" ")[0]
        return [*said, f"rows are counted from 0, each kind by itself; {rows_before(source.data, at, kind)} rows stand before this line"]
    if refusal.code == "A2":
        return [*said, "the most are: modifiers 15, parameters 65535, sorts 128, other numbers 4294967295"]
    if not line.startswith(" "):
        return [*said, "a statement's line is one of: " + ",  ".join(FIRST.values()) + ",  end", f"the statement before it: {head}" if head else ""]
    return [*said, f"it belongs to: {head}", f"lines of a statement:{INSIDE}"]


def rows_before(data, at, kind):
    of_table = {"sort": ("sort",), "term": ("term", "def", "local def"), "def": ("term", "def", "local def"), "local def": ("term", "def", "local def")}
    names = of_table.get(kind, ("axiom", "theorem", "local theorem"))
    return sum(len(re.findall(rb"^" + name.encode() + rb" \d", data[:at], re.M)) for name in names)


def limit(refusal, given):
    said = [LIMITS.get(refusal.code, "")]
    if refusal.code in ("L2", "L3") and given[0] in ("compile", "compile_draft"):
        said += statement_of(Source(given[1]), refusal)
    if refusal.code == "L5" and given[0] in ("compile", "compile_draft"):
        said.append("the count is the bound on the length by the text's weight (docs/FORMAT.md, section 4); a definition or a lemma")
        said.append("in the place of what is written out many times makes it less")
    return said


def statement_of(source, refusal):
    """The first statement that passes the limit."""
    for found in AT_MARGIN.finditer(source.data):
        node, _ = read_one(source.data, found.start())
        statement = Statement(Theory(source.data, found.start()), node)
        binders = [it for it in statement.binders if isinstance(it, list)]
        bound = sum(len(it) == 2 for it in binders) + len(statement.variables) - len({str(it[0]) for it in binders if str(it[0]) != "_"})
        if (len(binders) if refusal.code == "L2" else bound) == refusal.count:
            return [f"it is the statement of line {source.line(found.start())}: {source.first_line(found.start())}"]
    return []


def unspecified(source, refusal):
    """Why a text has no specification."""
    start = start_of_number(source.data, refusal.statement)
    node, _ = read_one(source.data, start)
    said = [f"{source.named(start)}: {source.first_line(start)}"]
    if refusal.code == "depth":
        return [*said, "a formula of a specification has at most 4,096 tokens, and its expression is at most 4,096 high"]
    terms = Theory(source.data, start).terms
    names = dict.fromkeys(re.findall(r"[^\s()]+", written(node[3]) + " " + written(node[4])))
    for name in (it for it in names if it in terms and terms[it].is_local):
        said.append(f"{name} is a local definition, of line {source.line(terms[name].at)}")
    return [*said, "a specification doesn't know local definitions: make it public, or state the assertion without it"]


def explain(refusal, given):
    """Lines on what no other module speaks of."""
    if refusal.of == "listing":
        return listing(refusal, given)
    if refusal.of == "limit":
        return limit(refusal, given)
    if refusal.of == "text":
        return unspecified(Source(given[1]), refusal)
    if refusal.code == "depth":
        return ["in the statement's text more than 4,096 lists would stand in one another"]
    return []
