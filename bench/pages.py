"""The tables of docs/PERFORMANCE.md, each between its comments: the rows that a reader of the page wants, of all that are measured."""
import os

PAGE = os.path.join(os.path.dirname(os.path.dirname(os.path.abspath(__file__))), "docs", "PERFORMANCE.md")


def marks(name):
    return tuple("<!-- bench/measure %s: %s -->\n" % (name, word) for word in ("begin", "end"))


def parted(page, name):
    """What stands before a table, its lines, and what stands behind it."""
    begin, end = marks(name)
    before, rest = page.split(begin)
    inside, behind = rest.split(end)
    return before + begin, inside.splitlines(), end + behind


def cells(line):
    return [it.strip() for it in line.strip().strip("|").split(" | ")]


def joined(old, new, keys):
    """The page's table with what was measured of its rows. A row is known by its first cells; others aren't put in."""
    key = lambda line: tuple(cells(line)[:keys])
    measured = {key(line): line for line in new[2:]}
    is_of_columns = old[:2] == new[:2]
    rows = [measured.get(key(line), line if is_of_columns else None) for line in old[2:]]
    return new[:2] + [it for it in rows if it]


def put(name, table, keys=1, path=PAGE):
    """Prints a table whole, and puts what was measured in the place of the page's rows, where the page has this table."""
    table = list(table)
    print("\n".join(table), flush=True)
    with open(path) as file:
        page = file.read()
    if marks(name)[0] not in page:
        return
    before, old, behind = parted(page, name)
    with open(path, "w") as file:
        file.write(before + "".join(line + "\n" for line in joined(old, table, keys)) + behind)
