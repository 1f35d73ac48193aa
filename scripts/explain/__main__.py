"""Explains on standard output what the program said.

    scripts/explain STATUS LINE WORD..        of an exit number, the last line that was written, and the program's words
    scripts/explain --run PROGRAM STATUS WORD..   the same of a run just done: the program is asked again for its line
    scripts/explain --fits WORD..             whether the words are a command of the program's and its files are there; if
                                              not, says what is wrong, and ends with the program's exit number for it
    scripts/explain --table                   checks the words that stand for each rule's example (table.txt)
    scripts/explain --table --write           makes table.txt anew
"""
import os
import sys

sys.path.insert(0, os.path.dirname(os.path.dirname(os.path.abspath(__file__))))

import explain  # noqa: E402
import running  # noqa: E402
from explain import again, words  # noqa: E402


def fits(given):
    """What the program would say before it reads anything, and its exit number."""
    said, status, name = explain.usage(given), 2, "Usage"
    if not said:
        said, status, name = "\n".join(words.not_there(given)), 3, "ReadFault"
    if said:
        tell(f"{name}\n{lines_of_mz(said)}" if is_explaining() else name)
    return status if said else 0


def tell(text):
    print(text, file=sys.stderr)


def is_explaining():
    return os.environ.get("MZ_EXPLAIN") != "0"


def lines_of_mz(text):
    return "\n".join(f"mz: {it}" for it in text.split("\n"))


def explanation(status, line, given):
    """What is printed of an exit number and the last line."""
    if status == 1:
        return explain.refusal(line, given) or "mz: this can't be explained, as what was read can't be read again: docs/RULES.md has each rule"
    said = explain.fault(status, given)
    return lines_of_mz(said) if said else ""


def main():
    given = sys.argv[1:]
    if given[:1] == ["--fits"]:
        return fits(given[1:])
    if given[:1] == ["--table"]:
        from explain import table

        return table.main(given[1:])
    if given[:1] == ["--run"] and len(given) > 2:
        program, status, *rest = given[1:]
        said = explanation(int(status), again.last_line(program, rest) if status == "1" else "", rest)
    elif len(given) > 2:
        said = explanation(int(given[0]), given[1], given[2:])
    else:
        sys.exit(__doc__.strip())
    if said:
        print(said)
    return 0


if __name__ == "__main__":
    running.whole(main)
