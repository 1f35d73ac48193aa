"""Puts together what is said of a line or an exit number of the program."""
import sys
import threading

from . import kinds, rules, words
from .lines import Refusal
from .source import Source

DEEP = 100_000
STACK = 256 << 20
SECONDS = 30


def with_room(call, *given):
    """Calls with room for deep recursion, as files may nest deep; gives None where even that isn't enough, or time is."""
    given_back = []

    def run():
        try:
            given_back.append(call(*given))
        except (Exception, RecursionError):  # whatever a file may hold, what the rule says stands
            given_back.append(None)

    limit, size = sys.getrecursionlimit(), threading.stack_size(STACK)
    sys.setrecursionlimit(DEEP)
    try:
        thread = threading.Thread(target=run, daemon=True)
        thread.start()
        thread.join(SECONDS)
    except RuntimeError:  # there is no memory for its stack
        sys.setrecursionlimit(limit)
        run()
    finally:
        sys.setrecursionlimit(limit)
        threading.stack_size(size)
    return given_back[0] if given_back else None


def number_of(refusal, given):
    """Which of the program's arguments is the file that a refusal speaks of; nothing where it speaks of several."""
    number = {"specification": 1, "text": 1, "listing": 1, "limit": 1}.get(refusal.of)
    if refusal.of == "binary":
        number = 1 if given[0] == "show" else 2
    return number if number is not None and number < len(given) else None


def path_of(refusal, given):
    """The file that a refusal speaks of, by the program's arguments."""
    number = number_of(refusal, given)
    return None if number is None else given[number]


def place(refusal, given):
    """The place in the file, shown."""
    path = path_of(refusal, given)
    if path is None or refusal.code[0] not in "SU":
        return []
    return Source(path).shown(refusal.byte)


def details(refusal, given):
    """What was expected and what was found."""
    from . import binary_rules, listing_rules, match_rules, proof_rules, spec_rules

    if refusal.of == "text" and refusal.code.startswith("U"):
        return proof_rules.explain(Source(given[1]), refusal)
    if refusal.of == "specification":
        return spec_rules.explain(Source(given[1]), refusal)
    if refusal.of == "match":
        return match_rules.explain(given[1], given[2], refusal)
    if refusal.of == "binary":
        return binary_rules.explain(refusal, given)
    return listing_rules.explain(refusal, given)


def refusal(line, given):
    """What is to be said of a line that the program wrote for these arguments; an empty text where it says no refusal."""
    found = Refusal.of_line(line)
    if found is None or not given:
        return ""
    other = with_room(kinds.told, given, number_of(found, given))
    if other:
        return "\n".join(other)
    said = with_room(rules.sentences) or {}
    head = f"{found.code} {found.words}. {said.get(found.code, '')}".rstrip() if found.code != found.words else found.words.capitalize() + "."
    more = with_room(details, found, given) or []
    return "\n".join([*(with_room(place, found, given) or []), head, *(f"  {it}" for it in more)])


def fault(status, given):
    """What is to be said of an exit number from 2 to 7."""
    if status == 2:
        return with_room(words.usage, given) or ""
    return "\n".join(with_room(words.why_fault, status, given) or [])
