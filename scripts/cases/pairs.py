"""Pairs of a specification and a binary: what each command says of both.

Where `verify` accepts, `draft` finds no gap. Where it refuses, `axioms` says the same, and so does `draft`, but of a Sorry,
which may stand in a draft.
"""
import re

from .reading import Wrong, changed, content, unescaped
from .running import Case
from .told import is_yes, line


def judged(specification, binary, told):
    text = line(told).encode() + b"\n"

    def attempt(bench):
        bench.write({"spec": specification, "bin": binary})
        bench.expect(["verify", "spec", "bin"], text, 0 if is_yes(told) else 1)
        if is_yes(told):
            gaps = f"draft: 0 of {told.split()[-1]} theorems rest on a gap\n"
            bench.expect(["draft", "spec", "bin"], gaps.encode(), 0)
            return
        for command in ["axioms"] if told.startswith("K30 ") else ["axioms", "draft"]:
            bench.expect([command, "spec", "bin"], text, 1)

    return attempt


def pairs(section):
    """`[pairs SPECIFICATION BINARY]`, files both; a row is what is told, the changes of the binary, and what this shows."""
    specification, base = map(content, section.words)
    for row in section.rows:
        told, changes, _ = row.parts(3)
        yield Case(row.place, judged(specification, changed(base, changes), told))


def beside(section):
    """`[beside BINARY]`, or `[beside BINARY behind SPECIFICATION]`; a row is what is told, the changes of the binary, and
    the specification or its end."""
    base = content(section.words[0])
    ground = content(section.words[2]) if section.words[1:2] == ["behind"] else b""
    for row in section.rows:
        told, changes, end = row.parts(3)
        yield Case(row.place, judged(ground + unescaped(end), changed(base, changes), told))


def portable(section):
    """`[portable SPECIFICATION BINARY]`; a row is what `verify` tells, what `portable` tells, the changes of the binary, and
    what this shows."""
    specification, base = map(content, section.words)
    for row in section.rows:
        told, portably, changes, _ = row.parts(4)
        binary = changed(base, changes)
        yield Case(row.place, judged(specification, binary, told))
        yield Case(row.place, portably_judged(specification, binary, portably))


def portably_judged(specification, binary, told):
    def attempt(bench):
        bench.write({"spec": specification, "bin": binary})
        bench.expect(["portable", "spec", "bin"], line(told).encode() + b"\n", 0 if is_yes(told) else 1)

    return attempt


# Each code in the place of a body's first command.

NAMES = (
    "term 0", "term_save 0", "ref 0", "dummy 0", "thm 0", "thm_save 0", "hyp", "conv", "refl", "symm", "cong", "unfold",
    "conv_cut", "conv_ref 0", "conv_save", "save", "sorry",
)  # fmt: skip
FIRST_PROOF_CODE, OWN_CODE, CODES = 0x10, 0x12, 64


def codes(section):
    """`[codes SPECIFICATION BINARY BYTE STATEMENT LINE HEAD]`: the place of a body's first command, which is the code 12, its
    line in the listing and that of its statement's head, both from 0. A row is a range of codes and the rule that is told,
    with its byte; other codes break K3 at their place. A listing takes each code of proofs in each body."""
    specification, base = map(content, section.words[:2])
    at, statement, own_line, head = map(int, section.words[2:])
    listing = content(section.words[1].replace(".hex", ".list")).splitlines(keepends=True)
    rules, accepted = {}, None
    for row in section.rows:
        found = re.fullmatch(r"([0-9a-f]{2})\.\.([0-9a-f]{2}) (K\d+) (\d+)", row.text)
        if found:
            told = f"{found[3]} {statement} {found[4]}"
            rules.update(dict.fromkeys(range(int(found[1], 16), int(found[2], 16) + 1), told))
        elif is_yes(row.text):
            accepted = row.text
        else:
            raise Wrong(f"{row.place}: no range of codes")
    for code in range(CODES):
        told = accepted if code == OWN_CODE else rules.get(code, f"K3 {statement} {at}")
        binary = base[:at] + bytes([code]) + base[at + 1 :]
        place = f"{section.place}, code {code:02x}"
        yield Case(place, judged(specification, binary, told))
        if FIRST_PROOF_CODE <= code < FIRST_PROOF_CODE + len(NAMES):
            name = f" p {NAMES[code - FIRST_PROOF_CODE]}\n".encode()
            yield Case(place, listed(binary, b"".join([*listing[:own_line], name, *listing[own_line + 1 :]]), 0))
        else:
            refusal = line(f"{'K4' if code == 0 else 'K3'} {statement} {at}").encode() + b"\n"
            yield Case(place, listed(binary, b"".join(listing[:head]) + refusal, 1))


def listed(binary, text, status):
    def attempt(bench):
        bench.write({"bin": binary})
        bench.expect(["show", "bin"], text, status)

    return attempt


# Binaries that are cut, at each length.


def cuts(section):
    """`[cuts SPECIFICATION BINARY]`; a row is a length, and what is told of each binary that is cut there or later, as far as
    the next row: how many lines of the whole listing stand before, the rule, the statement and the byte (`end`: where it is
    cut). `body LENGTH K25 5 174` says from which length on `verify` comes to the last body, and what it tells then."""
    specification, base = map(content, section.words)
    listing = content(section.words[1].replace(".hex", ".list")).splitlines(keepends=True)
    body_from, body, rows = len(base), None, {}
    for row in section.rows:
        first, *words = row.text.split()
        if first == "body":
            body_from, body = int(words[0]), " ".join(words[1:])
        else:
            rows[int(first)] = words
    for length in range(len(base)):
        lines, rule, statement, byte = rows[max(it for it in rows if it <= length)]
        told = f"{rule} {statement} {length if byte == 'end' else byte}"
        place = f"{section.place}, cut at {length}"
        yield Case(place, judged(specification, base[:length], body if length >= body_from else told))
        text = b"".join(listing[: int(lines)]) + line(told).encode() + b"\n"
        yield Case(place, listed(base[:length], text, 1))
