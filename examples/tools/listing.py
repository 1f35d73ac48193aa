"""listing BIN OUT: writes what mz show prints of a binary that it accepts."""
import sys

data = open(sys.argv[1], "rb").read()
PROOF = "term term_save ref dummy thm thm_save hyp conv refl symm cong unfold conv_cut conv_ref conv_save save sorry"
NAMES = {0x10 + i: f"p {name}" for i, name in enumerate(PROOF.split())}
NAMES |= {0x30 + i: f"u {name}" for i, name in enumerate("term term_save ref dummy - - hyp".split())}
WITH_NUMBER = {*range(0x10, 0x16), 0x1D, *range(0x30, 0x34)}

def number(at, size):
    return int.from_bytes(data[at : at + size], "little")

def command(at):  # its code, its number, and where the next one stands
    size = (0, 1, 2, 4)[data[at] >> 6]
    return data[at] & 0x3F, number(at + 1, size), at + 1 + size

def stream(kind, at):
    code, value, at = command(at)
    while code != 0:
        yield f" {NAMES[code]} {value}" if code in WITH_NUMBER else f" {NAMES[code]}"
        code, value, at = command(at)
    yield f" {kind} end"

def statement(code, row, body):
    if code == 4:
        return [f"sort {row} {data[40 + row] & 15}"]
    is_term = code in (5, 13)
    record = number(16 if is_term else 20, 4) + 8 * row
    count, words, is_plain = number(record, 2), number(record + 4, 4), is_term and data[record + 2] < 128
    kind = {2: "axiom", 5: "term" if is_plain else "def", 6: "theorem", 13: "local def", 14: "local theorem"}[code]
    word = lambda i: f" {'param' if i < count else 'result'} {number(words + 8 * i, 8):016x}"
    streams = [] if is_plain else [*stream("u", words + 8 * (count + is_term)), *stream("p", body)]
    return [f"{kind} {row} {count}", *map(word, range(count + is_term)), *streams]

rows, at, lines = {}, number(24, 4), []
while data[at] & 0x3F != 0:
    code, distance, body = command(at)
    space = {4: "sort", 5: "term", 13: "term"}.get(code, "theorem")
    lines += statement(code, rows.setdefault(space, 0), body)
    rows[space] += 1
    at += distance
open(sys.argv[2], "w").write("\n".join([*lines, "end\n"]))
