"""Specifications by themselves: the rule that one breaks, or what it is read as."""
import re

from .reading import Wrong, content, unescaped
from .running import Case, Differs
from .told import line

NOTHING = {"nothing": content("empty.hex")}
# What is told of a statement that isn't whole.
LEXEMES = ("S1 ", "S2 ", "S3 ", "S16 ")
# What stands in the place of a lexeme, and the rule that it breaks.
STOPS = ((b"*", "S3"), (b"#", "S2"), (b"\x01", "S1"))


def statements_of(specification):
    """How many statements a specification has, none of whose math strings has a semicolon."""
    return specification.count(b";")


def ground_of(section):
    """What stands before each text of a section `[.. behind NAME]`: the specification, and the text of what it says."""
    if section.words[:1] != ["behind"]:
        return b"", b""
    name = section.words[1]
    return content(f"{name}.mm0"), content(f"{name}.mmu")


def specifications(section):
    """A row is `S9 1 11 TEXT`, the rule, the statement and the byte, both counted behind the ground; `reads TEXT`, with the
    proof text of what it declares in the lines below; or `read TEXT`, for one of which no more is asked."""
    ground, declared = ground_of(section)
    for row in section.rows:
        first = row.text.split(" ", 1)[0]
        if first == "reads":
            text = unescaped("\n".join(it.strip() for it in row.more))
            yield Case(row.place, reads(ground + rest(row, 1), declared + text + b"\n"))
        elif first == "read":
            yield Case(row.place, is_read(ground + rest(row, 1)))
        else:
            _, statement, byte, _ = row.text.split(" ", 3)
            told = f"{first} {statements_of(ground) + int(statement)} {len(ground) + int(byte)}"
            yield Case(row.place, refused(ground + rest(row, 3), told))


def rest(row, count):
    """The row's text behind so many words."""
    parts = row.text.split(" ", count)
    if len(parts) <= count:
        raise Wrong(f"{row.place}: a text is wanted")
    return unescaped(parts[count])


def refused(text, told):
    def attempt(bench):
        bench.write({"spec": text, **NOTHING})
        bench.expect(["verify", "spec", "nothing"], line(told).encode() + b"\n", 1)

    return attempt


def answer(bench, text):
    """What `verify` says of the specification beside a binary without statements."""
    bench.write({"spec": text, **NOTHING})
    _, out, _ = bench.run(["verify", "spec", "nothing"])
    return out.decode()


def is_read(text):
    def attempt(bench):
        out = answer(bench, text)
        if not out.startswith(("accepted: ", "refused: match ")):
            raise Differs(f"it isn't read: {out}")

    return attempt


def reads(specification, text):
    """The binary of the text, whose proofs are left open, is accepted beside the specification."""
    gapped = re.findall(rb"^\(theorem (\S+)", text, re.M)
    told = b"draft: %d of %d theorems rest on a gap\n" % (len(gapped), len(gapped))
    told += b"".join(b"gap %s\n" % name for name in gapped)

    def attempt(bench):
        bench.write({"spec": specification, "text": text})
        status, out, _ = bench.run(["compile_draft", "text", "bin"])
        if status:
            raise Differs(f"the text isn't compiled: {out.decode()}")
        bench.expect(["draft", "spec", "bin"], told, 0)

    return attempt


def statements(section):
    """A row is a statement with one blank between two lexemes. It is read whole, so that a rule of names at the first is
    what fails; and it is refused where it is cut at a lexeme, and another byte or none stands there."""
    for row in section.rows:
        text = unescaped(row.text)
        yield Case(row.place, is_whole(text))
        for at in range(len(text)):
            if at == 0 or text[at - 1] == ord(" "):
                yield from stops(row.place, text, at)


def is_whole(text):
    def attempt(bench):
        out = answer(bench, text)
        if not out.startswith(("accepted: ", "refused: ")) or any(f": {it}" in out for it in LEXEMES):
            raise Differs(f"it isn't read whole: {out}")

    return attempt


def stops(place, text, at):
    for byte, rule in STOPS:
        yield Case(f"{place}, cut at {at}", refused(text[:at] + byte, f"{rule} 1 {at}"))
    if at > 0:
        yield Case(f"{place}, cut at {at}", refused(text[:at] + b"\n", f"S3 1 {at + 1}"))
