"""Listings: of binaries, and those that are assembled."""
import re

from .pairs import listed
from .reading import Wrong, changed, content, unescaped
from .running import Case
from .told import line


def listings(section):
    """`[listings NAME]`, of the binary NAME.hex and its whole listing NAME.list; a row is `listed` or the refusal, the changes
    of the binary, and what is printed: lines of the whole listing, as `0..14` or `15..`,
    and others in quotes; or - for none."""
    base, whole = content(f"{section.words[0]}.hex"), content(f"{section.words[0]}.list")
    for row in section.rows:
        told, changes, printed = row.parts(3)
        text = b"".join(lines_of(row, whole, it) for it in re.findall(r'"[^"]*"|[^, ]+', printed))
        text += b"" if told == "listed" else line(told).encode() + b"\n"
        yield Case(row.place, listed(changed(base, changes), text, 0 if told == "listed" else 1))


def lines_of(row, whole, item):
    span = re.fullmatch(r"(\d+)\.\.(\d*)", item)
    if span:
        lines = whole.splitlines(keepends=True)
        return b"".join(lines[int(span[1]) : int(span[2]) if span[2] else None])
    if item == "-":
        return b""
    if item.startswith('"'):
        return unescaped(item) + b"\n"
    raise Wrong(f"{row.place}: no lines: {item}")


def assembled(section):
    """A row is the binary's length, or the rule with its line, and the listing."""
    for row in section.rows:
        told, text = re.fullmatch(r"(\d+|A\d \d+) (.*)", row.text).groups()
        yield Case(row.place, assembles(unescaped(text), told))


def assembles(text, told):
    is_made = told.isdigit()
    printed = f"assembled: {told} bytes" if is_made else line(told)

    def attempt(bench):
        bench.write({"list": text})
        bench.expect(["assemble", "list", "out"], printed.encode() + b"\n", 0 if is_made else 1)
        if not is_made:
            bench.expect_file("out", None)

    return attempt


def back(section):
    """A row is a name: `show` prints NAME.list of the binary NAME.hex, and it is assembled to this binary again."""
    for row in section.rows:
        binary, text = content(f"{row.text}.hex"), content(f"{row.text}.list")
        yield Case(row.place, listed(binary, text, 0))
        yield Case(row.place, assembled_to(text, binary))


def assembled_to(text, binary):
    def attempt(bench):
        bench.write({"list": text})
        bench.expect(["assemble", "list", "out"], b"assembled: %d bytes\n" % len(binary), 0)
        bench.expect_file("out", binary)

    return attempt
