"""Runs one behind another, over files that they read and put."""
import os
import re
import shlex

from .reading import FOLDER, Wrong, changed, content, unescaped
from .running import Case, Differs, shown
from .told import status


# The commands whose last word is the file that they put.
PUTTING = ("compile", "compile_draft", "assemble", "spec", "decompile")


def run(section):
    """A case is a section, of these rows:

    NAME = FILE, CHANGES    a file is there, made of one of tests/files
    NAME: TEXT              the same, with this text; or with the lines below
    > WORDS                 a run, with what it prints in the lines below; a name of tests/files stands for such a file
    NAME has FILE           a file has just these bytes; or the lines below
    NAME is missing         there is none
    once: PATTERN           of the lines that were printed last just one is of this form

    Files that a run only reads are as they were. In what is printed {NAME} stands for the length of a file, {*} for a number, and a line .. for any lines.
    """
    yield Case(section.place, lambda bench: play(bench, section))


def usage(section):
    """A row is words that are no command, or - for none."""
    for row in section.rows:
        yield Case(row.place, is_usage([] if row.text == "-" else shlex.split(row.text)))


def is_usage(words):
    def attempt(bench):
        bench.write({"spec": content("one.mm0"), "bin": content("one.hex")})
        found = bench.run(words)
        if found != (2, b"", b"Usage\n"):
            raise Differs(f"{words} isn't usage, but {found}")

    return attempt


def lines_below(row):
    return b"".join(it[2:].encode() + b"\n" for it in row.more)


def play(bench, section):
    bench.write({})
    printed = b""
    for row in section.rows:
        try:
            printed = step(bench, row, printed)
        except Differs as differs:
            raise Differs(f"(line {row.place.rsplit(':', 1)[1]}) {differs}") from None


def step(bench, row, printed):
    """Does what a row says, and gives what was printed last."""
    made = re.fullmatch(r"(\S+) = ([^,\s]+)(?:, (.*))?", row.text)
    text = re.fullmatch(r"(\S+):(?: (.*))?", row.text)
    held = re.fullmatch(r"(\S+) has(?: (\S+))?", row.text)
    if row.text.startswith("> "):
        return ran(bench, row)
    if row.text.startswith("once: "):
        count = len(re.findall(rb"^" + row.text[6:].encode() + rb"$", printed, re.M))
        if count != 1:
            raise Differs(f"{count} lines are of the form")
    elif made:
        bench.add(made[1], changed(file_of(bench, made[2]), made[3] or "-"))
    elif text:
        bench.add(text[1], unescaped(text[2]) if text[2] else lines_below(row))
    elif held:
        bench.expect_file(held[1], file_of(bench, held[2]) if held[2] else lines_below(row))
    elif row.text.endswith(" is missing"):
        bench.expect_file(row.text.split()[0], None)
    else:
        raise Wrong(f"{row.place}: no step of a session")
    return printed


def file_of(bench, name):
    found = bench.read(name)
    return content(name) if found is None else found


def ran(bench, row):
    words = shlex.split(row.text[2:])
    for word in words:
        if bench.read(word) is None and os.path.exists(os.path.join(FOLDER, "files", word)):
            bench.add(word, content(word))
    wanted = lines_below(row).decode()
    kept = {word: bench.read(word) for word in words[1:] if not (words[0] in PUTTING and word == words[-1])}
    found, out, _ = bench.run(words)
    if found != status(wanted) or not re.fullmatch(pattern_of(bench, wanted), out.decode()):
        raise Differs(f"{row.text[2:]}\n    says   {shown(out)} ({found})\n    not    {shown(wanted.encode())}")
    for name, before in kept.items():
        bench.expect_file(name, before)
    return out


def pattern_of(bench, wanted):
    """What is wanted, as a pattern."""

    def length(found):
        made = bench.read(found[1])
        return "no file" if made is None else str(len(made))

    lines = []
    for line in wanted.splitlines():
        pattern = re.sub(r"\\{\\\*\\}", r"\\d+", re.escape(line))
        lines.append(r"(?:.*\n)*" if line == ".." else re.sub(r"\\{(\w+)\\}", length, pattern) + "\n")
    return "".join(lines)
