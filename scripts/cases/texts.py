"""Proof texts: the rule that one breaks, or what it declares."""
from .reading import content, unescaped
from .running import Case, Differs
from .specifications import rest
from .told import is_yes, line


def forms_of(text):
    """How many forms stand side by side in a text without comments."""
    depth = count = 0
    for byte in text:
        depth += (byte == ord("(")) - (byte == ord(")"))
        count += byte == ord(")") and depth == 0
    return count


def texts(section):
    return compiled(section, "compile")


def drafts(section):
    return compiled(section, "compile_draft")


def compiled(section, command):
    """A row is `U6 1 9 TEXT`, the rule, the statement and the byte, both counted behind the ground; `L3 56 TEXT`, a limit;
    `compiled TEXT`; or `declares TEXT`, with a specification in the lines below, beside which it is accepted."""
    name = section.words[1] if section.words[:1] == ["behind"] else None
    ground = content(f"{name}.mmu") if name else b""
    for row in section.rows:
        first = row.text.split(" ", 1)[0]
        if first == "compiled":
            yield Case(row.place, is_compiled(command, ground + rest(row, 1)))
        elif first == "declares":
            specification = content(f"{name}.mm0") if name else b""
            specification += unescaped("\n".join(it.strip() for it in row.more))
            yield Case(row.place, declares(command, ground + rest(row, 1), specification))
        elif first.startswith("L"):
            yield Case(row.place, refused(command, ground + rest(row, 2), " ".join(row.text.split()[:2])))
        else:
            _, statement, byte, _ = row.text.split(" ", 3)
            told = f"{first} {forms_of(ground) + int(statement)} {len(ground) + int(byte)}"
            yield Case(row.place, refused(command, ground + rest(row, 3), told))


def refused(command, text, told):
    """The line is printed, and no file is put."""

    def attempt(bench):
        bench.write({"text": text})
        bench.expect([command, "text", "out"], line(told).encode() + b"\n", 1)
        bench.expect_file("out", None)

    return attempt


def compile_here(bench, command, text):
    """Compiles into the file `out`."""
    bench.write({"text": text})
    status, out, _ = bench.run([command, "text", "out"])
    put = bench.read("out")
    if put is None or (status, out) != (0, b"compiled: %d bytes\n" % len(put)):
        raise Differs(f"it isn't compiled: {out.decode()}")


def is_compiled(command, text):
    return lambda bench: compile_here(bench, command, text)


def declares(command, text, specification):
    def attempt(bench):
        compile_here(bench, command, text)
        bench.add("spec", specification)
        for judge in ["draft"] if command == "compile_draft" else ["verify", "portable"]:
            status, out, _ = bench.run([judge, "spec", "out"])
            if status or not out.startswith((b"accepted: ", b"draft: ")):
                raise Differs(f"{judge} says {out.decode()}")
        expect_listed(bench)

    return attempt


def expect_listed(bench):
    """The binary is listed to its end."""
    status, out, _ = bench.run(["show", "out"])
    if status or not out.endswith(b"end\n"):
        raise Differs(f"show says {out[-200:].decode()}")


def verified(section):
    """A row is a text and a specification, files of tests/files, and what `verify` and `portable` tell of what it is compiled
    to beside the specification."""
    for row in section.rows:
        names, told = row.parts(2)
        text, specification = map(content, names.split())
        yield Case(row.place, is_verified(text, specification, told))


def is_verified(text, specification, told):
    def attempt(bench):
        compile_here(bench, "compile", text)
        bench.add("spec", specification)
        for judge in ("verify", "portable"):
            bench.expect([judge, "spec", "out"], line(told).encode() + b"\n", 0 if is_yes(told) else 1)
        expect_listed(bench)

    return attempt
