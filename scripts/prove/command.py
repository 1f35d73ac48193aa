"""The command: ./mz prove."""
import os
import re
import subprocess
import sys
import tempfile

from .development import Development, Writer, source_path
from .fill import filled, with_found
from .find import fitting, found
from .goals import view
from .lengths import told
from .places import Source, Wrong, report, shown_path
from .specification import Reader, Theory

TOP = os.path.dirname(os.path.dirname(os.path.dirname(os.path.abspath(__file__))))
USAGE = """./mz prove PATH..               proves what a source says: a file, or a folder that has one of its name, or just one
./mz prove --check PATH..       says whether the proof text beside it is the one that is made of it, and writes nothing
./mz prove --text PATH..        writes the proof text, and doesn't run the program
./mz prove --start SPEC         prints a source for a specification, in which each proof is left open
./mz prove --fill PATH..        writes into the source what is found for each `?` and each `sorry`
./mz prove --at LINE:COL PATH   prints what is to be proved at this place of the source, and what the step there does
./mz prove --find FORM PATH..   prints what may be cited of this form, as '_ -> E. _ _', or '?a -> ?a'
./mz prove --find --for NAME PATH..  prints what may be cited for the goals of this theorem, and what is left open then

Beside NAME.proofs stands the specification NAME.mm0; the proof text NAME.mmu and the binary NAME.mmb are written there. A text
that prove hasn't made takes its place only with --force. The
environment's MZ is the program, if it isn't ./mz of this repository. The status is 0 where the specification is proved."""
REFUSED = re.compile(r"refused: (?P<what>specification|text|binary|match)(?: declaration \d+)? statement (?P<number>\d+)"
                     r"(?: at byte (?P<byte>\d+))?: ")


def examined(path, memory=None):
    """What a source gives: its writer, or nothing, and the problems, each Wrong with its place. The writer has the gaps.
    A memory has the texts of an editor, and what was found of them before."""
    sys.setrecursionlimit(20000)
    try:
        writer = Writer(Development(path, memory))
    except Wrong as why:
        return None, [why]
    except RecursionError:
        return None, [Wrong(f"{shown_path(path)} has a proof or a formula that nests too deep")]
    return writer, sorted(writer.development.problems + writer.problems, key=lambda it: in_order(it, writer.development.path))


def in_order(problem, path):
    """The source's problems as they stand there, behind those of other files."""
    place = problem.place
    return (False, 0) if place is None else (place.path == path, place.at)


class Program:
    """The program mz, which decides."""

    def __init__(self):
        self.path = os.environ.get("MZ") or os.path.join(TOP, "mz")

    def line(self, *words):
        """What it prints for these arguments, and whether its answer is yes."""
        try:
            ran = subprocess.run([self.path, *words], stdout=subprocess.PIPE, env={**os.environ, "MZ_EXPLAIN": "0"})
        except OSError as why:
            raise Wrong(f"the program {self.path} can't be run: {why.strerror}") from None
        if ran.returncode > 1:
            raise Wrong(f"the program {self.path} ends with {ran.returncode}")
        return ran.stdout.decode("ascii", "replace").rstrip("\n"), ran.returncode == 0


def proved(writer, program):
    """Compiles the text that is written, and verifies the binary; what is printed, and whether all is proved."""
    files = writer.development
    spec, text, binary = map(files.file, (".mm0", ".mmu", ".mmb"))
    is_draft = bool(writer.gaps)
    for words in (("compile_draft" if is_draft else "compile", text, binary), ("draft" if is_draft else "verify", spec, binary)):
        line, is_yes = program.line(*words)
        if not is_yes:
            return "\n".join([at_source(line, writer), *explained(line, words)]), False
    return line, not is_draft


def at_source(line, writer):
    """A refusal by the program, with the place of the specification or of the source that it is about."""
    found = REFUSED.match(line)
    place = found and refused_place(found["what"], int(found["number"]), found["byte"], writer)
    return f"{report('the program refuses this', place, (), is_explaining())}\n{line}" if place else line


def explained(line, words):
    """On a terminal, what scripts/explain says of a refusal, where it is there."""
    try:
        from explain import refusal
    except ImportError:
        return []
    return [refusal(line, list(words)).rstrip("\n")] if is_explaining() else []


def refused_place(what, number, byte, writer):
    if what == "specification":
        return Source(writer.development.file(".mm0")).place(int(byte))
    return writer.place_at(number, int(byte) if what == "text" and byte else None)


def is_explaining():
    """Whether the line of a place is shown, too: on a terminal, or as MZ_EXPLAIN says."""
    return {"1": True, "0": False}.get(os.environ.get("MZ_EXPLAIN"), sys.stdout.isatty())


def run(path, option, program, is_forced=False):
    """Does what the command says for one source; what is printed, and whether it is right."""
    writer, problems = examined(path)
    name = shown_path(source_path(path))
    if writer and option == "--fill":
        return fill(writer, problems)
    said = [it.report(is_explaining()) for it in problems or with_found(writer)]
    if problems:
        many = "1 problem" if len(problems) == 1 else f"{len(problems)} problems"
        return [*said, f"{name}: {many}, nothing is written"], False
    text, made = writer.development.file(".mmu"), writer.text()
    if option == "--check":
        is_same = os.path.exists(text) and open(text, encoding="ascii").read() == made
        return [*said, f"{shown_path(text)} is{'' if is_same else ' not'} what {name} makes"], is_same
    if not is_forced:
        keep_foreign(text, writer.head, made)
    replace(text, made)
    if option == "--text":
        return [*said, f"{shown_path(text)} is written", *told(writer)], not writer.gaps
    line, is_right = proved(writer, program)
    return [*said, line], is_right


def fill(writer, problems):
    """Writes what is found for the gaps into the source; what is printed, and whether nothing is left open."""
    path, memory = writer.development.path, writer.development.memory

    def judged(text):
        memory.buffers[path] = text
        return examined(path, memory)

    text, lines, is_filled = filled(writer, judged)
    if text != writer.development.text:
        replace(path, text)
    return [*(it.report(is_explaining()) for it in problems), *(lines or ["there is no gap"])], is_filled and not problems


def keep_foreign(path, head, made):
    """Refuses to take the place of a text that something else has made."""
    if not os.path.exists(path):
        return
    with open(path, encoding="latin-1") as file:
        found = file.read(len(made) + 1)
    if not found.startswith(head) and found != made.removeprefix(head):
        raise Wrong(f"{shown_path(path)} wasn't made by prove, or its first line would say so: it stays. With --force it is replaced")


def replace(path, text):
    """Writes a file: the whole of it, or nothing."""
    try:
        with tempfile.NamedTemporaryFile("w", encoding="ascii", dir=os.path.dirname(path), delete=False) as file:
            file.write(text)
        os.chmod(file.name, 0o644)
        os.replace(file.name, path)
    except OSError as why:
        raise Wrong(f"{shown_path(path)} can't be written: {why.strerror}") from None


def start(path):
    """A source for a specification, in which each proof is left open."""
    lines = [f"-- The proofs of {os.path.basename(path)}."]
    for it in Reader(Source(path), Theory()).specification():
        if it.kind == "theorem":
            lines.append(f"theorem {it.name} = sorry;")
        elif it.kind == "def" and it.body is None:
            lines.append(f"-- def {it.name} = $ .. $;")
    return lines


def main(words):
    is_forced, words = "--force" in words, [it for it in words if it != "--force"]
    option = words[0] if words and words[0] in ("--check", "--text", "--start", "--fill", "--find", "--at") else None
    is_for = words[:2] == ["--find", "--for"]
    paths = words[3 if is_for else 2 if option in ("--find", "--at") else 1 if option else 0 :]
    if not paths or any(it.startswith("-") for it in paths):
        print(USAGE)
        return 2
    try:
        if option == "--start":
            print(*(line for it in paths for line in start(it)), sep="\n")
            return 0
        if option == "--at":
            print(*at(words[1], paths), sep="\n")
            return 0
        if is_for:
            print(*(line for it in paths for line in fitting(whole(it), words[2])), sep="\n")
            return 0
        if option == "--find":
            print(*(line for it in paths for line in found(Development(it), words[1])), sep="\n")
            return 0
        return 0 if all([shown(it, option, len(paths) > 1, is_forced) for it in paths]) else 1
    except Wrong as why:
        print(why.report(is_explaining()))
        return 1


def at(place, paths):
    """What there is at a place, LINE:COL, of a source."""
    found = re.fullmatch(r"(\d+):(\d+)", place)
    if not found or len(paths) != 1:
        raise Wrong("--at takes a place, LINE:COL, and one source")
    writer = whole(paths[0])
    line, column = map(int, found.groups())
    starts = Source(writer.development.path, writer.development.text).starts
    if not 0 < line <= len(starts):
        raise Wrong(f"{shown_path(writer.development.path)} has {len(starts)} lines")
    made = view(writer, starts[line - 1] + column - 1)
    if made is None:
        raise Wrong(f"{shown_path(writer.development.path)}:{place}: no theorem stands here")
    looked, offset = made
    return looked.here(looked.seen(offset)).text(f"{shown_path(writer.development.path)}:{place}").split("\n")


def whole(path):
    """The writer of a source that can be read."""
    writer, problems = examined(path)
    if writer is None:
        raise problems[0]
    return writer


def shown(path, option, is_named, is_forced):
    said, is_right = run(path, option, Program(), is_forced)
    if is_named:
        print(f"{shown_path(source_path(path))}:")
    print(*said, sep="\n", flush=True)
    return is_right
