"""What is wrong in a document: what the program says of it, with what can be said besides."""
import os
import re
import tempfile

from explore.program import TOP, Refused, run

ERROR, WARNING = 1, 2
NOT_BUILT = 125
# An open proof, or a comment, in which none is looked for.
_SORRY = re.compile(r"(?:(?<=[\s()])|^)--[^\n]*|(:sorry)(?![^\s()])", re.M)


class NoProgram(Exception):
    """The program can't be run, and why."""


class Diagnostics:
    def __init__(self, workspace):
        self.workspace = workspace

    def of(self, document):
        """The diagnostics of a document, as the protocol has them."""
        found = {"mm0": self._specification, "mmu": self._text, "proofs": self._source}.get(document.kind, lambda _: [])
        with tempfile.TemporaryDirectory(prefix="mz-serve-") as self.room:
            return found(document)

    def _put(self, name, text):
        path = os.path.join(self.room, name)
        with open(path, "w", encoding="utf-8", errors="surrogateescape", newline="") as file:
            file.write(text)
        return path

    def _refusal(self, *words):
        """The line of a refusal, or nothing where the program says yes."""
        try:
            run(*words, environment={"MZ_BUILD": "never"})
            return None
        except Refused as refused:
            if refused.status == NOT_BUILT:
                raise NoProgram("mz isn't built. Any command of it, as ./mz verify, builds it first.") from refused
            if not refused.line.startswith(("refused: ", "limit: ")):
                raise NoProgram(refused.line) from refused
            return refused.line
        except OSError as fault:
            raise NoProgram(f"mz can't be run: {fault.strerror}") from fault

    def _specification(self, document):
        words = "verify", self._put("text.mm0", document.text), self._put("empty.mmb", "")
        line = self._refusal(*words)
        return [self._at_byte(document, line, words)] if line and line.startswith("refused: specification") else []

    def _text(self, document):
        text, binary = self._put("text.mmu", document.text), os.path.join(self.room, "made.mmb")
        gaps = [_diagnostic(document.range(it.start(), it.end()), "An open proof", WARNING, "U15")
                for it in _SORRY.finditer(document.text) if it[1]]
        words = "compile_draft", text, binary
        line = self._refusal(*words)
        if line:
            return [self._at_byte(document, line, words), *gaps]
        return [*self._match(document, binary), *gaps]

    def _match(self, document, binary):
        """What the specification beside a text has against what it is compiled to."""
        spec = self.workspace.beside(document, "mm0")
        if spec is None:
            return []
        words = "draft", self._put("spec.mm0", spec.text), binary
        line = self._refusal(*words) or ""
        found = re.match(r"refused: match declaration \d+ statement (\d+): (\w+)", line)
        if not found:
            return []
        entries = self.workspace.names(document).entries
        number = int(found[1])
        entry = entries[min(number, len(entries)) - 1] if entries else None
        start = entry.name_start if entry else 0
        end = start + len(entry.name) if entry else 0
        message = _explained(line, words).replace(words[1], os.path.basename(spec.path))
        return [_diagnostic(document.range(start, end), f"{os.path.basename(spec.path)}: {message}", ERROR, found[2])]

    def _source(self, document):
        """What is said of a source, without the program."""
        writer, problems = self.workspace.examined(document)
        made = [self._problem(document, it, ERROR) for it in problems]
        return made + [self._problem(document, it, WARNING) for it in (writer.gaps if writer else ())]

    def _problem(self, document, problem, severity):
        """A problem at its place; of one in another file the place is told, and it stands at the top."""
        place, why = problem.place, problem.why
        is_here = place and os.path.abspath(place.path) == os.path.abspath(document.path)
        start = place.at if is_here else 0
        if place and not is_here:
            why = f"{os.path.basename(place.path)}:{place.line}:{place.column}: {why}"
        said = [why, *(f"{label}: {text}" for label, texts in problem.details for text in texts)]
        return _diagnostic(document.range(start, _end(document, start)), "\n".join(said), severity, None)

    def _at_byte(self, document, line, words):
        found = re.match(r"(?:refused: .* at byte (\d+): (\w+) )|limit: (\w+)", line)
        start = document.byte(int(found[1])) if found and found[1] else 0
        code = found and (found[2] or found[3])
        return _diagnostic(document.range(start, _end(document, start)), _explained(line, words), ERROR, code)


def _end(document, start):
    """The end of what begins here: a formula, a list on one line, a word, or a byte."""
    text = document.text
    if text.startswith("$", start) and "$" in text[start + 1 :]:
        return text.index("$", start + 1) + 1
    if text.startswith("(", start):
        depth = 0
        for i in range(start, len(text)):
            depth += {"(": 1, ")": -1}.get(text[i], 0)
            if depth == 0 or text[i] == "\n":
                return i + (depth == 0)
    return re.compile(r"\w+|[^\s()]+|.|$", re.S).match(text, start).end()


def _explained(line, words):
    """The rule of a refusal, and what more can be said of it."""
    try:
        from explain import refusal
        said = refusal(line, list(words))
    except ImportError:
        said = ""
    code = re.search(r": (\w+) ([^:]*)$", line)
    if code and code[1] in said:
        return said[said.index(code[1]) :].strip()
    return f"{line.rpartition(': ')[2]}. {_sentence(code[1] if code else '')}".rstrip(". ") + "."


def _sentence(code):
    """What a rule asks, as docs/RULES.md has it."""
    try:
        with open(os.path.join(TOP, "docs", "RULES.md"), encoding="utf-8") as file:
            found = re.search(rf"^### {code} .*\n\n(.*)", file.read(), re.M)
    except OSError:
        found = None
    return found[1].replace("`", "") if found else ""


def _diagnostic(range_, message, severity, code):
    made = {"range": range_, "severity": severity, "source": "mz", "message": message}
    if code:
        made["code"] = code
    return made
