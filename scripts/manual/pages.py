"""What is made of commands.txt: help, the man page, and bash's list of commands."""
import textwrap

WIDTH = 100
TITLE = "mz: a verifier for Metamath Zero and a compiler of proof texts, proved right"
EXAMPLE = "./mz verify examples/double_negation.mm0 examples/double_negation.mmb"
FIRST = ("The first command that needs the program proves and builds it, for verify and show the verifier alone. On four "
         "processors that took 23 minutes, and 32 more for the rest; it is reported step by step, and done once.")


def wrapped(text, before=""):
    return textwrap.fill(text, WIDTH, initial_indent=before, subsequent_indent=before, break_long_words=False, break_on_hyphens=False)


def row(shape, does):
    behind = textwrap.wrap(does, WIDTH - 26)
    head = f"  {shape:<22}  "
    lines = [head + behind[0]] if len(shape) <= 22 else [f"  {shape}", " " * 26 + behind[0]]
    return "\n".join([*lines, *(" " * 26 + it for it in behind[1:])])


def overview(manual):
    """All commands, a line each."""
    parts = [
        "usage: mz COMMAND [ARGUMENT..]",
        TITLE,
        "The program:\n" + "\n".join(row(it.shape(), it.does) for it in manual.of_program()),
        "Around it:\n" + "\n".join(row(it.shape(), it.does) for it in manual.commands if not it.of_program),
        f"An example:\n  {EXAMPLE}",
        "Files:\n" + "\n".join(row(*it) for it in manual.kinds),
        "Exit numbers:\n" + "\n".join(f"  {number:>3}  {text}" for number, text in manual.exits),
        wrapped(FIRST),
        "To read on: mz help COMMAND, or mz COMMAND --help; README.md, examples/README.md; docs/RULES.md\n"
        "(what each refusal says), docs/TUTORIAL.md (a theory of one's own), docs/USING.md",
    ]
    return "\n\n".join(parts)


def of_command(command):
    """What one command does."""
    parts = [f"usage: mz {command.shape()}", wrapped(command.does[0].upper() + command.does[1:] + ".")]
    if command.options:
        parts.append("Also:\n" + "\n".join(row(f"{command.name} {it.shape}", it.does) for it in command.options))
    if command.more:
        parts.append(wrapped(" ".join(command.more)))
    if command.files:
        named = [f"{word} .{ending}" for word, ending in zip(command.words, command.files)]
        parts.append("Usual endings: " + ", ".join(named))
    parts.append(f"An example: {command.example}")
    if command.read:
        parts.append(f"To read on: {command.read}")
    return "\n\n".join(parts)


def roff(text):
    """The text as roff takes it, what stands between backquotes in bold."""
    pieces = text.replace("\\", "\\e").replace("-", "\\-").split("`")
    made = "".join(f"\\fB{it}\\fR" if number % 2 else it for number, it in enumerate(pieces))
    return "\\&" + made if made.startswith((".", "'")) else made


def man_entry(command):
    words = " ".join(f"\\fI{roff(it)}\\fR" for it in command.words)
    does = roff(command.does[0].upper() + command.does[1:] + ".")
    lines = [".TP", f"\\fB{roff(command.name)}\\fR {words}".rstrip(), " ".join([does, *map(roff, command.more)])]
    forms = [line for it in command.options for line in (".br", f"\\fB{roff(f'{command.name} {it.shape}')}\\fR: {roff(it.does)}.")]
    return "\n".join([*lines, *forms, ".br", f"Example: \\fB{roff(command.example)}\\fR"])


def man_page(manual):
    """The page mz.1."""
    name, _, is_what = TITLE.partition(": ")
    parts = [
        '.\\" Made of scripts/manual/commands.txt by scripts/manual --write.',
        '.TH MZ 1 "" "mz" "User commands"',
        f".SH NAME\n{name} \\- {roff(is_what)}",
        ".SH SYNOPSIS\n\\fBmz\\fR \\fICOMMAND\\fR [\\fIARGUMENT\\fR..]",
        f".SH DESCRIPTION\n{roff(FIRST)}",
        ".SH COMMANDS OF THE PROGRAM",
        *map(man_entry, manual.of_program()),
        ".SH COMMANDS AROUND IT",
        *(man_entry(it) for it in manual.commands if not it.of_program),
        ".SH FILES",
        *(f".TP\n{roff(ending)}\n{roff(text[0].upper() + text[1:])}." for ending, text in manual.kinds),
        ".SH EXIT STATUS",
        *(f".TP\n{number}\n{roff(text[0].upper() + text[1:])}." for number, text in manual.exits),
        ".PP\nFrom 2 to 7 a word on standard error names the cause.",
        ".SH ENVIRONMENT",
        *(f".TP\n{name}\n{roff(text)}" for name, text in manual.variables),
        ".SH SEE ALSO\nREADME.md, docs/TUTORIAL.md, docs/USING.md, docs/FORMAT.md and docs/RULES.md of the repository.",
    ]
    return "\n".join(parts) + "\n"
