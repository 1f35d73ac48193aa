"""Completion in bash: the part of editors/bash/mz.bash that lists the commands and the endings of their files."""
BEGIN, END = "# (begin: made of scripts/manual/commands.txt)", "# (end)"


def table(manual):
    """The lines between the comments: the commands, and which files stand at which place."""
    names = "\\n".join(it.name for it in manual.commands)
    lines = [f"_mz_commands=$'{names}'", "_mz_ending() { # the ending of the file at a place behind a command", "    case $1:$2 in"]
    ends = {}
    for it in manual.commands:
        for number, ending in enumerate(it.files, 1):
            ends.setdefault(ending, []).append(f"{number}:{it.name}")
    lines += [f"        {' | '.join(places)}) echo {ending} ;;" for ending, places in sorted(ends.items())]
    lines += ["    esac", "}", "_mz_options() { # the options of a command", "    case $1 in"]
    lines += [f"        {it.name}) echo '{' '.join(it.flags())}' ;;" for it in manual.commands if it.options]
    return "\n".join([BEGIN, *lines, "    esac", "}", END])


def renewed(text, manual):
    """The file with its table made anew."""
    before, _, rest = text.partition(BEGIN)
    _, _, behind = rest.partition(END)
    return before + table(manual) + behind
