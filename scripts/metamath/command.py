"""The commands: ./mz import, ./mz export, ./mz same."""
import os
import sys
import threading

from explore.lexemes import Unreadable
from explore.program import Refused

from .export_command import export
from .import_command import import_
from .same_command import same
from .telling import CANT_WRITE, OUT_FAULT, Failed

USAGE = """usage: mz import DB.mm DIR [--theorem LABEL].. [--name N] [--text] [--axioms] [--plain] [--provable C=S]
       mz export SPEC BIN OUT.mm [--text TEXT] [--definitions]
       mz same SPEC DB.mm [--provable C] [--exported]
mz help COMMAND says what each does."""
FLAGS = {"import": ("--axioms", "--plain", "--text"), "export": ("--definitions",), "same": ("--exported",)}
VALUES = {"import": ("--theorem", "--name", "--provable"), "export": ("--text",), "same": ("--provable",)}
PLACES = {"import": 2, "export": 3, "same": 2}
STACK = 1 << 30  # bytes; expressions and proofs nest deep, and so do the calls for them


def options_of(name, words):
    """The arguments of a command and its options; None where they are none of it."""
    arguments, options, words = [], {"--theorem": []}, iter(words)
    for it in words:
        if it in FLAGS[name]:
            options[it] = True
        elif it in VALUES[name]:
            value = next(words, None)
            if value is None:
                return None
            if it == "--theorem":
                options[it].append(value)
            else:
                options[it] = value
        elif it.startswith("--"):
            return None
        else:
            arguments.append(it)
    return (arguments, options) if len(arguments) == PLACES[name] else None


def started(name, arguments, options, kept):
    """Runs a command, and gives the exit number."""
    if name == "import":
        return import_(*arguments, options.pop("--theorem"), options, kept)
    if name == "export":
        return export(*arguments, options.get("--text"), "--definitions" in options)
    return same(*arguments, options.get("--provable", "|-"), "--exported" in options)


def on_deep_stack(words, kept=None):
    """Runs a command in a thread of its own, and gives the exit number."""
    statuses = []
    sys.setrecursionlimit(1_000_000)
    threading.stack_size(STACK)
    runner = threading.Thread(target=lambda: statuses.append(main(words, kept)), daemon=True)
    runner.start()
    runner.join()
    return statuses[0] if statuses else 1


def main(words, kept=None):
    """Runs a command; `kept`: a database and its check, where both were read before."""
    name, *words = words or [""]
    if sys.stdout is None:
        return told(name, "standard output is closed", OUT_FAULT)
    found = options_of(name, words) if name in PLACES else None
    if found is None:
        print(USAGE, file=sys.stderr)
        return 2
    try:
        status = started(name, *found, kept)
        sys.stdout.flush()
        return status
    except Refused as refused:
        print(refused)
        return refused.status
    except Failed as failed:
        return told(name, failed, failed.status)
    except OSError as fault:
        if fault.filename is None:
            os.dup2(os.open(os.devnull, os.O_WRONLY), sys.stdout.fileno())
            return told(name, f"standard output can't be written: {fault.strerror}", OUT_FAULT)
        return told(name, f"{fault.filename} can't be written: {fault.strerror}", CANT_WRITE)
    except (ValueError, Unreadable) as fault:
        return told(name, fault, 1)
    except MemoryError:
        return told(name, "no memory was left", 4)


def told(name, why, status):
    print(f"mz {name}: {why}", file=sys.stderr)
    return status
