"""A language server for .mm0, .mmu and .proofs, over standard input and output.

    python3 scripts/serve                  serves an editor
    python3 scripts/serve --check FILE..   prints what is wrong in these files, as FILE:LINE:COLUMN: error: what

The environment's MZ names the program; where it isn't built, it isn't built for this.
"""
import gc
import os
import sys

sys.dont_write_bytecode = True
sys.path.insert(0, os.path.dirname(os.path.dirname(os.path.abspath(__file__))))

import running  # noqa: E402
from serve.diagnostics import ERROR, Diagnostics, NoProgram  # noqa: E402
from serve.documents import ENDINGS, Workspace, uri_of  # noqa: E402
from serve.protocol import Channel  # noqa: E402
from serve.server import Server  # noqa: E402


def check(paths):
    """Prints what is wrong in files; 1 where there is an error."""
    workspace, errors = Workspace(), 0
    for path in paths:
        document = workspace.document(uri_of(path))
        if document is None or document.kind not in ENDINGS:
            print(f"{path}:1:1: error: {'no file' if document is None else 'no specification, text or source'}")
            errors += 1
            continue
        for it in Diagnostics(workspace).of(document):
            start, is_error = it["range"]["start"], it["severity"] == ERROR
            head, *more = it["message"].split("\n")
            print(f"{path}:{start['line'] + 1}:{start['character'] + 1}: {'error' if is_error else 'warning'}: {head}")
            print(*(f"    {line.rstrip()}" for line in more), sep="\n", end="\n" if more else "")
            errors += is_error
    return 1 if errors else 0


def main(words):
    if words[:1] == ["--check"] and len(words) > 1:
        try:
            return check(words[1:])
        except NoProgram as why:
            print(why, file=sys.stderr)
            return 125
    if words:
        print(__doc__.strip(), file=sys.stderr)
        return 2
    return Server(Channel(sys.stdin.buffer, sys.stdout.buffer)).run()


def serve():
    gc.set_threshold(50_000, 20, 100)  # what is kept lives long: to go through it at a keystroke would be felt
    status = running.deep(lambda: main(sys.argv[1:]))
    sys.stdout.flush()
    os._exit(status)  # what still waits for the editor is left


if __name__ == "__main__":
    running.whole(serve)
