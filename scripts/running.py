"""How a script begins and ends: what happens outside it is told in a line, and not by a traceback.

    running.whole(main)      ends the process with the number that main gives
    running.deep(main)       calls main with room for deep recursion, as much of it as can be had

Where main doesn't come to its end the number is the program's for the same: 3 where a file can't be read or written, 4 where
there is no memory (for a thread or a process neither), 6 where standard output can't be written; and 130 where the user ends it.
What is wrong in a script itself has its traceback.
"""
import contextlib
import errno
import os
import sys
import threading

FILE, MEMORY, OUTPUT, INTERRUPTED = 3, 4, 6, 130
NO_MEMORY = "there is no memory left"
NO_OUTPUT = "standard output can't be written"
STACKS = [512 << 20, 128 << 20, 32 << 20, 8 << 20]
BYTES_A_CALL = 10_000


class NoOutput(Exception):
    """Standard output can't be written."""


def whole(main):
    """Calls main, and ends the process with the number that it gives."""
    status = INTERRUPTED
    try:
        opened()
        status = ended(main)
        flushed()
    except NoOutput:
        status = told(NO_OUTPUT, OUTPUT)
    except KeyboardInterrupt:
        pass
    leave(status)


def ended(main):
    """The number that main gives, or the one for what happened outside it."""
    try:
        return main()
    except SystemExit as end:
        return end.code if isinstance(end.code, (int, type(None))) else told(end.code, 1)
    except BrokenPipeError:
        raise NoOutput from None
    except MemoryError:
        return told(NO_MEMORY, MEMORY)
    except RecursionError:
        return told("what is read nests too deep for the memory that is left", MEMORY)
    except OSError as error:
        return of_system(error)
    except RuntimeError as error:
        if "can't start new thread" not in str(error):
            raise
        return told(f"{NO_MEMORY} for a thread", MEMORY)


def of_system(error):
    """Says what the system refused."""
    if error.errno in (errno.ENOMEM, errno.EAGAIN):
        return told(NO_MEMORY, MEMORY)
    if error.filename is None and error.errno in (errno.ENOSPC, errno.EPIPE, errno.EBADF, errno.EIO):
        raise NoOutput from None
    return told(f"{os.fsdecode(error.filename)}: {error.strerror}" if error.filename is not None else str(error), FILE)


def opened():
    """Sees to it that the three streams are there; what a script doesn't open can't take their numbers then."""
    sys.stdin = sys.stdin or open(os.devnull, encoding="utf-8")
    if sys.stdout is None:
        raise NoOutput
    sys.stderr = sys.stderr or open(os.devnull, "w", encoding="utf-8")


def flushed():
    try:
        sys.stdout.flush()
    except OSError:
        raise NoOutput from None


def told(text, status):
    with contextlib.suppress(OSError, AttributeError):
        print(text if str(text).startswith("mz: ") or "\n" in str(text) else f"mz: {text}", file=sys.stderr, flush=True)
    return status


def leave(status):
    """Ends the process; what can't be written any more is dropped in silence."""
    for stream in (sys.stdout, sys.stderr):
        try:
            if stream is not None:
                stream.flush()
        except OSError:
            with contextlib.suppress(OSError):
                os.dup2(os.open(os.devnull, os.O_WRONLY), stream.fileno())
    sys.exit(status)


def deep(call):
    """Calls in a thread whose stack is as large as can be had."""
    results = []

    def run():
        try:
            results.append((call(), None))
        except BaseException as error:  # raised again where it is waited for
            results.append((None, error))

    for size in STACKS:
        threading.stack_size(size)
        sys.setrecursionlimit(size // BYTES_A_CALL)
        thread = threading.Thread(target=run, daemon=True)
        with contextlib.suppress(RuntimeError):
            thread.start()
            thread.join()
            break
    else:
        run()
    value, error = results[0]
    if error is not None:
        raise error
    return value
