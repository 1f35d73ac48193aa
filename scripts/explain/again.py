"""Asks the program once more for the line that it wrote, so that nothing stands between it and standard output before."""
import os
import subprocess
import threading

SECONDS = 60
LONGEST = 1 << 20  # of a line


def can_repeat(words):
    """Whether each file that the words name can be read a second time."""
    return all(os.path.isfile(it) or os.path.isdir(it) or not os.path.exists(it) for it in words)


def last_line(program, words):
    """The last line that the program writes for these words; an empty text where it can't be asked again."""
    if not can_repeat(words[1:]):
        return ""
    how = {"stdin": subprocess.DEVNULL, "stdout": subprocess.PIPE, "stderr": subprocess.DEVNULL}
    try:
        with subprocess.Popen([program, *words], **how) as ran:
            limit = threading.Timer(SECONDS, ran.kill)
            limit.start()
            kept = end_of(ran.stdout)
            limit.cancel()
    except (OSError, RuntimeError):
        return ""
    return kept.decode("utf-8", "replace").rstrip("\n").rpartition("\n")[2]


def end_of(stream):
    """The end of what comes, of a listing of any length."""
    kept = b""
    while True:
        more = stream.read(LONGEST)
        if not more:
            return kept
        kept = (kept + more)[-LONGEST:]
