"""Runs mz."""
import os
import subprocess

TOP = os.path.dirname(os.path.dirname(os.path.dirname(os.path.abspath(__file__))))


class Refused(Exception):
    """What the program printed, where its answer isn't yes."""

    def __init__(self, printed, status):
        super().__init__(printed.strip().split("\n")[-1] if printed.strip() else f"mz ended with {status}")
        self.line, self.status = str(self), status


def program():
    """The program's path: the environment's MZ, or the script at the top of the repository."""
    named = os.environ.get("MZ")
    if not named:
        return os.path.join(TOP, "mz")
    return os.path.abspath(named) if os.sep in named else named


def run(*words, environment=None):
    """What the program prints, where it says yes."""
    variables = {**os.environ, "MZ_EXPLAIN": "0", **(environment or {})}
    ran = subprocess.run([program(), *words], stdout=subprocess.PIPE, stdin=subprocess.DEVNULL, env=variables)
    printed = ran.stdout.decode("utf-8", "replace")
    if ran.returncode:
        raise Refused(printed, ran.returncode)
    return printed
