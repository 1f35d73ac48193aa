"""Runs the program of a crate without its proof: the same sources, compiled and not proved, for a first look.

What it says goes to standard error, each line behind "unproved: ", and the exit number is 125, so that nobody takes it for
an answer. Nothing is kept of the program. `rt try` compiles and runs it.
"""
import os
import re
import shutil
import subprocess
import sys

import explain
from build.program import FAILED, WITHOUT, say

ENDED = re.compile(r"run=ended status=(\d+) .*proved=no\n\Z")
OF_THE_KIT = re.compile(r"(checked|interpreter|races): |(run|call)=")
SECONDS = 600
STARTS = "the sources are compiled without their proof, which takes about a minute; nothing is kept of it"
ENDS = "unproved: this build's proof has not been checked on this machine, so nothing rests on what it says"


def absolute(word):
    """An argument, as a program takes it that runs in another folder."""
    return word if word.isdigit() else os.path.abspath(word)


def attempt(root, crate, words):
    """Runs the program; its exit number, or None where it gave none, and what was written on both streams."""
    command = ["rt", "try", "--seconds", str(SECONDS), "--", words[0], *map(absolute, words[1:])]
    how = {"cwd": os.path.join(root, "crates", crate), "stdout": subprocess.PIPE, "stderr": subprocess.PIPE}
    ran = subprocess.run(command, check=False, text=True, errors="replace", **how)
    ended = ENDED.search(ran.stderr)
    return int(ended[1]) if ended else None, ran.stdout, ran.stderr


def explained(status, said, words):
    """What is said of a refusal or a fault."""
    if status == 1:
        return explain.refusal(said.rstrip("\n").rpartition("\n")[2], words)
    return explain.fault(status, words) if status in range(2, 8) else ""


def main(root, crate, words):
    """Tells what the program says. The exit number is 125, whatever that is."""
    if not shutil.which("rt"):
        say(f"there is no rt, the command of the Rattle kit, to compile the program: {WITHOUT}")
        return FAILED
    say(STARTS)
    status, said, complained = attempt(root, crate, words)
    if status is None:
        say(f"the program gave no answer. rt try says:\n{complained.rstrip()}")
        return FAILED
    own = [it for it in complained.splitlines() if not OF_THE_KIT.match(it)]
    lines = [f"unproved: {it}" for it in (*said.splitlines(), *own)]
    if os.environ.get("MZ_EXPLAIN") != "0":
        lines += explained(status, said, words).splitlines()
    print(*lines, f"mz: {ENDS}", sep="\n", file=sys.stderr)
    return FAILED
