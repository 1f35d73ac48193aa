"""Reads off the processes of a gate's run what each part of it takes.

A part is the proof of a crate, with its building, the proof with its tests, its must-fail edits, or one wrong body. The
processor seconds of a process are read each second, so what it takes in its last second is lost.
"""
import collections
import os
import re
import time

PROC = "/proc"
TICKS = os.sysconf("SC_CLK_TCK")
EDIT = re.compile(r"/tmp/rt-edits?-(?P<run>\d+)-")
COPY = re.compile(r"/tmp/rt-copy-(?P<run>\d+)-[^/]*/repo/crates/(?P<crate>\w+)")
BODY = re.compile(r"mz-wrong-(?P<crate>\w+)\.(?P<body>\w+)-")
NAME = re.compile(r"--crate-name\0(\w+)")


def read(pid, name):
    with open(f"{PROC}/{pid}/{name}", encoding="utf-8", errors="replace") as file:
        return file.read()


def folder_of(pid):
    return os.readlink(f"{PROC}/{pid}/cwd")


def is_within(folder, top):
    return folder == top or folder.startswith(top + "/")


def part_of(pid, top):
    """The part to which a process belongs, as (crate, kind, wrong body), or None."""
    words = read(pid, "cmdline")
    named = NAME.search(words)
    if not named or "rattle" not in os.path.basename(words.partition("\0")[0]):
        return None
    folder, kind = folder_of(pid), "tests" if "\0--test\0" in words else "proof"
    body = BODY.search(folder)
    if body:
        parent = re.search(r"^PPid:\s+(\d+)", read(pid, "status"), re.M)[1]
        return (body["crate"], "wrong", body["body"]) if is_within(folder_of(parent), top) else None
    edit, copy = EDIT.match(folder), COPY.match(folder)
    if edit:
        return (named[1], "edits", "") if is_within(folder_of(edit["run"]), top) else None
    if copy:
        return (copy["crate"], kind, "") if is_within(folder_of(copy["run"]), top) else None
    return (named[1], kind, "") if is_within(folder, os.path.join(top, "crates")) else None


def seconds_of(pid):
    """When a process was started, and the processor seconds that it has taken."""
    text = read(pid, "stat")
    fields = text[text.rindex(")") + 2 :].split()
    return fields[19], (int(fields[11]) + int(fields[12])) / TICKS


class Watch:
    """What was read off so far. `top` is the checkout in which the gate runs."""

    def __init__(self, top):
        self.top = os.path.realpath(top)
        self.parts = {}  # of each process, by its number and start
        self.seconds = {}

    def look(self):
        """Reads each process once."""
        for pid in filter(str.isdigit, os.listdir(PROC)):
            try:
                began, seconds = seconds_of(pid)
                key = (pid, began)
                # (a process may have just been forked, and become another program in a moment)
                if not self.parts.get(key):
                    self.parts[key] = part_of(pid, self.top)
                if self.parts[key]:
                    self.seconds[key] = seconds
            except (OSError, ValueError, IndexError):
                continue

    def sums(self):
        """The seconds of each part."""
        found = collections.Counter()
        for key, seconds in self.seconds.items():
            found[self.parts[key]] += seconds
        return found


def write(sums, path):
    """Writes the sums, a line for each part; nobody ever finds half a file."""
    with open(path + ".new", "w", encoding="utf-8") as file:
        for (crate, kind, body), seconds in sorted(sums.items()):
            file.write(f"{crate}\t{kind}\t{body}\t{seconds:.1f}\n")
    os.replace(path + ".new", path)


def sums_in(path):
    """The sums that a file has."""
    found = {}
    with open(path, encoding="utf-8") as file:
        for line in file:
            crate, kind, body, seconds = line.rstrip("\n").split("\t")
            found[crate, kind, body] = float(seconds)
    return found


def watch(top, path, pause=1.0):
    """Reads until it is interrupted, and writes every ten times."""
    at, turns = Watch(top), 0
    try:
        while True:
            at.look()
            turns += 1
            if turns % 10 == 0:
                write(at.sums(), path)
            time.sleep(pause)
    except KeyboardInterrupt:
        write(at.sums(), path)
