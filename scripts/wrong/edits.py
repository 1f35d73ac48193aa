"""Reads edits: a file of lines `file:`, `old:` and `new:`, which makes a wrong body of a right one.

The text behind `old:` stands once in the crate's file that the last `file:` names; the one behind `new:` takes its place.
"""
import os
import re
from dataclasses import dataclass

FILE = re.compile(r"src/[a-z0-9_/]+\.rt")
NAME = re.compile(r"[a-z0-9_]+\.edit")


class Unfit(Exception):
    """An edit that can't be read, or that doesn't fit the sources."""


@dataclass(frozen=True)
class Change:
    """One text of a file, and what takes its place."""

    file: str
    old: str
    new: str


@dataclass(frozen=True)
class Edit:
    """A wrong body: where it stands, and what it changes."""

    path: str

    @property
    def name(self):
        return os.path.basename(self.path).partition(".")[0]

    @property
    def crate(self):
        return os.path.basename(os.path.dirname(os.path.dirname(self.path)))

    def changes(self):
        with open(self.path, encoding="utf-8") as file:
            return parsed(file.read())


def parsed(text):
    """The changes that an edit's text asks for."""
    changes, file, old = [], None, None
    for line in filter(str.strip, text.split("\n")):
        word, _, rest = line.partition(":")
        rest = rest[1:] if rest.startswith(" ") else rest
        if word == "file" and old is None:
            file = rest.strip()
            if not FILE.fullmatch(file):
                raise Unfit(f"names {file}, which is no file of src/")
        elif word == "old" and file and old is None and rest:
            old = rest
        elif word == "new" and old is not None:
            if rest == old:
                raise Unfit(f"changes nothing: {old.strip()}")
            changes.append(Change(file, old, rest))
            old = None
        else:
            raise Unfit(f"has a line that isn't read there: {line.strip()}")
    if old is not None or not changes:
        raise Unfit("ends without a `new:`")
    return changes


def applied(changes, folder):
    """Yields each change with the text of its file as the changes before it have left it, and the text that it leaves."""
    texts = {}
    for change in changes:
        whole = os.path.join(folder, change.file)
        if not os.path.isfile(whole):
            raise Unfit(f"names {change.file}, which isn't there")
        if change.file not in texts:
            with open(whole, encoding="utf-8") as file:
                texts[change.file] = file.read()
        before = texts[change.file]
        if before.count(change.old) != 1:
            raise Unfit(f"changes a text that stands {before.count(change.old)} times in {change.file}: {change.old.strip()}")
        texts[change.file] = before.replace(change.old, change.new)
        yield change, before, texts[change.file]


def found(top, folder, words=()):
    """The edits in a folder of each crate; with words those of these crates, or of these names."""
    edits = []
    for crate in sorted(os.listdir(os.path.join(top, "crates"))):
        inner = os.path.join(top, "crates", crate, folder)
        names = sorted(os.listdir(inner)) if os.path.isdir(inner) else []
        edits += [Edit(os.path.join(inner, it)) for it in names]
    return [it for it in edits if not words or it.crate in words or it.name in words]
