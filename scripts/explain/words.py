"""Arguments that the program doesn't take, and files that it could not read or write."""
import difflib
import os
import re
import stat

import manual


def usage(words):
    """What is wrong with the arguments, or an empty text where the program takes them."""
    book = manual.read()
    if not words:
        return "no command is named: ./mz help lists all"
    command = book.named(words[0])
    if command is None or not command.of_program:
        names = [it.name for it in book.commands]
        near = difflib.get_close_matches(words[0].lstrip("-"), names, 1, 0.5)
        guess = f"; the nearest is {book.named(near[0]).shape()}" if near else ""
        return f"'{words[0]}' is no command{guess}. ./mz help lists all"
    return of_command(command, words[1:])


def of_command(command, given):
    wanted = f"the shape is ./mz {command.shape()}"
    if len(given) < len(command.words):
        missing = ", ".join(command.words[len(given) :])
        return f"{command.name} takes {counted(len(command.words))}; {missing} {'is' if len(command.words) == len(given) + 1 else 'are'} missing; {wanted}"
    if len(given) > len(command.words):
        return f"{command.name} takes {counted(len(command.words))}; '{given[len(command.words)]}' is one too many; {wanted}"
    if command.name == "sample" and not (re.fullmatch(r"[1-9][0-9]*", given[0]) and int(given[0]) <= 10000):
        return f"'{given[0]}' is no number from 1 to 10000, without a sign or leading zeros; {wanted}"
    return ""


def counted(number):
    return {1: "one argument", 2: "two arguments", 3: "three arguments"}.get(number, f"{number} arguments")


def inputs_and_outputs(words):
    """The files that the arguments name: those that are read, and those that are written."""
    command = manual.read().named(words[0]) if words else None
    pairs = list(zip(command.words, words[1:])) if command else []
    return [path for word, path in pairs if word not in ("OUT", "N")], [path for word, path in pairs if word == "OUT"]


def not_there(words):
    """Why the files that the words name for reading can't be read. One that can be read only once is left alone."""
    read, _ = inputs_and_outputs(words)
    return [it for path in read if os.path.isfile(path) or os.path.isdir(path) or not os.path.exists(path) for it in [why_not_read(path)] if it]


def why_not_read(path):
    try:
        with open(path, "rb") as file:
            file.read(1)
    except OSError as error:
        return why(path, error)
    return ""


def why(path, error):
    """Why a file could not be opened, with what is there instead where something is."""
    if isinstance(error, IsADirectoryError):
        return f"{path} is a directory"
    if isinstance(error, (FileNotFoundError, NotADirectoryError)):
        return no_such(path)
    if isinstance(error, PermissionError):
        return f"{path}: no permission"
    return f"{path}: {error.strerror or error}"


def no_such(path):
    folder = os.path.dirname(path) or "."
    if not os.path.isdir(folder):
        return f"{path}: there is no directory {folder}"
    near = difflib.get_close_matches(os.path.basename(path), os.listdir(folder), 1)
    return f"{path}: no such file" + (f"; near it is {os.path.join(os.path.dirname(path), near[0])}" if near else "")


def why_not_written(path):
    """Why a file could not be written. It is looked at, and not tried: it may hold what is to stay."""
    folder = os.path.dirname(path) or "."
    if os.path.isdir(path):
        return f"{path} is a directory"
    if not os.path.isdir(folder):
        return f"{path}: there is no directory {folder}"
    if os.path.exists(path) and not os.access(path, os.W_OK):
        return f"{path}: no permission to write it"
    if not os.path.exists(path) and not os.access(folder, os.W_OK):
        return f"{path}: no permission to write in {folder}"
    return room_at(path, folder)


def room_at(path, folder):
    if os.path.exists(path) and stat.S_ISCHR(os.stat(path).st_mode):
        return f"{path}: the device takes no more"
    found = os.statvfs(folder)
    if found.f_flag & os.ST_RDONLY:
        return f"{path}: {folder} is on a file system that is only read"
    free = found.f_bavail * found.f_frsize
    if not found.f_blocks:
        return f"{path}: the system refused it; {folder} is on no disk"
    return f"{path}: the disk is full" if free < 1 << 20 else f"{path}: the system refused it; {free >> 20} MB are free there"


def why_fault(status, words):
    """Why a file was not read (3), nothing could be written (5, 6), memory ran out (4) or a file is too long (7)."""
    read, written = inputs_and_outputs(words)
    if status == 3:
        return [it for it in map(why_not_read, read) if it] or ["each file that is named can be read now: it was not when the program ran, or can be read only once"]
    if status == 5:
        return [why_not_written(it) for it in written]
    if status == 6:
        return ["standard output is closed, or what it is written to is full"]
    if status == 4:
        return ["no memory was left: all files are read into memory whole (docs/PERFORMANCE.md has what was measured)"]
    if status == 7:
        return [f"{it} has {os.path.getsize(it):,} bytes, and 4,294,967,295 are the most" for it in read if os.path.isfile(it) and os.path.getsize(it) > 4294967295]
    return []
