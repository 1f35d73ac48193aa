"""The crates that a program stands on, by the repository's crates.txt."""
import os
import re
import shutil
import subprocess

SUM = os.path.join(os.path.dirname(os.path.abspath(__file__)), "sum")
PARTS = ("src", "specs", "proofs", "c", "data")
STREAMS = ("stdin", "stdout", "args", "status")


def said(root, crate, *more):
    ran = subprocess.run(["sh", SUM, root, crate, *more], stdout=subprocess.PIPE, text=True, check=False)
    return ran.stdout.strip() if ran.returncode == 0 else ""


def checksum(root, crate):
    """The checksum of all that the crate's program is built of, or an empty text where there is no such crate."""
    return said(root, crate)


def rows_of(root, crate):
    """The rows of crates.txt for the crate and for those below it, each behind what it stands on."""
    return [it for it in said(root, crate, "rows").split("\n") if it]


def below_of(rows):
    """Of each crate the crates of these rows on which it stands."""
    uses = {re.match(r"[^ :]+", it)[0]: it.partition(":")[2].split() for it in rows}
    return {name: [it for it in used if it in uses] for name, used in uses.items()}


def copy(root, rows, room):
    """Copies what the rows name into the folder, as the top of a repository, without must-fail edits."""
    os.mkdir(os.path.join(room, ".git"))
    with open(os.path.join(room, "crates.txt"), "w", encoding="utf-8") as file:
        file.writelines(it + "\n" for it in rows)
    shutil.copyfile(os.path.join(root, "HANDLES"), os.path.join(room, "HANDLES"))
    for name in below_of(rows):
        crate, to = os.path.join(root, "crates", name), os.path.join(room, "crates", name)
        os.makedirs(to)
        for it in PARTS:
            if os.path.isdir(os.path.join(crate, it)):
                shutil.copytree(os.path.join(crate, it), os.path.join(to, it))
        for it in STREAMS:
            if os.path.isfile(os.path.join(crate, it)):
                shutil.copyfile(os.path.join(crate, it), os.path.join(to, it))


def subject(root, crate):
    """The first words of what the crate says of itself, at most 70 letters."""
    text = []
    for name in ("lib.rt", "main.rt"):
        path = os.path.join(root, "crates", crate, "src", name)
        if os.path.isfile(path):
            with open(path, encoding="utf-8") as file:
                for line in file:
                    if not line.startswith("//!"):
                        break
                    text.append(line[3:].strip())
            break
    words = re.split(r"[.:;(](?: |$)| \(", " ".join(text).strip())[0]
    return words if len(words) <= 70 else words[:68].rpartition(" ")[0] + " .."


def lines_of(root, crate):
    """How many lines the crate's sources and proofs have."""
    count = 0
    for part in ("src", "specs", "proofs"):
        for folder, _, files in os.walk(os.path.join(root, "crates", crate, part)):
            for name in files:
                with open(os.path.join(folder, name), "rb") as file:
                    count += file.read().count(b"\n")
    return count
