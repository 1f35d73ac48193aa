"""Plays a session: Neovim with the files of editors/vim as they are installed, in a folder of its own."""
import difflib
import glob
import os
import shutil
import subprocess
import tempfile

HERE = os.path.dirname(os.path.abspath(__file__))
TOP = os.path.dirname(os.path.dirname(HERE))
SECONDS = 600
REMARK, INPUT = "-- ", "> "
OPTIONS = "set columns=150 lines=60 cmdheight=15 nomore completeopt=menuone,noselect"  # room enough for Neovim to wait for no key


def sessions():
    return sorted(glob.glob(os.path.join(TOP, "examples", "*", "*.session")))


def lines_of(path):
    with open(path, encoding="utf-8", errors="replace") as file:
        return file.read().split("\n")


def inputs(lines):
    return [it.removeprefix(INPUT) for it in lines if it.startswith(INPUT)]


def with_remarks(lines, seen):
    """What is seen, with the remarks of a session: each before the input, or the end, before which it stood."""
    remarks, waiting = [], []
    for line in lines:
        if line.startswith(REMARK) or not line:
            waiting.append(line)
        elif line.startswith(INPUT):
            remarks.append(waiting)
            waiting = []
    made, number = [], 0
    for line in seen:
        if line.startswith(INPUT):
            made += remarks[number]
            number += 1
        made.append(line)
    return [*made, *waiting]


def environment(room):
    """Neovim finds the files of editors/vim as a package, and nothing of the user's; mz is in the path."""
    homes = {f"XDG_{it}_HOME": os.path.join(room, it.lower()) for it in ("DATA", "CONFIG", "STATE", "CACHE")}
    package = os.path.join(homes["XDG_DATA_HOME"], "nvim", "site", "pack", "mz", "start")
    os.makedirs(package)
    os.symlink(os.path.join(TOP, "editors", "vim"), os.path.join(package, "mz"))
    return {**os.environ, **homes, "PATH": f"{TOP}:{os.environ['PATH']}", "MZ_EXPLAIN": "0",
            "MZ_INPUTS": os.path.join(room, "inputs"), "MZ_SEEN": os.path.join(room, "seen")}


def played(keys, folder, *options):
    """What is seen when these keys are typed in this folder."""
    with tempfile.TemporaryDirectory() as room:
        variables = environment(room)
        with open(variables["MZ_INPUTS"], "w", encoding="utf-8") as file:
            file.write("".join(f"{it}\n" for it in keys))
        words = ["nvim", "--headless", "-i", "NONE", "-n", "--cmd", OPTIONS, *options, "-c", f"luafile {HERE}/player.lua"]
        ran = subprocess.run(words, cwd=folder, env=variables, stdin=subprocess.DEVNULL, stdout=subprocess.PIPE,
                             stderr=subprocess.STDOUT, timeout=SECONDS, check=False)
        if not os.path.exists(variables["MZ_SEEN"]):
            raise OSError(f"Neovim ended with {ran.returncode}: {ran.stdout.decode('utf-8', 'replace')[-500:]}")
        return lines_of(variables["MZ_SEEN"])[:-1]


def play(path, is_check):
    """Plays a session; lines that say what is another than it was."""
    lines, (stem, _) = lines_of(path), os.path.splitext(path)
    with tempfile.TemporaryDirectory() as room:
        shutil.copy(f"{stem}.mm0", room)
        made = with_remarks(lines, played(inputs(lines), room))
        left = [it for it in sorted(os.listdir(room)) if not is_same(os.path.join(room, it), os.path.join(os.path.dirname(path), it))]
    name = os.path.relpath(path, TOP)
    different = [f"{name}: {it} isn't what the session leaves" for it in left]
    if is_check:
        return different + [it.rstrip("\n") for it in difflib.unified_diff(lines, made, name, "as it is seen", n=1)]
    with open(path, "w", encoding="utf-8") as file:
        file.write("\n".join(made))
    return different


def is_same(path, other):
    if not os.path.exists(other):
        return False
    with open(path, "rb") as one, open(other, "rb") as two:
        return one.read() == two.read()
