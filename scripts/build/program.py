"""Proves the crates of a program, builds it, and puts it into its place.

A program stands in PLACE/program/CRATE-SUM/, where SUM is the checksum of its sources and the kit, and PLACE is the folder
out/ of the checkout or, where that can't be used, ${XDG_CACHE_HOME:-~/.cache}/mz. Beside it stands BUILT, which says what it
is. The same text is kept in the record, ${XDG_STATE_HOME:-~/.local/state}/mz/built/CRATE-SUM, by which scripts/build/found
knows the program again.
"""
import contextlib
import fcntl
import hashlib
import os
import re
import shutil
import signal
import subprocess
import sys
import tempfile
import time

from build import costs, crates
from build.progress import Progress, about, clock, say

FAILED, INTERRUPTED, ENDED = 125, 130, 143
WHOLE = "mz_main"
COSTS = "2.5 GB of memory for each of these side by side, and 5.5 GB of disk"
MEMORY_A_PROOF = 2_500_000_000
WITHOUT = "docs/INSTALL.md says what can be done without it"
FOUND = os.path.join(os.path.dirname(os.path.abspath(__file__)), "found")


class Stopped(Exception):
    """A signal asks to end; the number is the exit number."""


def stop(number, _):
    raise Stopped(INTERRUPTED if number == signal.SIGINT else ENDED)


def of_user(variable, otherwise):
    """A folder of the user's, as the variable names it."""
    return os.environ.get(variable) or f"{os.environ.get('HOME', '')}/{otherwise}"


def own_folder(path, mode):
    """Whether the folder, made where it isn't there, is the user's own, and can be written by the user alone."""
    with contextlib.suppress(OSError):
        os.makedirs(path, exist_ok=True)
        if os.stat(path).st_uid == os.geteuid():
            os.chmod(path, mode)
            with tempfile.TemporaryFile(dir=path):
                return True
    return False


def place_of(root):
    """Where programs are kept; or None."""
    places = (os.path.join(root, "out", "program"), os.path.join(of_user("XDG_CACHE_HOME", ".cache"), "mz", "program"))
    return next((it for it in places if own_folder(it, 0o755)), None)


def record_of():
    """Where it is recorded what was built; or None."""
    record = os.path.join(of_user("XDG_STATE_HOME", ".local/state"), "mz", "built")
    return record if own_folder(record, 0o700) else None


@contextlib.contextmanager
def alone(place):
    """Holds the place; where another build does, waits for it to end."""
    with open(os.path.join(place, "lock"), "w", encoding="utf-8") as lock:
        try:
            fcntl.flock(lock, fcntl.LOCK_EX | fcntl.LOCK_NB)
        except BlockingIOError:
            say("another build is at work here; waiting for it to end")
            fcntl.flock(lock, fcntl.LOCK_EX)
        yield


def processors():
    """How many proofs run side by side: one a processor, as far as memory goes, or as many as RT_JOBS says."""
    given = os.environ.get("RT_JOBS", "")
    if given.isdigit() and int(given):
        return int(given)
    memory = os.sysconf("SC_PAGE_SIZE") * os.sysconf("SC_PHYS_PAGES")
    return max(1, min(len(os.sched_getaffinity(0)), memory // MEMORY_A_PROOF))


def sweep():
    """Removes the folders of builds that were killed."""
    at = tempfile.gettempdir()
    for name in os.listdir(at):
        of = re.match(r"mz-build-(\d+)-", name)
        if of and not os.path.exists(f"/proc/{of[1]}"):
            shutil.rmtree(os.path.join(at, name), ignore_errors=True)


@contextlib.contextmanager
def workspace():
    """A folder to build in, which is gone afterwards; what is ended may still write there for a moment."""
    room = tempfile.mkdtemp(prefix=f"mz-build-{os.getpid()}-")
    try:
        yield room
    finally:
        for _ in range(50):
            shutil.rmtree(room, ignore_errors=True)
            if not os.path.exists(room):
                break
            time.sleep(0.1)


def first_line(*words):
    with contextlib.suppress(OSError):
        ran = subprocess.run(words, stdout=subprocess.PIPE, stderr=subprocess.DEVNULL, stdin=subprocess.DEVNULL, text=True, check=False)
        if ran.returncode == 0 and ran.stdout:
            return ran.stdout.split("\n")[0]
    return ""


def end(ran):
    """Ends what was started, with all that it started."""
    for number in (signal.SIGTERM, signal.SIGKILL):
        with contextlib.suppress(OSError):
            os.killpg(ran.pid, number)
        with contextlib.suppress(subprocess.TimeoutExpired):
            ran.wait(10)
            break
    with contextlib.suppress(OSError):
        os.killpg(ran.pid, signal.SIGKILL)


def prove(room, progress):
    """Runs `rt ci` in the folder, and returns its exit number and what it printed at the end."""
    last = []
    how = {"stdin": subprocess.DEVNULL, "stdout": subprocess.PIPE, "stderr": subprocess.STDOUT, "start_new_session": True}
    ran = subprocess.Popen(["rt", "ci"], cwd=room, text=True, errors="replace", **how)
    try:
        for line in ran.stdout:
            last = [*last[-99:], line]
            progress.line(line.rstrip("\n"))
        return ran.wait(), last
    finally:
        end(ran)


def written(path, text):
    """Writes a file, the whole of it at once."""
    with open(f"{path}.new", "w", encoding="utf-8") as file:
        file.write(text)
    os.replace(f"{path}.new", path)


def install(place, record, name, made):
    """Puts the program into its place at once, records it, and removes older ones of this crate."""
    crate, _, checksum = name.rpartition("-")
    with open(made, "rb") as file:
        own = hashlib.sha256(file.read()).hexdigest()
    built = f"program  {crate}\nsha256   {own}\nsources  {checksum}\nkit      {first_line('rt', 'version') or 'unknown'}\n"
    with tempfile.TemporaryDirectory(prefix="new-", dir=place) as room:
        new = os.path.join(room, name)
        os.mkdir(new)
        shutil.copyfile(made, os.path.join(new, crate))
        os.chmod(os.path.join(new, crate), 0o755)
        os.chmod(new, 0o755)
        written(os.path.join(new, "BUILT"), built)
        shutil.rmtree(os.path.join(place, name), ignore_errors=True)
        os.rename(new, os.path.join(place, name))
    written(os.path.join(record, name), built)
    for old in os.listdir(place):
        if old.startswith((f"{crate}-", "new-")) and old != name:
            shutil.rmtree(os.path.join(place, old), ignore_errors=True)
    return os.path.join(place, name, crate)


def found(root, crate):
    """The path of the program, where it was built already; or an empty text."""
    ran = subprocess.run(["sh", FOUND, root, crate], stdout=subprocess.PIPE, stderr=subprocess.DEVNULL, text=True, check=False)
    return ran.stdout.strip()


def build(root, place, record, crate):
    """Proves the crates and builds the program. Returns its path, or None where it could not be built."""
    sweep()
    rows = crates.rows_of(root, crate)
    with workspace() as room:
        crates.copy(root, rows, room)
        # (what was copied is what is proved, whatever changes meanwhile)
        checksum = crates.checksum(room, crate)
        names = list(crates.below_of(rows))
        lanes = processors()
        wanted = costs.costs_of(names, lambda it: crates.lines_of(room, it))
        estimate = costs.Estimate(crates.below_of(rows), wanted, lanes)
        what = "the program" if crate == WHOLE else "the verifier, and not yet the whole program,"
        say(f"{what} is proved and built from these sources: {len(names)} crates, up to {lanes} side by side. "
            f"From nothing that takes {about(estimate.left(0))} by what was recorded, and is done once")
        say(f"it takes some {COSTS}. ./mz try verify SPEC BIN gives an unproved answer in about a minute. rt first reads all sources")
        progress = Progress(names, lambda it: crates.subject(room, it), estimate)
        status, last = prove(room, progress)
        made = os.path.join(room, "crates", crate, "out", crate)
        if status or not os.access(made, os.X_OK):
            sys.stderr.writelines(last)
            how = f"rt ci was ended by signal {-status}" if status < 0 else f"rt ci ended with {status}"
            say(f"{crate} could not be proved and built, after {clock(progress.seconds())}: {how}")
            return None
        program = install(place, record, f"{crate}-{checksum}", made)
        say(f"built in {clock(progress.seconds())}; what was proved is kept for later runs of rt ci")
        return program


def main(root, crate):
    for number in (signal.SIGINT, signal.SIGTERM, signal.SIGHUP):
        signal.signal(number, stop)
    if not shutil.which("rt"):
        say(f"the program isn't built, and there is no rt, the command of the Rattle kit, to build it: {WITHOUT}")
        return FAILED
    if not crates.rows_of(root, crate):
        say(f"crates.txt has no crate {crate}")
        return FAILED
    place, record = place_of(root), record_of()
    if not place or not record:
        say("there is no folder of one's own for the program" if not place else "there is no folder of one's own for the record of what is built")
        say("the program stands in out/ of the checkout or in XDG_CACHE_HOME, the record in XDG_STATE_HOME: folders of other users aren't used")
        return FAILED
    try:
        with alone(place):
            # (whoever held the place may have built it)
            program = found(root, crate) or build(root, place, record, crate)
    except Stopped as stopped:
        say("interrupted; what was proved so far is kept, and the next run goes on from there")
        return stopped.args[0]
    except OSError as error:
        say(f"the program could not be built: {error}")
        return FAILED
    if not program:
        return FAILED
    print(program)
    return 0
