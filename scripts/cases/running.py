"""Runs the program over files in a folder of its own, and the cases side by side."""
import concurrent.futures
import dataclasses
import os
import subprocess
import sys
import tempfile
import threading
import typing

from .reading import TOP


class Differs(Exception):
    """The program doesn't do what a case says."""


@dataclasses.dataclass
class Case:
    """Where a case stands, and what tries it."""

    place: str
    attempt: typing.Callable


class Bench:
    """A folder in which the program runs."""

    def __init__(self, program, folder):
        self.program, self.folder = program, folder

    def path(self, name):
        return os.path.join(self.folder, name)

    def write(self, files):
        """Makes these the folder's only files."""
        for name in os.listdir(self.folder):
            os.remove(self.path(name))
        for name, content in files.items():
            self.add(name, content)

    def add(self, name, content):
        with open(self.path(name), "wb") as file:
            file.write(content)

    def read(self, name):
        """The bytes of a file, or None."""
        if not os.path.exists(self.path(name)):
            return None
        with open(self.path(name), "rb") as file:
            return file.read()

    def run(self, words):
        """How a run ends, what it prints, and what it says on standard error."""
        ran = subprocess.run([self.program, *words], cwd=self.folder, stdin=subprocess.DEVNULL, capture_output=True, check=False)
        return ran.returncode, ran.stdout, ran.stderr

    def expect(self, words, text, status):
        """Runs, and compares what is printed and the exit number."""
        found, out, _ = self.run(words)
        if (found, out) != (status, text):
            raise Differs(f"{' '.join(words)}\n    says   {shown(out)} ({found})\n    not    {shown(text)} ({status})")

    def expect_file(self, name, content):
        """Compares a file; None: it isn't there."""
        found = self.read(name)
        if found != content:
            raise Differs(f"the file {name}\n    has    {shown(found)}\n    not    {shown(content)}")


def shown(content):
    if content is None:
        return "nothing: it isn't there"
    text = repr(content.decode("latin-1"))
    return text if len(text) <= 400 else f"{text[:300]} .. {text[-80:]}"


class Benches:
    """A folder for each thread that asks."""

    def __init__(self, program, folder):
        self.program, self.folder, self.here = program, folder, threading.local()

    def get(self):
        if not hasattr(self.here, "bench"):
            self.here.bench = Bench(self.program, tempfile.mkdtemp(dir=self.folder))
        return self.here.bench


def tried(benches, case):
    """What is wrong with the case, or None."""
    try:
        case.attempt(benches.get())
    except Differs as differs:
        return f"{case.place}: {differs}"
    return None


def try_all(program, cases, threads=None):
    """Tries the cases, and gives what is wrong."""
    threads = threads or min(4, os.cpu_count() or 1)
    with tempfile.TemporaryDirectory() as folder, concurrent.futures.ThreadPoolExecutor(threads) as pool:
        benches = Benches(program, folder)
        return [it for it in pool.map(lambda case: tried(benches, case), cases) if it]


def program_or_exit():
    """The program that the environment's MZ names, or that of ./mz where it is built."""
    given = os.environ.get("MZ")
    if given and os.access(given, os.X_OK):
        return os.path.abspath(given)
    environment = {**os.environ, "MZ_BUILD": "never"}
    built = subprocess.run([os.path.join(TOP, "mz"), "build"], stdout=subprocess.PIPE, text=True, env=environment, check=False)
    if built.returncode:
        sys.exit("check-cases: MZ=PATH names a program, and ./mz build makes one")
    return built.stdout.strip()
