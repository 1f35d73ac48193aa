"""Calls each script with a closed or full output, with little memory, and with files for folders: none may end in a traceback."""
import concurrent.futures
import os
import resource
import subprocess
import sys
import tempfile
import unittest

TOP = os.path.dirname(os.path.dirname(os.path.dirname(os.path.abspath(__file__))))
SCRIPTS = os.path.join(TOP, "scripts")
SECONDS = 120
LITTLE = 150_000_000  # bytes: Python starts in them, and a thread with a large stack doesn't
TRACES = (b"Traceback", b"Exception ignored", b"Fatal Python error")
REFUSAL = "refused: match declaration 5 statement 5: M8 conclusion"
# What each script is called with so that it says something soon; another one is asked for its help.
CALLS = {
    "bytes": ["examples/fold.mmb"],
    "check": ["no such part"],
    "check-crates": [],
    "check-edits": [],
    "check-examples": ["README.md"],
    "check-links": [],
    "check-rules": [],
    "check-words": [],
    "crates": ["--check"],
    "make-examples": ["--check"],
    "offered": [],
    "trusted": ["--check"],
    "build": ["mz_none"],
    "explain": ["1", REFUSAL, "verify", "examples/other_claim.mm0", "examples/double_negation.mmb"],
    "explore": ["--check", "examples"],
    "manual": [],
    "prove": ["--start", "examples/fold.mm0"],
    "serve": ["--check", "examples/fold.mm0"],
}
# Calls in which a folder stands for a file, a file for a folder, or a file isn't there; F is a file and D a folder.
MISFITS = [
    ["explore", "D", "D", "D"], ["explore", "examples/fold.mm0", "D", "F"], ["explore", "examples/fold.mm0", "examples/fold.mmu", "F"], ["explore", "--check", "F"],
    ["prove", "D"], ["prove", "F/x.proofs"], ["prove", "--start", "D"], ["prove", "--check", "F"], ["serve", "--check", "D", "F", "F/x.mm0"],
    ["explain", "1", REFUSAL, "verify", "D", "F/x"], ["explain", "3", "", "verify", "D", "F/x"], ["explain", "5", "", "compile", "F", "F/x"], ["explain", "--fits", "verify", "D", "F/x"],
    ["bytes", "D"], ["bytes", "F"], ["bytes", "F", "D"],
    ["dist", "F"], ["dist", "D"], ["fail-allocations", "D"], ["hostile-texts", "D"], ["make-developments", "F/x"], ["make-developments", "D/x"], ["check-examples", "D"],
    ["manual", "D"], ["build", "F"], ["sessions", "D"], ["sessions", "--check", "F"], ["sessions", "F/x"],
    ["metamath", "import", "F", "D"], ["metamath", "import", "D", "F"], ["metamath", "export", "D", "F", "F"], ["metamath", "same", "F", "D"], ["unfolded", "D", "F"],
]


def scripts():
    """The names of all that can be called in scripts/."""
    for name in sorted(os.listdir(SCRIPTS)):
        path = os.path.join(SCRIPTS, name)
        if os.path.isdir(path) and os.path.exists(os.path.join(path, "__main__.py")) or os.path.isfile(path) and os.access(path, os.X_OK):
            yield name


def command(name, words):
    return [sys.executable, "-B", os.path.join(SCRIPTS, name), *words]


def environment(**more):
    """No program is asked, and none is built; what a build would write goes nowhere."""
    none = {"MZ": "/bin/true", "MZ_PROGRAM": "/bin/true", "MZ_BUILD": "never", "PYTHONPATH": SCRIPTS, "PYTHONDONTWRITEBYTECODE": "1"}
    return {**os.environ, **none, **more}


def called(words, **how):
    """The exit number, and what stands on standard error."""
    how = {"stdin": subprocess.DEVNULL, "stdout": subprocess.PIPE, "stderr": subprocess.PIPE, "cwd": TOP, "env": environment(), "timeout": SECONDS, **how}
    ran = subprocess.run(words, check=False, **how)
    return ran.returncode, ran.stderr


def into_closed_pipe(words):
    reading, writing = os.pipe()
    os.close(reading)
    try:
        return called(words, stdout=writing)
    finally:
        os.close(writing)


def into_full_device(words):
    with open("/dev/full", "wb") as full:
        return called(words, stdout=full)


def without_output(words):
    return called(["sh", "-c", 'exec "$@" >&-', "sh", *words])


def with_little_memory(words):
    return called(words, preexec_fn=lambda: resource.setrlimit(resource.RLIMIT_AS, (LITTLE, LITTLE)))


class Ends(unittest.TestCase):
    def check(self, ways, calls):
        """Each call, each way, ends without a traceback."""
        tries = [(way, words) for way in ways for words in calls]
        with concurrent.futures.ThreadPoolExecutor(os.cpu_count()) as pool:
            for (way, words), (status, said) in zip(tries, pool.map(lambda it: it[0](command(it[1][0], it[1][1:])), tries)):
                self.assertFalse([it for it in TRACES if it in said], f"{way.__name__} {words}: {status} {said.decode()}")
                self.assertGreaterEqual(status, 0, (way.__name__, words))

    def test_each_script_with_a_closed_output_and_with_little_memory(self):
        self.check([into_closed_pipe, into_full_device, without_output, with_little_memory], [[it, *CALLS.get(it, ["--help"])] for it in scripts()])

    def test_files_for_folders(self):
        with tempfile.TemporaryDirectory() as room:
            file = os.path.join(room, "file")
            with open(file, "wb") as made:
                made.write(b"\xff\x00 no text")
            calls = [[it.replace("F", file, 1) if it[:1] == "F" else it.replace("D", room, 1) if it[:1] == "D" else it for it in words] for words in MISFITS]
            self.check([called], calls)

    def test_what_cannot_be_written_is_told(self):
        """The number is that of the program where standard output can't be written."""
        for way in (into_closed_pipe, into_full_device, without_output):
            self.assertEqual(way(command("manual", [])), (6, b"mz: standard output can't be written\n"), way.__name__)

    def test_the_script_mz(self):
        """Its exit number is the program's, or that of the script that it starts."""
        mz = os.path.join(TOP, "mz")
        for way in (into_closed_pipe, into_full_device, without_output, with_little_memory):
            for words in (["help"], ["verify", "examples/fold.mm0", "examples/fold.mmb"], ["version"], ["check", "examples/fold.mm0"], ["prove", "examples"]):
                status, said = way([mz, *words])
                self.assertFalse([it for it in TRACES if it in said], f"{way.__name__} {words}: {status} {said.decode()}")


if __name__ == "__main__":
    unittest.main()
