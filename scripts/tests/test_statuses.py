"""That scripts/check-statuses sees what it is there for: each wrong wrapper around the program is reported."""
import importlib.machinery
import importlib.util
import os
import sys
import tempfile
import unittest

TOP = os.path.dirname(os.path.dirname(os.path.dirname(os.path.abspath(__file__))))
RUN = """import os, subprocess, sys
ran = subprocess.run([PROGRAM, *sys.argv[1:]], stdin=subprocess.DEVNULL, stderr=subprocess.PIPE)
"""
WRITE = "sys.stderr.buffer.write(ran.stderr); "
# What a wrapper does with the arguments, what it does behind the run, and the exit number of the rows that show it.
WRAPPERS = [
    ("a refusal ends with 0", "", WRITE + "sys.exit(0 if ran.returncode == 1 else ran.returncode)", 1),
    ("wrong arguments end with 1", "", WRITE + "sys.exit(1 if ran.returncode == 2 else ran.returncode)", 2),
    ("a file that can't be read ends with 2", "", WRITE + "sys.exit(2 if ran.returncode == 3 else ran.returncode)", 3),
    ("no memory ends with 1", "", WRITE + "sys.exit(1 if ran.returncode == 4 else ran.returncode)", 4),
    ("a file that can't be written ends with 3", "", WRITE + "sys.exit(3 if ran.returncode == 5 else ran.returncode)", 5),
    ("an output that can't be written ends with 0", "", WRITE + "sys.exit(0 if ran.returncode == 6 else ran.returncode)", 6),
    ("the name is on standard output", "", "os.write(1, ran.stderr); sys.exit(ran.returncode)", 3),
    ("the name is missing", "", "sys.exit(ran.returncode)", 2),
    ("the name stands twice", "", WRITE + WRITE + "sys.exit(ran.returncode)", 2),
    ("a neighbour of OUT is destroyed", "", "os.remove('OUT.part0'); sys.exit(ran.returncode)", 0),
    ("a link is replaced", "", "text = open('link').read(); os.remove('link'); open('link', 'w').write(text); sys.exit(ran.returncode)", 0),
    ("further arguments are ignored", "del sys.argv[4:]", WRITE + "sys.exit(ran.returncode)", 2),
    ("empty arguments are dropped", "sys.argv = [it for it in sys.argv if it]", WRITE + "sys.exit(ran.returncode)", 2),
]


def table():
    """The check as a module."""
    path = os.path.join(TOP, "scripts", "check-statuses")
    loader = importlib.machinery.SourceFileLoader("check_statuses", path)
    module = importlib.util.module_from_spec(importlib.util.spec_from_loader("check_statuses", loader))
    sys.modules["check_statuses"] = module
    loader.exec_module(module)
    return module


@unittest.skipUnless("MZ" in os.environ, "MZ names no program")
class Wrong(unittest.TestCase):
    def setUp(self):
        self.check = table()
        self.rows = [it for it in (*self.check.of_verifier(), *self.check.of_the_whole()) if "mz_main" in it.programs]
        room = tempfile.TemporaryDirectory()
        self.addCleanup(room.cleanup)
        self.path = os.path.join(room.name, "program")

    def wrapped(self, before, behind):
        with open(self.path, "w", encoding="utf-8") as file:
            file.write(f"#!{sys.executable} -IS\nimport sys\n{before}\nPROGRAM = {os.path.abspath(os.environ['MZ'])!r}\n{RUN}{behind}\n")
        os.chmod(self.path, 0o755)
        return self.path

    def is_reported(self, program, status):
        return any(True for row in self.rows if row.status == status for _ in self.check.faults(program, row))

    def test_each_wrong_wrapper_is_reported(self):
        for name, before, behind, status in WRAPPERS:
            self.assertTrue(self.is_reported(self.wrapped(before, behind), status), name)

    def test_a_wrapper_that_changes_nothing_is_not(self):
        program = self.wrapped("", WRITE + "sys.exit(ran.returncode)")
        for status in (1, 4, 5):
            self.assertFalse(self.is_reported(program, status), status)


if __name__ == "__main__":
    unittest.main()
