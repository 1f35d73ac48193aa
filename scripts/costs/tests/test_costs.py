"""Tries what is said of costs: over files with times of their own, and over processes of its own."""
import contextlib
import io
import os
import shutil
import subprocess
import sys
import tempfile
import time
import unittest

TOP = os.path.dirname(os.path.dirname(os.path.dirname(os.path.dirname(os.path.abspath(__file__)))))
sys.path.insert(0, os.path.join(TOP, "scripts"))

from build import costs as recorded
from costs import __main__ as command
from costs import functions, watching

# Of each module when its file was written, in seconds, and how many bytes it has.
KEPT = (
    ("proofs.Lemmas", 10, 50),
    ("specs.contracts.a.f.Key", 11, 5),
    ("proofs.a.f.Code", 13, 100),
    ("proofs.a.f.Lts", 20, 2_000_000),
    ("proofs.a.f.Lts.View", 21, 500),
    ("proofs.a.f.Goals", 21.5, 10),
    ("proofs.a.f.Proof", 22, 10),
    ("proofs.a.f-inner.Lts", 25, 1_000),
    ("proofs.a.g.Lts", 10_000, 10),
    ("proofs.Offered", 10_004, 10),
)


class Functions(unittest.TestCase):
    def setUp(self):
        self.top = tempfile.mkdtemp(prefix="test-costs-")
        self.addCleanup(shutil.rmtree, self.top)
        folder = os.path.join(self.top, "crates", "mz_a", "out", "incremental", "kept-by-1")
        os.makedirs(folder)
        for name, at, size in KEPT:
            path = os.path.join(folder, f"Rattle-mz_a-{name}.oantt")
            with open(path, "wb") as file:
                file.write(b"x" * size)
            os.utime(path, ns=(0, int(at * 1e9)))

    def test_each_module_took_the_time_since_the_one_before(self):
        found, others = functions.costs(os.path.join(self.top, "crates", "mz_a"))
        self.assertEqual(sorted(found), ["a.f", "a.f-inner", "a.g"])
        self.assertEqual(found["a.f"].seconds, {"derivation": 8.0, "declarations": 3.0, "goals": 1.0})
        self.assertEqual(found["a.f"].sizes, {"derivation": 2_000_500, "declarations": 105, "goals": 20})
        # (what lies between two checks is no time of a module)
        self.assertEqual((found["a.g"].whole(), others), (0.0, 4.0))

    def test_a_crate_that_was_not_checked(self):
        said = io.StringIO()
        with contextlib.redirect_stderr(said):
            self.assertEqual(command.main(["mz_no_such_crate"]), 1)
        self.assertIn("rt check --jobs 1", said.getvalue())


BUSY = "import sys, time\nend = time.monotonic() + 30\nwhile time.monotonic() < end: pass\n"


class Watching(unittest.TestCase):
    """Starts processes that are called rattle and only spin, in folders like those of a gate's run."""

    def setUp(self):
        self.top = os.path.realpath(tempfile.mkdtemp(prefix="test-costs-"))
        self.addCleanup(shutil.rmtree, self.top)
        self.elsewhere = os.path.realpath(tempfile.mkdtemp(prefix="test-costs-elsewhere-"))
        self.addCleanup(shutil.rmtree, self.elsewhere)
        self.started = []
        self.addCleanup(self.end)

    def end(self):
        for it in self.started:
            it.kill()
            it.wait()

    def start(self, folder, *words):
        os.makedirs(folder, exist_ok=True)
        program = os.path.join(self.top, "rattle")
        if not os.path.exists(program):
            os.symlink(sys.executable, program)
        self.started.append(subprocess.Popen([program, "-S", "-c", BUSY, *words], cwd=folder))
        return str(self.started[-1].pid)

    def test_parts(self):
        crates = os.path.join(self.top, "crates")
        proof = self.start(f"{crates}/mz_a", "check", "--crate-name", "mz_a")
        tests = self.start(f"{crates}/mz_a", "check", "--crate-name", "mz_a", "--test", "x")
        other = self.start(f"{self.elsewhere}/crates/mz_a", "check", "--crate-name", "mz_a")
        time.sleep(0.3)
        parts = [watching.part_of(it, self.top) for it in (proof, tests, other, str(os.getpid()))]
        self.assertEqual(parts, [("mz_a", "proof", ""), ("mz_a", "tests", ""), None, None])

    def test_edits_belong_to_the_checkout_of_their_run(self):
        run = self.start(self.top)
        room = tempfile.mkdtemp(prefix=f"rt-edit-{run}-", dir="/tmp")
        self.addCleanup(shutil.rmtree, room)
        pid = self.start(room, "check", "--crate-name", "mz_a")
        time.sleep(0.3)
        self.assertEqual(watching.part_of(pid, self.top), ("mz_a", "edits", ""))
        self.assertIsNone(watching.part_of(pid, self.elsewhere))

    def test_a_wrong_body_belongs_to_the_checkout_of_its_parent(self):
        with tempfile.TemporaryDirectory(prefix="mz-wrong-mz_a.one_less-") as room:
            pid = self.start(room, "check", "--crate-name", "mz_a")
            time.sleep(0.3)
            self.assertEqual(watching.part_of(pid, os.getcwd()), ("mz_a", "wrong", "one_less"))
            self.assertIsNone(watching.part_of(pid, self.elsewhere))
            self.end()

    def test_seconds_are_those_of_the_processor(self):
        self.start(os.path.join(self.top, "crates/mz_a"), "check", "--crate-name", "mz_a")
        watch = watching.Watch(self.top)
        for _ in range(100):
            time.sleep(0.1)
            watch.look()
            if watch.sums()["mz_a", "proof", ""] >= 0.1:
                break
        pid = self.started[0].pid
        with open(f"/proc/{pid}/schedstat", encoding="utf-8") as file:
            took = int(file.read().split()[0]) / 1e9
        self.assertTrue(0.1 <= watch.sums()["mz_a", "proof", ""] <= took + 0.05)

    def test_what_is_written_is_read(self):
        path, sums = os.path.join(self.top, "out"), {("mz_a", "proof", ""): 12.5, ("mz_a", "wrong", "one_less"): 3.0}
        watching.write(sums, path)
        self.assertEqual(watching.sums_in(path), sums)
        said = io.StringIO()
        with contextlib.redirect_stdout(said):
            command.main(["--run", path])
        lines = said.getvalue().split("\n")
        self.assertEqual(lines[1].split(), ["mz_a", "12", "3"])
        self.assertIn("mz_a/one_less", said.getvalue())


class Recording(unittest.TestCase):
    def test_others_stay_while_they_are_crates(self):
        with tempfile.TemporaryDirectory() as folder:
            path = os.path.join(folder, "costs.txt")
            recorded.keep({"mz_b": 7.4, "mz_a": 2.0, "mz_c": 1.0}, ["mz_a", "mz_b", "mz_c"], path)
            recorded.keep({"mz_b": 8.6}, ["mz_b", "mz_a", "mz_d"], path)
            self.assertEqual(recorded.recorded(path), {"mz_a": 2, "mz_b": 9})


if __name__ == "__main__":
    sys.exit(unittest.main())
