"""Tries ./mz test over a small repository whose parts only print what they are told to."""
import os
import shutil
import subprocess
import sys
import tempfile
import time
import unittest

TOP = os.path.dirname(os.path.dirname(os.path.dirname(os.path.dirname(os.path.abspath(__file__)))))
PART = """#!/bin/sh
echo "{name} $* ${{MZ##*/}} $MZ_BUILD" >>"$FAKE_LOG"
cat >/dev/null
echo "${{FAKE_{name}:-{name}: 2 passed, 0 failed}}"
exit ${{FAKE_{name}_ENDS:-0}}
"""


class Whole(unittest.TestCase):
    def setUp(self):
        self.top = tempfile.mkdtemp(prefix="test-gate-")
        self.addCleanup(shutil.rmtree, self.top)
        for path in ("mz", ".ci/run", "scripts/gate/__main__.py", "scripts/gate/__init__.py"):
            os.makedirs(os.path.dirname(os.path.join(self.top, path)), exist_ok=True)
            shutil.copy(os.path.join(TOP, path), os.path.join(self.top, path))
        for path, name in (("bin/rt", "rt"), ("scripts/wrong-bodies", "bodies"), ("scripts/check", "check")):
            os.makedirs(os.path.dirname(os.path.join(self.top, path)), exist_ok=True)
            with open(os.path.join(self.top, path), "w", encoding="utf-8") as file:
                file.write(PART.format(name=name))
            os.chmod(os.path.join(self.top, path), 0o755)
        with open(os.path.join(self.top, "scripts/gate.sh"), "w", encoding="utf-8") as file:
            file.write(f'#!/bin/sh\nexec "{sys.executable}" "{self.top}/scripts/gate"\n')
        os.chmod(os.path.join(self.top, "scripts/gate.sh"), 0o755)
        os.makedirs(os.path.join(self.top, "crates/mz_a/wrong"))
        for name in ("one", "two", "three"):
            with open(os.path.join(self.top, f"crates/mz_a/wrong/{name}.edit"), "w", encoding="utf-8") as file:
                file.write("file: src/a.rt\n")

    def start(self, *command, **told):
        environment = {"PATH": f"{self.top}/bin:{os.environ['PATH']}", "FAKE_LOG": os.path.join(self.top, "log"), **told}
        how = {"stdin": subprocess.PIPE, "stdout": subprocess.PIPE, "stderr": subprocess.STDOUT, "text": True}
        return subprocess.Popen([os.path.join(self.top, command[0]), *command[1:]], env=environment, **how)

    def run_it(self, *words, script="mz", **told):
        # (what reads its standard input to the end would wait for this test, if it weren't empty)
        with self.start(script, *(["test"] if script == "mz" else []), *words, **told) as ran:
            ran.wait(timeout=60)
            return ran.returncode, ran.stdout.read().strip().split("\n")

    def log(self):
        with open(os.path.join(self.top, "log"), encoding="utf-8") as file:
            return [it.split() for it in file]

    def test_what_the_parts_count_is_added_up(self):
        status, lines = self.run_it(FAKE_rt="181 passed, 0 failed", FAKE_check="side checks: 20 passed, 0 failed, 1 skipped")
        self.assertEqual((status, lines[-1]), (0, "203 passed, 0 failed, 1 skipped"))
        self.assertEqual(self.log(), [["rt", "ci"], ["bodies"], ["check", "mz_main", "never"]])

    def test_where_the_gate_fails_the_bodies_are_skipped(self):
        status, lines = self.run_it(FAKE_rt="180 passed, 1 failed", FAKE_rt_ENDS="1")
        self.assertEqual((status, lines[-1]), (1, "182 passed, 1 failed, 3 skipped"))
        self.assertEqual(self.log(), [["rt", "ci"], ["check", "never"]])

    def test_a_part_that_only_ends_with_1_has_failed(self):
        status, lines = self.run_it(FAKE_bodies="killed", FAKE_bodies_ENDS="137")
        self.assertEqual((status, lines[-1]), (1, "4 passed, 1 failed"))

    def test_one_failure_is_enough(self):
        for told in ({"FAKE_bodies": "wrong bodies: 2 passed, 1 failed"}, {"FAKE_check": "side checks: 2 passed, 1 failed"}):
            status, lines = self.run_it(**told)
            self.assertEqual((status, lines[-1]), (1, "6 passed, 1 failed"))

    def test_where_it_is_ended_the_part_ends_too(self):
        with open(os.path.join(self.top, "bin/rt"), "w", encoding="utf-8") as file:
            file.write("#!/bin/sh\necho $$ >>\"$FAKE_LOG\"\nexec sleep 300\n")
        with self.start("scripts/gate.sh") as ran:
            while not os.path.exists(os.path.join(self.top, "log")) or not self.log():
                time.sleep(0.05)
            ran.terminate()
            self.assertEqual(ran.wait(timeout=30), 130)
        self.assertFalse(os.path.exists(f"/proc/{self.log()[0][0]}"))

    def test_quick_proves_nothing(self):
        status, lines = self.run_it("--quick")
        self.assertEqual((status, lines[-1]), (0, "2 passed, 0 failed"))
        self.assertEqual(self.log(), [["check", "never"]])

    def test_other_words_are_no_test(self):
        self.assertEqual(self.run_it("--slow")[0], 2)

    def test_a_ci_runs_it_all_and_reads_nothing(self):
        status, lines = self.run_it(script=".ci/run")
        self.assertEqual((status, lines[-1]), (0, "6 passed, 0 failed"))
        self.assertEqual([it[0] for it in self.log()], ["rt", "bodies", "check"])


if __name__ == "__main__":
    sys.exit(unittest.main())
