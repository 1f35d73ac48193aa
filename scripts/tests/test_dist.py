"""Makes archives of a program that does nothing, and looks at what is in them."""
import hashlib
import os
import shutil
import subprocess
import sys
import tarfile
import tempfile
import unittest

TOP = os.path.dirname(os.path.dirname(os.path.dirname(os.path.abspath(__file__))))
PROGRAM = b"#!/bin/sh\nexit 0\n"
SUM = hashlib.sha256(PROGRAM).hexdigest()


class Archive(unittest.TestCase):
    def setUp(self):
        self.room = os.path.realpath(tempfile.mkdtemp())
        self.addCleanup(shutil.rmtree, self.room, True)
        self.program = self.file("built/mz_main", PROGRAM)

    def file(self, path, content):
        whole = os.path.join(self.room, path)
        os.makedirs(os.path.dirname(whole), exist_ok=True)
        with open(whole, "wb") as file:
            file.write(content)
        return whole

    def made(self, folder):
        """What the script does for a folder."""
        out = os.path.join(self.room, folder)
        os.makedirs(out, exist_ok=True)
        words = [sys.executable, "-B", os.path.join(TOP, "scripts", "dist"), out]
        return subprocess.run(words, env={**os.environ, "MZ_PROGRAM": self.program}, capture_output=True, text=True, check=False)

    def test_the_archive_has_what_its_page_says_and_can_be_compared(self):
        first, second = self.made("one"), self.made("two")
        self.assertEqual((first.returncode, first.stderr), (0, ""))
        paths = [it.stdout.strip() for it in (first, second)]
        contents = []
        for path in paths:
            with open(path, "rb") as file:
                contents.append(file.read())
        self.assertEqual(contents[0], contents[1])
        self.assertEqual(subprocess.run(["sha256sum", "-c", "--quiet", f"{paths[0]}.sha256"], cwd=os.path.dirname(paths[0]), check=False).returncode, 0)
        with tarfile.open(paths[0]) as tar:
            tar.extractall(self.room)
        top = os.path.join(self.room, os.path.basename(paths[0])[: -len(".tar.gz")])
        self.assertEqual(subprocess.run(["sha256sum", "-c", "--quiet", "SHA256SUMS"], cwd=top, check=False).returncode, 0)
        self.assertEqual(subprocess.run([os.path.join(top, "bin/mz")], check=False).returncode, 0)
        for name, word in (("BUILT", SUM), ("doc/PROMISES.md", "## What a yes means\n"), ("doc/PROMISES.md", "| to rely on a yes"), ("README.md", "sha256sum -c"),
                           ("share/man/man1/mz.1", ".TH MZ 1"), ("share/bash-completion/completions/mz", "complete -F _mz"), ("examples/fold.mm0", "provable sort")):
            with open(os.path.join(top, name), encoding="utf-8") as file:
                self.assertIn(word, file.read(), name)

    def test_what_is_said_beside_another_program_is_refused(self):
        self.file("built/BUILT", f"program  mz_main\nsha256   {SUM}\nkit      a kit\n".encode())
        self.assertEqual(self.made("one").returncode, 0)
        self.file("built/mz_main", PROGRAM + b"# other\n")
        ran = self.made("one")
        self.assertEqual((ran.returncode, ran.stdout), (1, ""))
        self.assertIn("speaks of another program", ran.stderr)


if __name__ == "__main__":
    unittest.main()
