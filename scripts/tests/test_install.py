"""That INSTALL says what one has to know: what the kit is, what there is without it; and the man page each variable that ./mz looks at."""
import os
import re
import shutil
import subprocess
import unittest

TOP = os.path.dirname(os.path.dirname(os.path.dirname(os.path.abspath(__file__))))
KIT = re.compile(r"^rattle-kit-\w+ logic [0-9a-f]{16}$", re.M)


def text_of(path):
    with open(os.path.join(TOP, path), encoding="utf-8") as file:
        return file.read()


INSTALL = text_of("docs/INSTALL.md")


class Install(unittest.TestCase):
    def test_it_begins_with_the_kit(self):
        """The first part says what `rt` is, how one sees it, where it doesn't come from, and what one has without it."""
        first, *_ = re.split(r"^## ", INSTALL, flags=re.M)
        self.assertIn("with the command `rt`", first)
        self.assertRegex(first, KIT)
        for word in ("registry", "rt version", "./mz try verify", "archive", "licence"):
            self.assertIn(word, first)

    @unittest.skipUnless(shutil.which("rt"), "there is no rt")
    def test_the_line_of_the_kit_is_as_rt_prints_it(self):
        said = subprocess.run(["rt", "version"], capture_output=True, text=True, check=True).stdout
        self.assertRegex(said.split("\n")[0], KIT)

    def test_an_unproved_answer_is_told_apart(self):
        """What it prints where, its number, and when it is good enough."""
        part = next(it for it in re.split(r"^## ", INSTALL, flags=re.M) if "./mz try verify examples" in it).lower()
        for word in ("standard output", "standard error", "unproved", "125", "good enough", "relies on a theorem runs `./mz verify`"):
            self.assertIn(word, part)

    def test_a_ci_is_told_what_it_believes(self):
        """What it keeps of a build: by which key, what of it, and who may write it."""
        part = next(it for it in re.split(r"^## ", INSTALL, flags=re.M) if it.startswith("In a CI"))
        for word in ("scripts/build/sum", "out/program", "XDG_STATE_HOME", "Whoever can write this cache decides what is answered"):
            self.assertIn(word, part)

    def test_each_variable_is_named(self):
        looked_at = re.compile(r"\b(?:MZ(?:_[A-Z]+)?|XDG_[A-Z_]+|TMPDIR)\b(?=[:}\-+\"'])")
        for path in ("mz", "scripts/build/found", "scripts/build/program.py"):
            for name in set(looked_at.findall(text_of(path))):
                self.assertIn(name, text_of("mz.1").replace("\\_", "_").replace("\\-", "-"), path)

    def test_what_comes_goes(self):
        for word in ("./mz install", "./mz uninstall", "man page", "completion", "scripts/dist", "sha256sum -c"):
            self.assertIn(word, INSTALL)

    def test_no_licence_is_claimed(self):
        has_licence = any(it.lower().startswith(("licen", "copying")) for it in os.listdir(TOP))
        self.assertEqual(has_licence, "No licence has been chosen yet" not in INSTALL)


if __name__ == "__main__":
    unittest.main()
