"""Imports small databases of Debian's package metamath-databases whole, where it is installed. What is expected is counted in
the databases themselves."""
import os
import re
import unittest

from .room import Room

DATABASES = "/usr/share/metamath/databases"


def statements(path):
    """How many axioms and theorems a database has, by a look at its text."""
    with open(path, encoding="latin-1") as file:
        text = re.sub(r"\$\(.*?\$\)", " ", file.read(), flags=re.S)
    return [len(re.findall(rf"\${kind}\s+\|-", text)) for kind in "ap"]


@unittest.skipUnless(os.path.isdir(DATABASES), f"there is no {DATABASES}: Debian's package metamath-databases isn't installed")
class TestRealDatabases(Room):
    def counted(self, name):
        """Imports a database, and gives what `same` counted: definitions, axioms and theorems."""
        said = self.mz("import", os.path.join(DATABASES, name + ".mm"), self.path(name))
        self.assertIn("accepted: ", said)
        self.assertNotIn("left out", said)
        found = re.search(rf"the same as {name}.mm: .*?([\d,]+) definitions?, ([\d,]+) axioms?, ([\d,]+) theorems?", said)
        return [int(it.replace(",", "")) for it in found.groups()]

    def test_whole(self):
        for name in ("demo0", "peano", "big-unifier", "hol", "ql"):
            with self.subTest(name):
                definitions, axioms, theorems = self.counted(name)
                self.assertEqual([axioms + definitions, theorems - definitions], statements(os.path.join(DATABASES, name + ".mm")))

    def test_what_has_two_readings(self):
        said = self.mz("import", os.path.join(DATABASES, "miu.mm"), self.path("miu"), status=1)
        self.assertRegex(said, "miu.mm:[0-9]+:[0-9]+: ax isn't translated: the grammar of the database has two readings of it")


if __name__ == "__main__":
    unittest.main()
