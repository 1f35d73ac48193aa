"""Tries the search for maps that are dropped at an exit over a small crate."""
import os
import sys
import tempfile
import unittest

TOP = os.path.dirname(os.path.dirname(os.path.dirname(os.path.dirname(os.path.abspath(__file__)))))
sys.path.insert(0, os.path.join(TOP, "scripts"))

from maps import __main__ as command
from maps import alive, sources
from maps import locals as found_in

TYPES = """//! Types, of which the first two hold a map.
pub struct Names {
    places: IndexMap<u8, u32>,
}

pub enum Table {
    Nothing,
    Full(Vec<Names>),
}

pub struct Lent<'a> {
    names: &'a Names,
}

impl Names {
    pub fn new(alloc: Global) -> Names
        ensures { result ≡ [] }
    {
        Names { places: IndexMap::new(alloc) }
    }

    pub fn add(&mut self, byte: u8) -> Result<(), Mem> {
        self.places.insert(byte, 0)
    }

    pub fn into_table(self) -> Table {
        Table::Full(self)
    }

    pub fn first(&self) -> &Names {
        self
    }
}

pub fn gathered(alloc: Global) -> Result<Names, Mem> {
    let mut made = Names::new(alloc);
    made.add(1)?;
    Ok(made)
}
"""
BODIES = {
    "ends": "    let names = gathered(alloc)?;\n    names.first().is_empty()\n",
    "drops": "    let names = gathered(alloc)?;\n    let is_empty = names.first().is_empty();\n    drop(names);\n    is_empty\n",
    "asks": "    let mut names = Names::new(alloc);\n    names.add(2)?;\n    drop(names);\n    Ok(())\n",
    "returns": "    let names = gathered(alloc)?;\n    if at > 2 {\n        return Err(Mem);\n    }\n    Ok(names)\n",
    "drops_on_one_way": "    let names = gathered(alloc)?;\n    if at > 2 {\n        drop(names);\n        return Err(Mem);\n    }\n    names.first().count()\n",
    "drops_on_each_way": "    let names = gathered(alloc)?;\n    if at > 2 {\n        drop(names);\n        return Err(Mem);\n    }\n    Ok(names)\n",
    "hands_on": "    let names = gathered(alloc)?;\n    names.into_table()\n",
    "lends": "    let names = self.first();\n    count(names, at)?;\n    Ok(())\n",
    "says_braces": "    let names = gathered(alloc)?;\n    let text = \"?}\"; // return }\n    drop(names);\n    Ok(text)\n",
}
FOUND = {
    "mz_a names::gathered made": ("?",),
    "mz_b uses::ends names": ("end",),
    "mz_b uses::asks names": ("?",),
    "mz_b uses::returns names": ("return",),
    "mz_b uses::drops_on_one_way names": ("end",),
}


def written(top, path, text):
    whole = os.path.join(top, path)
    os.makedirs(os.path.dirname(whole), exist_ok=True)
    with open(whole, "w", encoding="utf-8") as file:
        file.write(text)


class Findings(unittest.TestCase):
    @classmethod
    def setUpClass(cls):
        with tempfile.TemporaryDirectory() as top:
            written(top, "crates.txt", "mz_a: indexmap\nmz_b: mz_a\n")
            written(top, "crates/mz_a/src/names.rt", TYPES)
            functions = (f"pub fn {name}(alloc: Global, at: u32) -> Answer\n    ensures {{ result ≡ at }}\n{{\n{body}}}\n" for name, body in BODIES.items())
            written(top, "crates/mz_b/src/uses.rt", "\n".join(functions))
            cls.sources = sources.Sources(top)
            cls.found = list(found_in.findings(cls.sources))

    def test_which_types_hold_a_map(self):
        self.assertEqual(self.sources.holders, {("mz_a", "Names"), ("mz_a", "Table")})

    def test_each_exit_is_found_and_no_other(self):
        self.assertEqual({str(it): it.exits for it in self.found}, FOUND)

    def test_the_list_may_only_get_shorter(self):
        keys = {it.partition(" ")[2] for it in FOUND}
        self.assertEqual(command.compare(self.found, keys), [])
        self.assertEqual(len(command.compare(self.found, keys - {"uses::ends names"})), 1)
        self.assertIn("take it from", command.compare(self.found, keys | {"uses::drops names"})[0])


class Following(unittest.TestCase):
    def test_what_hands_a_local_on(self):
        for text, wanted in (("f(names)", True), ("Ok(names)", True), ("Table { names, at }", True), ("f(&names)", False), ("f(&mut names)", False),
                             ("names.add(1)", False), ("names.into_table()", True), ("self.names", False), ("names[2]", False), ("my_names", False)):
            with self.subTest(text):
                self.assertEqual(alive.moves(text, "names", {"into_table"}), wanted)


if __name__ == "__main__":
    sys.exit(unittest.main())
