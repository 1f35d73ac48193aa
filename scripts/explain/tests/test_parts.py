"""Tries the parts of binaries. The lines that are expected were worked out by hand from docs/FORMAT.md, sections 2.1 to 2.7."""
import glob
import os
import re
import subprocess
import sys
import tempfile
import unittest

from explain.parts import Parts, lines

TOP = os.path.dirname(os.path.dirname(os.path.dirname(os.path.dirname(os.path.abspath(__file__)))))
EXAMPLES = os.path.join(TOP, "examples")
# place, meaning, and the stack where a body's command stands there
IMPLICATION = {
    0: ("MM0B, version 1, 1 sort, reserved", ""),
    48: ("term im: 2 parameters, result of sort wff, words at 80", ""),
    144: ("stream of ax_mp: URef 1, UHyp, URef 0, UHyp, UTerm im, URef 0, URef 1, END. It spells b, then the hypothesis a, then the hypothesis im a b", ""),
    154: ("gap", ""),
    197: ("statement 4: axiom ax_mp, the next stands at 209", "H: 0 a, 1 b"),
    203: ("Hyp; H 2 is ⊢ im a b", "empty"),
    222: ("Thm ax_1 with a, b", "⊢ im a (im b a)"),
    234: ("Thm ax_mp with a, im b a", "⊢ im b a"),
    236: ("END: ⊢ im b a is left", ""),
    237: ("END of the list", ""),
}
QUANTIFIER = {
    40: ("sort wff: provable", ""),
    41: ("sort nat: no modifier", ""),
    56: ("all, parameter x: bound, sort nat", ""),
    64: ("all, parameter p: regular, sort wff, depends on x", ""),
    72: ("all, result: sort wff, depends on nothing", ""),
}
DUMMY = {112: ("Dummy of sort nat; H 0 is d0", "d0"), 96: ("stream of d: UTerm tt, UDummy of sort nat, URef 0, END. It spells tt d0 d0", "")}
CONVERSION = {
    155: ("Conv", "nn a; not (not a); ⊢ nn a; nn a =?= not (not a)"),
    165: ("ConvSave; H 2 is nn a = not (not a)", "nn a; not (not a); ⊢ nn a"),
    171: ("ConvRef 2", "⊢ nn a"),
}


def example(name, specification=None):
    return Parts(os.path.join(EXAMPLES, name + ".mmb"), os.path.join(EXAMPLES, (specification or name) + ".mm0"))


class Named(unittest.TestCase):
    def ask(self, parts, expected):
        found = {it.at: (it.meaning, it.stack) for it in parts.all()}
        self.assertEqual({at: found.get(at) for at in expected}, expected)

    def test_statements_and_bodies(self):
        self.ask(example("implication"), IMPLICATION)

    def test_words(self):
        self.ask(example("quantifier"), QUANTIFIER)

    def test_dummies(self):
        self.ask(example("dummy"), DUMMY)

    def test_conversions(self):
        self.ask(example("saved_conversion", "fold"), CONVERSION)

    def test_without_a_specification(self):
        self.ask(Parts(os.path.join(EXAMPLES, "term.mmb")), {48: ("term _p2: 2 parameters, result of sort _p1, words at 56", "")})


class Whole(unittest.TestCase):
    def test_each_byte_stands_in_one_part(self):
        for path in glob.glob(os.path.join(EXAMPLES, "*.mmb")):
            parts = Parts(path)
            at = 0
            for it in parts.all():
                self.assertEqual(it.at, at, path)
                at = it.end
            self.assertEqual(at, len(parts.data), path)

    def test_lines_have_all_bytes(self):
        parts = example("implication")
        printed = "\n".join(lines(parts.all(), parts.data))
        shown = " ".join(re.findall(r"^ {0,6}\d* {2,8}((?:[0-9A-F]{2} )*[0-9A-F]{2})(?: |$)", printed, re.M))
        self.assertEqual(bytes.fromhex(shown), parts.data)

    def test_the_sample_of_the_page(self):
        """Each line of the block in section 8 is one that the script prints, in this order."""
        with open(os.path.join(TOP, "docs", "FORMAT.md"), encoding="utf-8") as file:
            section = file.read().split("## 8. ")[1]
        command, *sample = re.search(r"```\n\$ (.*?)```", section, re.S)[1].strip("\n").split("\n")
        ran = subprocess.run([sys.executable, "-B", *command.split()], cwd=TOP, capture_output=True, text=True, check=True)
        printed = iter(ran.stdout.split("\n"))
        shown = [it for it in sample if it.strip() != ".."]
        self.assertGreater(len(shown), 10)
        for line in shown:
            self.assertIn(line, printed)

    def test_a_file_that_is_no_binary(self):
        with tempfile.NamedTemporaryFile(suffix=".mmb") as file:
            file.write(b"MM0B")
            file.flush()
            ran = subprocess.run([os.path.join(TOP, "scripts", "bytes"), file.name], capture_output=True, text=True, check=False)
        self.assertNotIn("Traceback", ran.stderr)


if __name__ == "__main__":
    unittest.main()
