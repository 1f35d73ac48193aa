"""Tries the reading of edits, how the changed function is found, and what is said of a trial.

What the prover prints in these tests was copied from runs of it over a copy of mz_lex. The prover of the trials is a script
that answers by what it finds in the crate.
"""
import os
import shutil
import subprocess
import sys
import tempfile
import time
import unittest

from wrong import answers, edits, functions, kit, trials

TOP = os.path.dirname(os.path.dirname(os.path.dirname(os.path.dirname(os.path.abspath(__file__)))))
NAMED = "note: src/lexer.rt:89:1: it is not proved that what the function ensures holds when it returns (`returns`); `search` gave up at one of its limits\n"
UNDERFLOW = "note: src/a.rt:2:26: it is not proved that the subtraction does not go below 0 (`overflow_sub-s`)\n"
PROVED = "fn mz_a::lexer::name_at: proved\n"
UNPROVED = "fn mz_a::lexer::name_at: not proved\n"
MISFIT = """./proofs/lexer/math_at/Answers.antt:6:5: error: `returns-clause-next`: expected type `ℕ`
  but this has type `⊥`
"""
ANSWERS = """use Rattle.std.proofs.Common.{refl}
use Rattle.mz_a.proofs.a.f.Goals as goal

pub returns-then : goal.returns-then
returns-then c = refl

pub returns : goal.returns
returns c =
    let le = c.at in
    refl
"""


def ran(status, said):
    return subprocess.CompletedProcess([], status, said)


class Reading(unittest.TestCase):
    def test_changes(self):
        text = "file: src/a.rt\nold:  x\nnew:  y\n\nold: z\nnew:\n"
        self.assertEqual(edits.parsed(text), [edits.Change("src/a.rt", " x", " y"), edits.Change("src/a.rt", "z", "")])

    def test_what_is_no_edit(self):
        for text in ("", "old: x\nnew: y\n", "file: specs/A.antt\nold: x\nnew: y\n", "file: src/a.rt\nold: x\n", "file: src/a.rt\nold: x\nnew: x\n",
                     "file: src/a.rt\nnew: y\n", "file: src/a.rt\nold: x\nold: y\nnew: z\n", "file: src/a.rt\nold: x\nnew: y\nmore\n"):
            with self.subTest(text), self.assertRaises(edits.Unfit):
                edits.parsed(text)

    def test_a_text_that_stands_twice(self):
        with tempfile.TemporaryDirectory() as folder:
            os.mkdir(os.path.join(folder, "src"))
            with open(os.path.join(folder, "src", "a.rt"), "w", encoding="utf-8") as file:
                file.write("x x y")
            with self.assertRaisesRegex(edits.Unfit, "stands 2 times"):
                list(edits.applied([edits.Change("src/a.rt", "x", "z")], folder))
            both = [edits.Change("src/a.rt", "y", "z"), edits.Change("src/a.rt", "z", "w")]
            self.assertEqual([after for _, _, after in edits.applied(both, folder)], ["x x z", "x x w"])


class Functions(unittest.TestCase):
    SOURCE = """const LIMIT: u32 = 7;

pub fn first(a: u8) -> u8
    ensures { result ≡ a }
{
    a + 1
}

impl<'a> Reader<'a> {
    /// The next.
    #[tactic(auto)]
    pub(crate) fn next(&self) -> u8 {
        self.at + 2
    }
}

impl Iterator for Other {
    fn next(&mut self) -> u8 {
        self.to + 3
    }
}
"""

    def at(self, words):
        return functions.changed_at(self.SOURCE, "src/read.rt", self.SOURCE.index(words))

    def names(self, words):
        return list(self.at(words).names)

    def test_a_function(self):
        self.assertEqual(self.names("a + 1"), ["read::first"])

    def test_methods_of_one_name(self):
        self.assertEqual(self.names("self.at + 2"), ["Reader::next", "read::Reader::next", "next"])
        self.assertEqual(self.names("self.to + 3"), ["OtherIterator::next", "read::OtherIterator::next", "next"])

    def test_before_the_first_function_the_module_is_asked_for(self):
        self.assertEqual(self.names("LIMIT"), ["read"])

    def test_the_lines_of_a_function_hold_its_goals(self):
        first = self.at("a + 1")
        self.assertEqual([first.holds(it) for it in ("src/read.rt:2", "src/read.rt:3", "src/read.rt:7", "src/read.rt:8", "src/other.rt:5")], [False, True, True, False, False])
        self.assertTrue(self.at("LIMIT").holds("src/read.rt:1"))

    def test_its_attributes_hold_them_too(self):
        following = self.at("self.at + 2")
        self.assertEqual([following.holds(f"src/read.rt:{it}") for it in (9, 10, 11, 14, 15)], [False, True, True, True, False])

    def test_modules(self):
        self.assertEqual([functions.module_of(it) for it in ("src/lib.rt", "src/a/b.rt", "src/a/mod.rt")], ["", "a::b", "a"])


class Answers(unittest.TestCase):
    def test_one_is_left_out(self):
        text, names = answers.without(ANSWERS, {9})
        self.assertEqual(names, ["returns"])
        self.assertEqual(text.strip(), ANSWERS.partition("pub returns :")[0].strip())

    def test_above_the_first_there_is_none(self):
        self.assertEqual(answers.without(ANSWERS, {2}), (ANSWERS, []))

    def test_places(self):
        self.assertEqual(answers.misfits(MISFIT), {"proofs/lexer/math_at/Answers.antt": {6}})


class Judging(unittest.TestCase):
    AT = functions.Changed(("lexer::name_at",), "src/lexer.rt", 80, 100)

    def judged(self, status, said, at=AT):
        return trials.judged(ran(status, said), [at])

    def test_outcomes(self):
        for status, said, outcome in (
            (0, f"{PROVED}only=1 proved=1", trials.Outcome.PROVED),
            (0, "fn mz_a::name_at::other: proved\nonly=1 proved=1", trials.Outcome.NOT_TRIED),
            (1, f"{NAMED}{PROVED}fn mz_a::lexer::run_end: no proof: expected answers\nonly=4 proved=3", trials.Outcome.NOT_TRIED),
            (1, f"{NAMED}{UNPROVED}only=4 proved=3", trials.Outcome.REFUSED),
            (1, f"{UNDERFLOW}{UNPROVED}only=4 proved=3", trials.Outcome.NO_GOAL),
            (1, f"{MISFIT}{UNPROVED}only=4 proved=3", trials.Outcome.NO_GOAL),
            (1, "error[mismatched-types]: src/a.rt:2:5: found `u8`", trials.Outcome.REJECTED),
            (2, "rattle: error: `mz_a` has no function `f`", trials.Outcome.NOT_TRIED),
            (3, "rattle: no verdict", trials.Outcome.NOT_TRIED),
            (-9, "", trials.Outcome.NOT_TRIED),
        ):
            with self.subTest(said):
                self.assertIs(self.judged(status, said)[0], outcome)

    def test_the_goal_is_named(self):
        self.assertEqual(self.judged(1, f"{NAMED}{UNPROVED}only=4 proved=3")[1], "returns (src/lexer.rt:89)")

    def test_a_goal_of_another_function_refuses_nothing(self):
        other = functions.Changed(("lexer::name_at",), "src/lexer.rt", 20, 40)
        self.assertIs(self.judged(1, f"{NAMED}{UNPROVED}only=4 proved=3", other)[0], trials.Outcome.NO_GOAL)

    def test_all_goals_are_named_those_of_what_is_ensured_first(self):
        said = (NAMED.replace("89:1", "96:5").replace("what the function ensures holds when it returns (`returns`)", "what `at` requires holds at this call (`at-place`)")
                + NAMED.replace("(`returns`)", "(`returns-clause-log`)") + NAMED.replace("(`returns`)", "(`returns-clause-text`)") + UNPROVED + "only=4 proved=3")
        self.assertEqual(self.judged(1, said)[1], "returns-clause-log, returns-clause-text (src/lexer.rt:89); at-place (src/lexer.rt:96)")

    def test_a_module_is_judged_by_its_functions(self):
        self.assertEqual(trials.verdicts_on("lexer", PROVED + "fn mz_a::lexer::at: no proof: expected answers in ./proofs\n"), ["proved", "no proof"])


PROVER = r"""#!/bin/sh
echo "$@" >>"$FAKE_LOG"
case "$*" in *"--only b::"*)
    for name in second third; do
        if grep -q "$name good" src/b.rt; then echo "fn mz_a::b::$name: proved"; continue; fi
        echo "note: src/b.rt:$(grep -n "$name wrong" src/b.rt | cut -d: -f1):1: it is not proved that what the function ensures holds when it returns (\`$name\`)"
        echo "fn mz_a::b::$name: not proved"
    done
    echo 'only=2 proved=0'
    exit 1 ;;
esac
case "$*" in *"--only a::first"*) ;; *) echo 'rattle: error: `mz_a` has no function `x`'; exit 2 ;; esac
if grep -q 'a + 1' src/a.rt; then echo 'fn mz_a::a::first: proved'; echo 'only=1 proved=1'; exit 0; fi
if grep -q '^pub returns :' proofs/a/first/Answers.antt; then
    echo './proofs/a/first/Answers.antt:8:5: error: `returns`: expected type `A`'
else
    echo 'note: src/a.rt:3:1: it is not proved that what the function ensures holds when it returns (`returns`)'
fi
echo 'fn mz_a::a::first: not proved'
echo 'only=1 proved=0'
exit 1
"""


class Trials(unittest.TestCase):
    """Whole runs of scripts/wrong-bodies over a small repository, with a prover that asks for `a + 1`."""

    def setUp(self):
        self.top = tempfile.mkdtemp(prefix="test-wrong-")
        self.addCleanup(shutil.rmtree, self.top)
        for name in ("wrong", "build"):
            shutil.copytree(os.path.join(TOP, "scripts", name), os.path.join(self.top, "scripts", name), ignore=shutil.ignore_patterns("tests", "__pycache__"))
        shutil.copy(os.path.join(TOP, "scripts", "wrong-bodies"), os.path.join(self.top, "scripts"))
        self.write("kit/bin/rattle", PROVER, 0o755)
        self.write("kit/bin/rt", "#!/bin/sh\n", 0o755)
        self.write("crates.txt", "mz_below:\nmz_a: mz_below # a comment\n")
        self.write("crates/mz_a/src/lib.rt", "mod a;\n")
        self.write("crates/mz_a/src/a.rt", "fn first(a: u8) -> u8\n    ensures { result ≡ a + 2 }\n{\n    a + 1 + 1\n}\n")
        self.write("crates/mz_a/proofs/a/first/Answers.antt", ANSWERS)
        os.makedirs(os.path.join(self.top, "crates/mz_below/out/rlib/mz_below.rlib"))

    def write(self, path, text, mode=0o644):
        whole = os.path.join(self.top, path)
        os.makedirs(os.path.dirname(whole), exist_ok=True)
        with open(whole, "w", encoding="utf-8") as file:
            file.write(text)
        os.chmod(whole, mode)

    def body(self, old, new):
        self.write("crates/mz_a/wrong/one.edit", f"file: src/a.rt\nold: {old}\nnew: {new}\n")

    def start(self, *words):
        environment = {**os.environ, "PATH": f"{self.top}/kit/bin:{os.environ['PATH']}", "FAKE_LOG": os.path.join(self.top, "log"), "TMPDIR": self.top}
        how = {"stdin": subprocess.DEVNULL, "stdout": subprocess.PIPE, "stderr": subprocess.STDOUT, "text": True}
        return subprocess.Popen([os.path.join(self.top, "scripts", "wrong-bodies"), "--jobs", "1", *words], env=environment, **how)

    def run_it(self, *words):
        with self.start(*words) as made:
            said = made.communicate(timeout=60)[0]
        return made.returncode, said.strip().split("\n")

    def test_an_answer_that_no_longer_fits_is_left_out_and_a_goal_decides(self):
        self.body("a + 1 + 1", "a + 2 + 1")
        status, lines = self.run_it()
        self.assertEqual(status, 0)
        self.assertRegex(lines[0], r"^refused .* mz_a/one: a::first: returns \(src/a.rt:3\); without the answers returns$")
        self.assertRegex(lines[-1], r"^wrong bodies: 1 passed, 0 failed")
        self.assertEqual(self.runs(), 2)

    def test_a_body_that_is_proved_fails(self):
        self.body("a + 1 + 1", "1 + a + 1")
        status, lines = self.run_it("mz_a")
        self.assertEqual(status, 1)
        self.assertTrue(lines[0].startswith("PROVED"), lines[0])
        self.assertRegex(lines[-1], r"^wrong bodies: 0 passed, 1 failed")

    def runs(self):
        with open(os.path.join(self.top, "log"), encoding="utf-8") as file:
            return len(file.readlines())

    def two(self, new):
        """Two bodies of two functions: the first is wrong, and the second becomes what is given."""
        self.write("crates/mz_a/src/b.rt", "fn second() {\n    second good\n}\n\nfn third() {\n    third good\n}\n")
        self.write("crates/mz_a/wrong/second.edit", "file: src/b.rt\nold: second good\nnew: second wrong\n")
        self.write("crates/mz_a/wrong/third.edit", f"file: src/b.rt\nold: third good\nnew: {new}\n")
        return self.run_it()

    def test_two_functions_of_a_crate_are_tried_in_one_run_and_each_has_its_goal(self):
        status, lines = self.two("third wrong")
        self.assertEqual((status, self.runs()), (0, 1))
        self.assertRegex(lines[0], r"^refused .* mz_a/second: b::second: second \(src/b.rt:2\)$")
        self.assertRegex(lines[1], r"^refused .* mz_a/third: b::third: third \(src/b.rt:6\)$")

    def test_what_such_a_run_does_not_refuse_is_tried_alone(self):
        status, lines = self.two("third good and more")
        self.assertEqual((status, self.runs()), (1, 2))
        self.assertTrue(lines[0].startswith("refused"), lines[0])
        self.assertTrue(lines[1].startswith("NOT TRIED"), lines[1])

    def test_two_bodies_of_one_function_are_tried_apart(self):
        self.two("third wrong")
        self.write("crates/mz_a/wrong/third_too.edit", "file: src/b.rt\nold: third good\nnew: third wrong too\n")
        os.remove(os.path.join(self.top, "log"))
        self.assertEqual((self.run_it()[0], self.runs()), (0, 2))

    def test_what_does_not_stand_there_is_not_tried(self):
        self.body("b", "c")
        status, lines = self.run_it()
        self.assertEqual((status, lines[0][:9]), (1, "NOT TRIED"))

    def test_without_a_library_nothing_is_tried(self):
        self.body("a + 1 + 1", "a")
        os.rmdir(os.path.join(self.top, "crates/mz_below/out/rlib/mz_below.rlib"))
        status, lines = self.run_it()
        self.assertEqual(status, 1)
        self.assertIn("the library of mz_below isn't built", lines[0])

    def test_where_it_is_ended_the_prover_ends_and_no_copy_is_left(self):
        self.body("a + 1 + 1", "a")
        self.write("kit/bin/rattle", "#!/bin/sh\necho $$ >\"$FAKE_LOG\"\nexec sleep 300\n", 0o755)
        log = os.path.join(self.top, "log")
        with self.start() as started:
            while not os.path.exists(log) or not os.path.getsize(log):
                time.sleep(0.05)
            time.sleep(0.5)
            started.terminate()
            started.communicate(timeout=30)
        self.assertEqual(started.returncode, 130)
        with open(log, encoding="utf-8") as file:
            self.assertFalse(os.path.exists(f"/proc/{file.read().strip()}"))
        self.assertEqual([it for it in os.listdir(self.top) if it.startswith("mz-wrong-")], [])

    def test_no_body_of_the_name(self):
        self.body("a + 1 + 1", "a")
        self.assertEqual(self.run_it("mz_b")[0], 1)


class Checking(unittest.TestCase):
    """scripts/check-edits over a small repository with one part."""

    def setUp(self):
        self.top = tempfile.mkdtemp(prefix="test-edits-")
        self.addCleanup(shutil.rmtree, self.top)
        shutil.copytree(os.path.join(TOP, "scripts", "wrong"), os.path.join(self.top, "scripts", "wrong"), ignore=shutil.ignore_patterns("tests", "__pycache__"))
        for name in ("check-edits", "running.py"):
            shutil.copy(os.path.join(TOP, "scripts", name), os.path.join(self.top, "scripts"))
        self.write("crates.txt", "# What this is.\n\n# low: what is lowest\nmz_a:\n")
        self.write("crates/mz_a/src/a.rt", "one two three four\n")
        for word in ("one", "two", "three"):
            self.edit("wrong", word)

    def write(self, path, text):
        whole = os.path.join(self.top, path)
        os.makedirs(os.path.dirname(whole), exist_ok=True)
        with open(whole, "w", encoding="utf-8") as file:
            file.write(text)

    def edit(self, folder, old):
        self.write(f"crates/mz_a/{folder}/{old}_wrong.edit", f"file: src/a.rt\nold: {old}\nnew: no\n")

    def told(self):
        how = {"stdout": subprocess.PIPE, "stderr": subprocess.STDOUT, "text": True, "env": {**os.environ, "PYTHONDONTWRITEBYTECODE": "1"}}
        made = subprocess.run([os.path.join(self.top, "scripts", "check-edits")], check=False, **how)
        return made.returncode, made.stdout.strip().split("\n")

    def test_three_of_a_part_are_enough(self):
        self.edit("must-fail", "four")
        self.assertEqual(self.told(), (0, ["3 wrong bodies, 1 must-fail edits; 0 faults"]))

    def test_two_are_too_few(self):
        os.remove(os.path.join(self.top, "crates/mz_a/wrong/two_wrong.edit"))
        self.assertEqual(self.told()[1][0], "low: 2 wrong bodies, and 3 are the least")

    def test_two_in_must_fail_are_too_many(self):
        self.edit("must-fail", "four")
        self.edit("must-fail", "one")
        self.assertEqual(self.told(), (1, ["mz_a has 2 edits in must-fail/, and one may stand there", "3 wrong bodies, 2 must-fail edits; 1 faults"]))

    def test_what_does_not_fit_is_named(self):
        self.edit("wrong", "five")
        self.assertEqual(self.told()[1][0], "crates/mz_a/wrong/five_wrong.edit changes a text that stands 0 times in src/a.rt: five")


class Crates(unittest.TestCase):
    def test_what_stands_below(self):
        uses = {"a": ["thiserror"], "b": ["a"], "c": ["b", "indexmap"]}
        self.assertEqual(sorted(kit.below("c", uses)), ["a", "b"])


if __name__ == "__main__":
    sys.exit(unittest.main())
