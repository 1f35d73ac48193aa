"""Tries ./mz over a small repository, with a kit that proves nothing and a program that only prints what it was given."""
import hashlib
import os
import pty
import shutil
import signal
import subprocess
import sys
import tempfile
import time
import unittest

TOP = os.path.dirname(os.path.dirname(os.path.dirname(os.path.abspath(__file__))))
sys.path.insert(0, os.path.join(TOP, "scripts"))

import manual  # noqa: E402

KIT = r"""#!/bin/sh
if [ "$1" = version ]; then echo "kit-of-tests"; exit; fi
if [ "$1" = try ]; then
    echo "try ${PWD##*/}" >>"$FAKE_TRIED"
    shift 4
    "$FAKE_PROGRAM" "$@"
    printf 'checked: ended status=%s\nrun=ended status=%s runners=1 proved=no\n' "$?" "$?" >&2
    exit
fi
echo "$$ $(sed 's/[ :].*//' crates.txt | tr '\n' ' ')" >>"$FAKE_LOG"
sleep "${FAKE_SLEEP:-0}"
for name in $(sed 's/[ :].*//' crates.txt); do
    printf '== %s\nlogic=proved functions=3 sum=0\nrt: %s proved\n' "$name" "$name"
done
if [ -n "$FAKE_FAILS" ]; then echo "rt: $name NOT PROVED"; echo "1 passed, 1 failed"; exit 1; fi
mkdir -p "crates/$name/out"
cp "$FAKE_PROGRAM" "crates/$name/out/$name"
chmod +x "crates/$name/out/$name"
if [ -n "$FAKE_ENDS" ]; then echo "1 passed, 1 failed"; exit 1; fi
echo "2 passed, 0 failed"
"""
PROGRAM = r"""#!/bin/sh
[ "$2" = /dev/stdin ] && cat >/dev/null
if [ -n "$FAKE_LINE" ]; then printf '%s\n' "$FAKE_LINE"; else printf '<%s>' "$@"; echo; fi
exit "${FAKE_STATUS:-0}"
"""
CRATES = "# a comment\nmz_base:\nmz_verifier: mz_base\nmz_tool: mz_base\nmz_main: mz_base mz_tool\n"


class Checkout:
    """A small repository in a folder, and how commands run in it."""

    def __init__(self):
        self.room = os.path.realpath(tempfile.mkdtemp(prefix="test mz "))
        self.top = os.path.join(self.room, "a checkout")
        self.log = os.path.join(self.room, "log")
        for it in ("mz", "scripts/running.py", "scripts/build", "scripts/manual", "scripts/explain", "scripts/shell", "docs/RULES.md", "examples/empty.mmb", "mz.1", "editors/bash/mz.bash"):
            self.copy(it)
        for name in ("mz_base", "mz_verifier", "mz_tool", "mz_main"):
            self.write(f"a checkout/crates/{name}/src/{'lib' if name in ('mz_base', 'mz_tool') else 'main'}.rt", f"//! What {name} is.\n")
        self.write("a checkout/crates.txt", CRATES)
        self.write("a checkout/HANDLES", "Handles allowed: none.\n")
        self.write("bin/rt", KIT, 0o755)
        self.write("program", PROGRAM, 0o755)
        os.mkdir(os.path.join(self.room, "tmp"))
        for name in ("a", "b", "x", "a b", "--c d", "a spec", "text"):
            self.write(name, "")
        self.environment = {"PATH": f"{self.room}/bin:{os.environ['PATH']}", "HOME": os.path.join(self.room, "home"), "TMPDIR": os.path.join(self.room, "tmp"),
                            "FAKE_LOG": self.log, "FAKE_TRIED": self.log + ".tried", "FAKE_PROGRAM": os.path.join(self.room, "program")}

    def copy(self, path):
        source, to = os.path.join(TOP, path), os.path.join(self.top, path)
        os.makedirs(os.path.dirname(to), exist_ok=True)
        if os.path.isdir(source):
            shutil.copytree(source, to, ignore=shutil.ignore_patterns("__pycache__", "tests"))
        else:
            shutil.copy2(source, to)

    def write(self, path, text, mode=0o644):
        whole = os.path.join(self.room, path)
        os.makedirs(os.path.dirname(whole), exist_ok=True)
        with open(whole, "w", encoding="utf-8") as file:
            file.write(text)
        os.chmod(whole, mode)
        return whole

    def start(self, *words, script=None, **environment):
        how = {"stdin": subprocess.DEVNULL, "stdout": subprocess.PIPE, "stderr": subprocess.PIPE, "text": True, "cwd": self.room, "start_new_session": True}
        return subprocess.Popen([script or os.path.join(self.top, "mz"), *words], env={**self.environment, **environment}, **how)

    def write_after(self, path, text):
        """Adds to a file of the checkout."""
        old = ""
        whole = os.path.join(self.top, path)
        if os.path.exists(whole):
            with open(whole, encoding="utf-8") as file:
                old = file.read()
        return self.write(os.path.join("a checkout", path), old + text)

    def run(self, *words, **given):
        ran = self.start(*words, **given)
        said, complained = ran.communicate()
        return ran.returncode, said, complained

    def builds(self):
        """The crates of each build so far."""
        if not os.path.exists(self.log):
            return []
        with open(self.log, encoding="utf-8") as file:
            return [it.split()[1:] for it in file]


class Mz(unittest.TestCase):
    def setUp(self):
        self.at = Checkout()
        self.addCleanup(shutil.rmtree, self.at.room, True)

    # answers without building

    def test_no_words_list_the_commands_and_end_with_2(self):
        status, said, complained = self.at.run()
        self.assertEqual((status, said, self.at.builds()), (2, "", []))
        self.assertIn("verify SPEC BIN", complained)

    def test_help_ends_with_0(self):
        for word in ("help", "-h", "--help"):
            status, said, complained = self.at.run(word)
            self.assertEqual((status, complained, self.at.builds()), (0, "", []))
            self.assertIn("decompile SPEC BIN OUT", said)

    def test_help_of_a_command(self):
        status, said, _ = self.at.run("help", "assemble")
        self.assertEqual(status, 0)
        self.assertTrue(said.startswith("usage: mz assemble LIST OUT\n"), said)

    def test_help_behind_a_command(self):
        for command in ("assemble", "export"):
            self.assertEqual(self.at.run(command, "--help"), self.at.run("help", command))

    def test_help_of_no_command_names_the_nearest(self):
        status, _, complained = self.at.run("help", "asemble")
        self.assertEqual(status, 2)
        self.assertIn("assemble is near it", complained)

    def test_version_builds_nothing(self):
        status, said, _ = self.at.run("version")
        self.assertEqual((status, self.at.builds()), (0, []))
        self.assertIn("not built", said)
        self.at.run("build")
        status, said, _ = self.at.run("--version")
        for word in ("commit", "program  mz_main", "sha256", "sources", "kit      kit-of-tests"):
            self.assertIn(word, said)

    def test_help_of_each_command_builds_nothing(self):
        for name, word in [(it.name, word) for it in manual.read().commands for word in ("--help", "-h")]:
            status, said, complained = self.at.run(name, word)
            self.assertEqual((status, complained), (0, ""), name)
            self.assertTrue(said.startswith(f"usage: mz {name}"), said)
        self.assertEqual(self.at.builds(), [])

    def test_a_call_whose_files_are_not_there_builds_nothing(self):
        for words in (["verify", "a", "c"], ["show", "no folder/c"], ["compile", "c", "b"], ["axioms", "bin", "b"], ["check", "c"]):
            status, said, complained = self.at.run(*words)
            self.assertEqual((status, said, self.at.builds()), (3, "", []), words)
            self.assertTrue(complained.startswith("ReadFault\nmz: "), complained)

    def test_a_call_of_a_script_whose_files_are_not_there_builds_nothing(self):
        """The scripts are the repository's own. Where a program were asked for, the number would be 125."""
        asks_none = {**self.at.environment, "MZ_BUILD": "never"}
        for words in (["explore", "c", "d", "pages"], ["axioms", "--definitions", "c", "d"], ["import", "c", "d"], ["export", "c", "d", "e"], ["same", "c", "d"], ["prove", "c.proofs"],
                      ["prove", "--at", "1:1", "c.proofs"], ["serve", "--check", "c.mm0"]):
            ran = subprocess.run([os.path.join(TOP, "mz"), *words], cwd=self.at.room, env=asks_none, stdin=subprocess.DEVNULL, capture_output=True, text=True, check=False)
            self.assertEqual(ran.returncode, 1 if words[0] in ("prove", "serve") else 3, (words, ran.stderr))
            self.assertNotIn("Traceback", ran.stderr)

    def test_wrong_words_build_nothing(self):
        for words, wanted in ((["verfy", "a", "b"], "the nearest is verify SPEC BIN"), (["verify", "a"], "BIN is missing"), (["verify", "a", "b", "c"], "'c' is one too many"),
                              (["sample", "0"], "no number from 1 to 10000"), ([""], "is no command")):
            status, said, complained = self.at.run(*words)
            self.assertEqual((status, said, self.at.builds()), (2, "", []), words)
            self.assertTrue(complained.startswith("Usage\n"), complained)
            self.assertIn(wanted, complained)

    # what is built

    def test_verify_builds_the_verifier_alone_and_others_the_whole(self):
        self.assertEqual(self.at.run("verify", "a", "b")[:2], (0, "<verify><a><b>\n"))
        self.assertEqual(self.at.builds(), [["mz_base", "mz_verifier"]])
        self.assertEqual(self.at.run("show", "b")[:2], (0, "<show><b>\n"))
        self.assertEqual(len(self.at.builds()), 1)
        self.assertEqual(self.at.run("compile", "a", "b")[:2], (0, "<compile><a><b>\n"))
        self.assertEqual(self.at.builds()[1:], [["mz_base", "mz_tool", "mz_main"]])
        shutil.rmtree(self.program_of("mz_verifier"))
        self.assertEqual(self.at.run("verify", "a", "b")[0], 0)
        self.assertEqual(len(self.at.builds()), 2)

    def program_of(self, crate):
        place = os.path.join(self.at.top, "out", "program")
        return next(os.path.join(place, it) for it in os.listdir(place) if it.startswith(crate + "-"))

    def test_without_a_verifier_the_whole_is_built(self):
        self.at.write("a checkout/crates.txt", CRATES.replace("mz_verifier: mz_base\n", ""))
        self.at.run("verify", "a", "b")
        self.assertEqual(self.at.builds(), [["mz_base", "mz_tool", "mz_main"]])

    def test_a_copy_is_built_and_a_changed_source_is_not(self):
        self.at.run("build")
        shutil.copytree(self.at.top, self.at.top + " 2", copy_function=shutil.copyfile)
        os.chmod(self.at.top + " 2/mz", 0o755)
        for path in os.listdir(self.at.top + " 2/out/program"):
            program = f"{self.at.top} 2/out/program/{path}/mz_main"
            if os.path.exists(program):
                os.chmod(program, 0o755)
        self.assertEqual(self.at.run("compile", "a", "b", script=self.at.top + " 2/mz")[0], 0)
        self.assertEqual(len(self.at.builds()), 1)
        source = self.at.write("a checkout/crates/mz_tool/src/lib.rt", "//! Another text.\n")
        os.utime(source, (0, 0))
        self.at.run("compile", "a", "b")
        self.assertEqual(len(self.at.builds()), 2)

    def test_a_crate_above_or_beside_counts_for_nothing(self):
        self.at.run("build")
        self.at.write("a checkout/crates/mz_verifier/src/main.rt", "//! Another text.\n")
        self.at.write("a checkout/crates/mz_main/must-fail/one.edit", "file: src/main.rt\n")
        self.at.run("compile", "a", "b")
        self.assertEqual(len(self.at.builds()), 1)

    def test_never_build(self):
        status, said, complained = self.at.run("verify", "a", "b", MZ_BUILD="never")
        self.assertEqual((status, said, self.at.builds()), (125, "", []))
        self.assertIn("MZ_BUILD", complained)

    def test_without_a_kit(self):
        os.remove(os.path.join(self.at.room, "bin/rt"))
        path = os.pathsep.join(it for it in self.at.environment["PATH"].split(os.pathsep) if not os.path.exists(os.path.join(it, "rt")))
        status, _, complained = self.at.run("verify", "a", "b", PATH=path)
        self.assertEqual(status, 125)
        self.assertIn("there is no rt", complained)
        status, said, complained = self.at.run("try", "verify", "a", "b", PATH=path)
        self.assertEqual((status, said), (125, ""))
        self.assertIn("there is no rt", complained)

    def test_a_failed_build(self):
        status, said, complained = self.at.run("verify", "a", "b", FAKE_FAILS="1")
        self.assertEqual((status, said), (125, ""))
        self.assertIn("NOT PROVED", complained)
        self.assertIn("could not be proved and built", complained)
        self.assertEqual(os.listdir(os.path.join(self.at.room, "tmp")), [])

    def test_progress(self):
        complained = self.at.run("build")[2]
        for said in ("3 crates", "From nothing that takes about", "2.5 GB of memory for each", "GB of disk", "./mz try verify SPEC BIN gives an unproved answer"):
            self.assertIn(said, complained)
        self.assertIn(" 1 of 3,  0:00  mz_base: What mz_base is (3 functions proved); ", complained)
        self.assertIn(" 3 of 3,  0:00  mz_main: What mz_main is (3 functions proved)\n", complained)

    def test_where_the_checkout_cannot_be_written(self):
        self.at.write("a checkout/out", "")
        self.assertEqual(self.at.run("verify", "a", "b")[0], 0)
        self.assertTrue(os.listdir(os.path.join(self.at.room, "home/.cache/mz/program")))
        self.assertEqual(self.at.run("verify", "a", "b", FAKE_FAILS="1")[0], 0)
        self.at.run("verify", "a", "b", XDG_CACHE_HOME=os.path.join(self.at.room, "other cache"))
        self.assertTrue(os.listdir(os.path.join(self.at.room, "other cache/mz/program")))
        self.assertEqual(len(self.at.builds()), 2)

    def test_two_builds_wait_for_one_another(self):
        started = [self.at.start("verify", "a", "b", FAKE_SLEEP="2") for _ in range(2)]
        complained = [it.communicate()[1] for it in started]
        self.assertEqual([it.returncode for it in started], [0, 0])
        self.assertEqual(len(self.at.builds()), 1)
        self.assertEqual(sum("waiting for it to end" in it for it in complained), 1)

    def test_an_interrupted_build_leaves_nothing(self):
        for number, wanted in ((signal.SIGINT, 125), (signal.SIGTERM, 125)):
            ran = self.at.start("verify", "a", "b", FAKE_SLEEP="60")
            count = len(self.at.builds())
            for _ in range(300):
                if len(self.at.builds()) > count:
                    break
                time.sleep(0.1)
            os.killpg(ran.pid, number)
            ran.communicate()
            self.assertNotEqual(ran.returncode, 0)
            for _ in range(300):
                if not os.listdir(os.path.join(self.at.room, "tmp")):
                    break
                time.sleep(0.1)
            self.assertEqual(os.listdir(os.path.join(self.at.room, "tmp")), [])
            self.assertEqual([it for it in os.listdir(os.path.join(self.at.top, "out/program")) if it != "lock"], [])
            with open(self.at.log, encoding="utf-8") as file:
                kit = file.read().split("\n")[-2].split()[0]
            self.assertFalse(os.path.exists(f"/proc/{kit}"))

    def test_the_old_program_stays_while_another_is_built(self):
        self.at.run("build")
        self.at.write("a checkout/crates/mz_tool/src/lib.rt", "//! Another text.\n")
        self.at.run("build", FAKE_FAILS="1")
        self.assertTrue(os.path.exists(os.path.join(self.program_of("mz_main"), "mz_main")))
        self.at.write("a checkout/crates/mz_tool/src/lib.rt", "//! What mz_tool is.\n")
        self.assertEqual(self.at.run("compile", "a", "b", MZ_BUILD="never")[0], 0)

    # which command is whose

    def test_each_command_is_served_by_a_program_that_has_it(self):
        """Where the verifier alone is built, what it doesn't have makes the whole be built."""
        self.at.run("verify", "a", "b")
        for it in manual.read().of_program():
            built = len(self.at.builds())
            words = [it.name, *("2" if word == "N" else "out" if word == "OUT" else "a" for word in it.words)]
            self.assertEqual(self.at.run(*words)[0], 0, words)
            crates = [it[-1] for it in self.at.builds()[built:]]
            self.assertEqual(crates, [] if it.name in ("verify", "show") else ["mz_main"], words)
            shutil.rmtree(self.program_of("mz_main"), True) if crates else None

    # what is built is what runs

    def planted(self, crate="mz_verifier"):
        """The path of the built program, in whose place another says yes to all."""
        path = os.path.join(self.program_of(crate), crate)
        self.at.write(os.path.relpath(path, self.at.room), "#!/bin/sh\necho accepted: 1 sorts\n", 0o755)
        return path

    def test_another_program_in_the_place_of_the_built_one_is_not_run(self):
        self.at.run("verify", "a", "b")
        path = self.planted()
        status, said, complained = self.at.run("verify", "a", "b", MZ_BUILD="never")
        self.assertEqual((status, said), (125, ""))
        self.assertIn(f"{path} isn't run: its checksum isn't the one that the build recorded", complained)
        self.assertEqual(self.at.run("verify", "a", "b")[:2], (0, "<verify><a><b>\n"))
        self.assertEqual(len(self.at.builds()), 2)

    def test_a_program_whose_text_beside_it_is_changed_too_is_not_run(self):
        self.at.run("verify", "a", "b")
        path = self.planted()
        with open(path, "rb") as file:
            own = hashlib.sha256(file.read()).hexdigest()
        self.at.write(os.path.relpath(os.path.join(os.path.dirname(path), "BUILT"), self.at.room), f"program  mz_verifier\nsha256   {own}\n")
        self.assertEqual(self.at.run("verify", "a", "b", MZ_BUILD="never")[:2], (125, ""))

    def test_a_program_that_no_build_here_has_recorded_is_not_run(self):
        self.at.run("verify", "a", "b")
        status, said, complained = self.at.run("verify", "a", "b", MZ_BUILD="never", XDG_STATE_HOME=os.path.join(self.at.room, "another"))
        self.assertEqual((status, said), (125, ""))
        self.assertIn("isn't run: no build here has recorded it", complained)

    def test_what_others_may_write_is_not_used(self):
        self.at.run("verify", "a", "b")
        place = self.program_of("mz_verifier")
        record = os.path.join(self.at.room, "home/.local/state/mz/built")
        for path in (os.path.dirname(place), place, os.path.join(place, "mz_verifier"), record):
            mode = os.stat(path).st_mode
            for wrong in (0o020, 0o002):
                os.chmod(path, mode | wrong)
                status, said, complained = self.at.run("verify", "a", "b", MZ_BUILD="never")
                self.assertEqual((status, said), (125, ""), path)
                self.assertIn("others may write", complained)
            os.chmod(path, mode)
        self.assertEqual(self.at.run("verify", "a", "b", MZ_BUILD="never")[0], 0)

    @unittest.skipUnless(os.geteuid() == 0, "only root can give a folder away")
    def test_what_belongs_to_another_user_is_not_used(self):
        self.at.run("verify", "a", "b")
        for path in (os.path.dirname(self.program_of("mz_verifier")), self.program_of("mz_verifier"), os.path.join(self.at.room, "home/.local/state/mz/built")):
            os.chown(path, 65534, 65534)
            self.assertEqual(self.at.run("verify", "a", "b", MZ_BUILD="never")[:2], (125, ""), path)
            os.chown(path, 0, 0)

    def test_another_kit_builds_anew(self):
        self.at.run("verify", "a", "b")
        self.at.write("bin/rt", KIT.replace("kit-of-tests", "another-kit"), 0o755)
        self.assertEqual(self.at.run("verify", "a", "b", MZ_BUILD="never")[0], 125)
        self.assertEqual(self.at.run("verify", "a", "b")[0], 0)
        self.assertEqual(len(self.at.builds()), 2)

    def test_each_kind_of_source_counts(self):
        """What a program is built of: rows, handles, and the files of a crate but for its tests of the prover and its streams."""
        parts = ["crates/mz_base/src/more.rt", "crates/mz_base/specs/One.antt", "crates/mz_base/proofs/One.antt", "crates/mz_base/c/one.c", "HANDLES", "crates.txt"]
        for path in parts:
            old = self.sum_of("mz_verifier")
            self.at.write_after(path, "# more\n")
            self.assertEqual(self.sum_of("mz_verifier") != old, path != "crates.txt", path)
        old = self.sum_of("mz_verifier")
        self.at.write("a checkout/crates.txt", CRATES.replace("mz_verifier: mz_base", "mz_verifier: mz_base mz_tool"))
        self.assertNotEqual(self.sum_of("mz_verifier"), old)

    def sum_of(self, crate):
        """Both checksums of what the crate's program is built of."""
        words = ["sh", os.path.join(self.at.top, "scripts/build/sum"), self.at.top, crate]
        return subprocess.run(words, env=self.at.environment, stdout=subprocess.PIPE, text=True, check=True).stdout

    def test_what_the_gate_refuses_is_not_built(self):
        """The kit has made a program, and says that not all is proved."""
        status, said, complained = self.at.run("verify", "a", "b", FAKE_ENDS="1")
        self.assertEqual((status, said), (125, ""))
        self.assertIn("rt ci ended with 1", complained)
        self.assertEqual(self.at.run("verify", "a", "b", MZ_BUILD="never")[0], 125)

    # unproved

    def test_an_unproved_run_is_no_answer_and_leaves_nothing(self):
        for words, crate in ((["verify", "a", "b"], "mz_verifier"), (["show", "b"], "mz_verifier"), (["compile", "a", "b"], "mz_main")):
            status, said, complained = self.at.run("try", *words)
            self.assertEqual((status, said), (125, ""))
            shown = "".join(f"<{it if it in words[:1] else os.path.join(self.at.room, it)}>" for it in words)
            self.assertIn(f"\nunproved: {shown}\n", complained)
            self.assertIn("proof has not been checked on this machine", complained)
            with open(self.at.log + ".tried", encoding="utf-8") as file:
                self.assertEqual(file.read().split("\n")[-2], f"try {crate}")
        self.assertEqual(self.at.builds(), [])
        self.assertFalse(os.path.exists(os.path.join(self.at.top, "out")))
        self.assertEqual(self.at.run("verify", "a", "b", MZ_BUILD="never")[0], 125)

    def test_an_unproved_refusal_is_explained(self):
        line = "refused: match declaration 1 statement 1: M4 modifiers"
        status, said, complained = self.at.run("try", "verify", "a", "b", FAKE_STATUS="1", FAKE_LINE=line)
        self.assertEqual((status, said), (125, ""))
        self.assertIn(f"unproved: {line}\n", complained)
        self.assertIn("Two sorts have other modifiers", complained)

    def test_an_unproved_run_of_wrong_words_compiles_nothing(self):
        for words, wanted in (([], 2), (["verify", "a"], 2), (["check", "a"], 2), (["verify", "a", "no such file"], 3)):
            self.assertEqual(self.at.run("try", *words)[:2], (wanted, ""), words)
        self.assertFalse(os.path.exists(self.at.log + ".tried"))

    # anywhere

    def test_through_links_and_from_any_folder(self):
        self.at.run("build")
        os.mkdir(os.path.join(self.at.room, "links"))
        os.symlink("../a checkout/mz", os.path.join(self.at.room, "links/one"))
        os.symlink("one", os.path.join(self.at.room, "links/two"))
        for name in ("one", "two"):
            self.assertEqual(self.at.run("show", "x", script=os.path.join(self.at.room, "links", name))[:2], (0, "<show><x>\n"))

    def test_install_brings_links_and_the_program_and_uninstall_takes_the_links_away(self):
        os.makedirs(os.path.join(self.at.room, "my home/bin"))
        links = [os.path.join(self.at.room, "my home", it) for it in ("bin/mz", "share/man/man1/mz.1", "share/bash-completion/completions/mz")]
        for _ in range(2):
            status, said, complained = self.at.run("install", "my home/bin")
            self.assertEqual((status, all(map(os.path.exists, links))), (0, True), complained)
        self.assertIn("PATH doesn't name", complained)
        self.assertIn("out/program/mz_main-", said)
        self.assertEqual(len(self.at.builds()), 1)
        self.assertEqual(self.at.run("show", "x", script=links[0])[:2], (0, "<show><x>\n"))
        status, said, _ = self.at.run("uninstall", "my home/bin")
        self.assertEqual((status, said.count("is gone"), any(map(os.path.lexists, links))), (0, 3, False))
        self.assertTrue(os.path.exists(os.path.join(self.at.top, "mz.1")))

    def test_install_into_the_home_folder(self):
        self.assertEqual(self.at.run("install", MZ_BUILD="never")[0], 0)
        self.assertTrue(os.path.exists(os.path.join(self.at.room, "home/.local/share/man/man1/mz.1")))
        self.assertEqual(self.at.builds(), [])

    def test_install_and_uninstall_leave_other_files_alone(self):
        other = self.at.write("my bin/mz", "another")
        for verb, wanted in (("install", 1), ("uninstall", 0)):
            self.assertEqual(self.at.run(verb, "my bin")[0], wanted)
            self.assertEqual(self.at.run(verb, "no folder")[0], 2)
            self.assertEqual(self.at.run(verb, "my bin", "x")[0], 2)
        with open(other, encoding="utf-8") as file:
            self.assertEqual(file.read(), "another")
        self.assertEqual(os.listdir(os.path.join(self.at.room, "my bin")), ["mz"])

    def test_names_with_blanks_and_dashes(self):
        for explains in ("0", "1"):
            self.assertEqual(self.at.run("verify", "a b", "--c d", MZ_EXPLAIN=explains)[1], "<verify><a b><--c d>\n")

    def test_input_from_a_pipe(self):
        self.at.run("build")
        for explains in ("0", "1"):
            how = {"env": {**self.at.environment, "MZ_EXPLAIN": explains}, "stdout": subprocess.PIPE, "cwd": self.at.room, "check": False}
            ran = subprocess.run([os.path.join(self.at.top, "mz"), "show", "/dev/stdin"], input=b"something", **how)
            self.assertEqual((ran.returncode, ran.stdout), (0, b"<show></dev/stdin>\n"))
            ran = subprocess.run([os.path.join(self.at.top, "mz"), "compile", "/dev/stdin", "b"], input=b"something", **how)
            self.assertEqual((ran.returncode, ran.stdout), (0, b"<compile></dev/stdin><b>\n"))

    # what is said

    def test_status_and_lines_are_the_programs(self):
        line = "refused: match declaration 1 statement 1: M4 modifiers"
        for explains in ({"MZ_EXPLAIN": "0"}, {"MZ_EXPLAIN": "1"}, {}):
            status, said, complained = self.at.run("verify", "a", "b", FAKE_STATUS="1", FAKE_LINE=line, **explains)
            self.assertEqual((status, said), (1, f"{line}\n"))
            self.assertEqual("Two sorts have other modifiers" in complained, explains != {"MZ_EXPLAIN": "0"})

    def test_each_status_is_the_programs(self):
        for explains in ("0", "1"):
            for status in range(8):
                found, said, _ = self.at.run("verify", "a", "b", MZ_EXPLAIN=explains, FAKE_STATUS=str(status))
                self.assertEqual((found, said), (status, "<verify><a><b>\n"))

    def test_faults_are_explained(self):
        _, _, complained = self.at.run("verify", "no such file", "b", FAKE_STATUS="3")
        self.assertIn("mz: no such file: no such file", complained)
        _, _, complained = self.at.run("compile", "a", "no folder/b", FAKE_STATUS="5")
        self.assertIn("there is no directory no folder", complained)

    def test_long_work_is_told_on_a_terminal_alone(self):
        slow = self.at.write("slow", "#!/bin/sh\nsleep 4\n", 0o755)
        ours, theirs = pty.openpty()
        how = {"cwd": self.at.room, "env": {**self.at.environment, "MZ_PROGRAM": slow}, "stdin": subprocess.DEVNULL, "stderr": theirs}
        self.assertEqual(subprocess.run([os.path.join(self.at.top, "mz"), "compile", "a", "b"], check=False, **how).returncode, 0)
        self.assertRegex(os.read(ours, 1000), rb"^mz: compile of \d+ KB goes on \.\.\r\n$")
        os.close(ours)
        os.close(theirs)
        self.assertEqual(self.at.run("compile", "a", "b", MZ_PROGRAM=slow), (0, "", ""))

    def test_what_is_read_is_not_written_over(self):
        text = self.at.write("text", "(sort s)")
        for words in (("compile", text, "./text"), ("compile_draft", text, text), ("spec", text, text), ("assemble", text, text),
                      ("decompile", text, "b", text), ("decompile", "spec", text, text)):
            status, said, complained = self.at.run(*words)
            self.assertEqual((status, said), (2, ""), words)
            self.assertIn("is read and written", complained)
            status, said, _ = self.at.run(words[0], "--force", *words[1:])
            self.assertEqual((status, said), (0, "".join(f"<{it}>" for it in words) + "\n"))
        self.assertEqual(self.at.run("compile", text, "other")[0], 0)

    def test_check(self):
        for status, line, wanted in (
            ("1", "refused: match declaration 1 statement 1: M1 missing public", 0),
            ("0", "accepted: ..", 0),
            ("1", "refused: specification statement 1 at byte 0: S3 statement", 1),
        ):
            found, said, _ = self.at.run("check", "a spec", FAKE_STATUS=status, FAKE_LINE=line)
            self.assertEqual(found, wanted, line)
            self.assertEqual("right: a spec is a specification" in said, wanted == 0)
        self.assertEqual(self.at.builds(), [["mz_base", "mz_verifier"]])


if __name__ == "__main__":
    unittest.main()
