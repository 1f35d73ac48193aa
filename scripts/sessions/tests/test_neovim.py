"""The files for Neovim, in Neovim: what is expected follows from the texts by hand. Skipped where Neovim isn't there."""
import os
import shutil
import sys
import tempfile
import unittest

sys.dont_write_bytecode = True
HERE = os.path.dirname(os.path.abspath(__file__))
sys.path.insert(0, os.path.dirname(os.path.dirname(HERE)))

from prove.tests.support import MONOID  # noqa: E402
from sessions.playing import played, sessions  # noqa: E402

SPEC = MONOID + "theorem left (a b c: elt): $ a = b $ > $ a * c = b * c $;\ntheorem later (a: elt): $ a = a $;\n"
SOURCE = "theorem left =\n  have k: $ c = c $ = eq_refl;\n  mul_eq(sorry, k);\ntheorem later = eq_refl;\n"


@unittest.skipUnless(shutil.which("nvim"), "there is no Neovim")
class Neovim(unittest.TestCase):
    def setUp(self):
        self.room = tempfile.TemporaryDirectory()
        self.addCleanup(self.room.cleanup)

    def seen(self, *keys, source=SOURCE, options=()):
        """What is seen, without the keys; the source is open."""
        for name, text in (("a.mm0", SPEC), ("a.proofs", source)):
            with open(os.path.join(self.room.name, name), "w", encoding="ascii") as file:
                file.write(text)
        made = played([":edit a.proofs<CR>", *keys], self.room.name, *options)
        start = max(i for i, it in enumerate(made) if it == f"> {keys[0]}") if keys else 0
        return [it.strip() for it in made[start:] if not it.startswith(">")]

    def told(self, expression, **given):
        """What Neovim says of an expression."""
        return [it for it in self.seen(f":echomsg {expression}<CR>", **given) if it.startswith(":")]


class Shown(Neovim):
    def test_lenses_stand_behind_the_lines(self):
        self.assertEqual([it for it in self.seen() if "«" in it],
                         ["2   have k: $ c = c $ = eq_refl;    « k: c = c »", "3   mul_eq(sorry, k);    « ⊢ a = b »"])

    def test_kinds_of_files_and_colours(self):
        self.assertEqual(self.told("&filetype &commentstring synIDattr(synID(1, 1, 1), 'name')"), [": mm0 -- %s mm0Statement"])

    def test_the_goal_follows_the_cursor_until_its_window_is_closed(self):
        seen = self.seen(":MzGoal<CR>", "3Gfs", "gg", "<C-w>j:close<CR>", "3Gfs")
        self.assertEqual([it for it in seen if "goal" in it], ["|   goal       a * c = b * c", "|   goal       a = b", "|   goal       a * c = b * c"])
        self.assertNotIn("!", "".join(it[:1] for it in seen))

    def test_where_no_proof_is(self):
        self.assertEqual(self.seen(":MzGoal<CR>", source="-- nothing\n")[-1], "| There is no proof here.")

    def test_an_error_at_its_place(self):
        found = self.seen("3Gfsciwq<Esc>")
        self.assertIn("3 error at column 10: in left: there is no hypothesis, theorem or axiom q", found)

    def test_hover_and_the_way_to_the_declaration(self):
        self.assertIn("| axiom mul_eq (a b c d: elt): $ a = b $ > $ c = d $ > $ a * c = b * d $;", self.seen("3GfmK"))
        line = SPEC[: SPEC.index("axiom mul_eq")].count("\n") + 1
        self.assertIn(f": a.mm0 {line}", self.seen("3Gfm<C-]>", ":echomsg expand('%:t') line('.')<CR>"))


class Written(Neovim):
    def test_completion_offers_the_best_first(self):
        items = [it for it in self.seen("3Gfscw<C-x><C-o>") if it.startswith("+")]
        self.assertEqual(items[0], "+ h  nothing is left to prove")

    def test_a_proof_is_looked_for_and_written(self):
        seen = self.seen("3Gfs:MzFill<CR>", "1")
        self.assertEqual(seen[:2], [": 1: Look for a proof (depth 2)", ": 2: Look for a proof (depth 3)"])
        self.assertIn("3   mul_eq(h, k);", seen)

    def test_a_theorem_that_is_left_out_is_written_at_the_end(self):
        self.assertIn("4 theorem later = eq_refl;", self.seen("G:MzFill<CR>", "1", source=SOURCE[: SOURCE.index("theorem later")]))

    def test_what_make_says_leads_to_its_place(self):
        seen = self.seen(":compiler mz | silent make<CR>", ":echomsg getqflist()[0].lnum getqflist()[0].col getqflist()[0].text<CR>")
        self.assertTrue(any(it.startswith(": 3 10 left has a gap here") for it in seen), seen)


class Settings(Neovim):
    def test_without_the_server(self):
        given = {"options": ("--cmd", "let g:mz_no_server = 1")}
        self.assertEqual(self.told("luaeval('#vim.lsp.get_active_clients()') exists(':MzGoal')", **given), [": 0 0"])

    def test_the_program_that_is_named(self):
        given = {"options": ("--cmd", "let g:mz = '/nowhere/mz' | let g:mz_no_server = 1")}
        seen = self.seen(":compiler mz<CR>", ":echomsg &makeprg<CR>", **given)
        self.assertIn(": /nowhere/mz prove %", seen)

    def test_a_key_of_ones_own_stays(self):
        self.assertIn("1 xtheorem left =", self.seen("ggK", options=("--cmd", "nnoremap K ix<Esc>")))


class Excerpts(unittest.TestCase):
    def test_what_pages_show_stands_in_the_session(self):
        for path in sessions():
            with open(path, encoding="utf-8") as file:
                lines = file.read().split("\n")
            with open(os.path.join(os.path.dirname(path), "README.md"), encoding="utf-8") as file:
                blocks = [it.strip("\n").split("\n") for it in file.read().split("```")[1::2]]
            shown = [line for block in blocks if block[0].startswith("> ") for line in block]
            self.assertTrue(shown)
            for line in shown:
                self.assertIn(line, lines)


if __name__ == "__main__":
    unittest.main()
