"""Tries what bench/ makes of callgrind's files, of chains of callers and of the page's tables."""
import contextlib
import io
import os
import shutil
import subprocess
import sys
import tempfile
import unittest

TOP = os.path.dirname(os.path.dirname(os.path.dirname(os.path.abspath(__file__))))
sys.path.insert(0, os.path.join(TOP, "bench"))
import aims  # noqa: E402
import heap  # noqa: E402
from hostile import measuring  # noqa: E402
import pages  # noqa: E402
import profiling  # noqa: E402
import running  # noqa: E402

# main (10 alone) calls read (30 alone, and 20 of malloc) and judge (40 alone, and itself once).
CALLGRIND = """fn=(1) mz_a::main+start
1 10
cfn=(2) mz_a::read::<#12>
calls=1 5
1 50
cfn=(3) mz_a::judge
calls=1 9
2 40

fn=(2)
5 30
cfn=(4) _int_malloc
calls=2 1
6 20

fn=(4)
1 20

fn=(3)
9 25
cfn=(3)
calls=1 9
+1 15
9 15
"""
# Keeps two blocks of 1,000 bytes and one that grows to 2,000, after one that it gives back.
KEEPER = """#include <stdlib.h>
void *asked(size_t n) { void *it = malloc(n); return it; }
void *kept(void) { void *it = asked(1000); return it; }
int main(void) { free(asked(1500)); void *a = kept(), *b = kept(), *c = realloc(kept(), 2000); free(a); return !b + !c; }
"""
PAGE = "before\n<!-- bench/measure some: begin -->\n| A | B |\n|---|---|\n| x | 1 |\n| y | 2 |\n<!-- bench/measure some: end -->\nbehind\n"


class Profiles(unittest.TestCase):
    def setUp(self):
        with tempfile.NamedTemporaryFile("w") as file:
            file.write(CALLGRIND)
            file.flush()
            self.costs = profiling.Costs(file.name)

    def test_alone(self):
        self.assertEqual(self.costs.alone, {"mz_a::main+start": 10, "mz_a::read": 30, "allocator": 20, "mz_a::judge": 40})
        self.assertEqual(self.costs.whole, 100)

    def test_parts(self):
        parts = self.costs.parts("mz_a::main+start")
        self.assertEqual({name: round(count) for name, count in parts.items()}, {"mz_a::main+start": 10, "mz_a::read": 50, "mz_a::judge": 40})

    def test_names(self):
        self.assertEqual(profiling.readable("std_alloc::vec::Vec::grow_amortized::<#0c>"), "std_alloc::vec::Vec::grow_amortized")
        self.assertEqual(profiling.readable("__memmove_avx_unaligned_erms"), "memcpy")
        self.assertEqual(profiling.readable("rattle_realloc"), "allocator")


class Heaps(unittest.TestCase):
    def test_who_asked(self):
        chains = {
            ("allocator", "std_alloc::vec::Vec::grow_amortized", "mz_a::env::Env::push_decl", "mz_a::main"): "`mz_a::env::Env::push_decl`",
            ("allocator", "mz_a::expr::Exprs::push", "mz_b::formula", "mz_a::main"): "`mz_b::formula` (Exprs)",
            ("allocator",): "the C library",
            (): "the C library",
        }
        for chain, who in chains.items():
            self.assertEqual(heap.named(chain), who)

    @unittest.skipUnless(shutil.which("cc"), "there is no C compiler")
    def test_of_a_program(self):
        with tempfile.TemporaryDirectory() as room:
            running.build(room, "heap.so")
            with open(os.path.join(room, "keeper.c"), "w") as file:
                file.write(KEEPER)
            program = os.path.join(room, "keeper")
            subprocess.run(["cc", "-O0", "-o", program, program + ".c"], check=True)
            whole, asked = heap.measured(room, [program])
        self.assertEqual((whole, asked), (4032, {"`asked`": 2016, "`main`": 2016}))


class Tables(unittest.TestCase):
    def put(self, table, name="some"):
        with tempfile.NamedTemporaryFile("w+") as file:
            file.write(PAGE)
            file.flush()
            with contextlib.redirect_stdout(io.StringIO()):
                pages.put(name, table, path=file.name)
            file.seek(0)
            before, lines, behind = pages.parted(file.read(), "some")
        self.assertTrue(before.startswith("before\n") and behind.endswith("behind\n"))
        return lines

    def test_rows_of_the_page(self):
        self.assertEqual(self.put(["| A | B |", "|---|---|", "| y | 3 |", "| z | 4 |"]), ["| A | B |", "|---|---|", "| x | 1 |", "| y | 3 |"])

    def test_other_columns(self):
        self.assertEqual(self.put(["| A | C |", "|---|---|", "| y | 3 |"]), ["| A | C |", "|---|---|", "| y | 3 |"])

    def test_a_table_that_the_page_does_not_have(self):
        self.assertEqual(self.put(["| A | B |", "|---|---|", "| y | 3 |"], name="other"), ["| A | B |", "|---|---|", "| x | 1 |", "| y | 2 |"])


class Rows(unittest.TestCase):
    def test_beside_c(self):
        row = aims.line("mixed", 2000000, (0.5, 30000000, 9000000), (0.1, 10000000, 3000000))
        self.assertEqual(row, "| mixed | 103000 | 2000000 | 0.50 | 0.10 | 30 | 10 | 3.0 | 9 | 3 |")


class Growth(unittest.TestCase):
    def test_exponent(self):
        rows = [{"bytes": 10, "count": 7}, {"bytes": 20, "count": 28}]
        self.assertAlmostEqual(running.growth(rows, "count"), 2)
        self.assertIsNone(running.growth(rows[:1], "count"))

    def test_hostile(self):
        cell = lambda read, seconds, counted: {"bytes": read, "status": 0, "seconds": seconds, "memory": 0, "instructions": counted}
        row = {"shape": "distinct", "cells": [cell(10, 0.1, 700), cell(20, 0.4, 1400)]}
        self.assertAlmostEqual(measuring.exponent(row, "seconds"), 2)
        self.assertAlmostEqual(measuring.growth(row), 1)
        row["cells"][1]["instructions"] = None
        self.assertAlmostEqual(measuring.growth(row), 2)
        self.assertTrue(measuring.is_more(row))

    def test_sizes(self):
        self.assertEqual(list(running.sizes(250, 1000)), [250, 500, 1000])


if __name__ == "__main__":
    unittest.main()
