"""Runs the tests of ./mz prove: python3 scripts/prove/tests. They don't need the program."""
import os
import sys
import unittest

sys.dont_write_bytecode = True
HERE = os.path.dirname(os.path.abspath(__file__))
sys.path.insert(0, os.path.dirname(os.path.dirname(HERE)))
sys.setrecursionlimit(20000)
suite = unittest.defaultTestLoader.discover(HERE, top_level_dir=os.path.dirname(os.path.dirname(HERE)))
sys.exit(not unittest.TextTestRunner().run(suite).wasSuccessful())
