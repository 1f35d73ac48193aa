"""Proves what proof sources say; ./mz prove."""
import os
import sys

sys.dont_write_bytecode = True
sys.path.insert(0, os.path.dirname(os.path.dirname(os.path.abspath(__file__))))
import running  # noqa: E402
from prove.command import main  # noqa: E402

running.whole(lambda: main(sys.argv[1:]))
