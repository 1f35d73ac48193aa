"""Makes files that try to cost more than their size; python3 bench/hostile."""
import os
import sys

sys.dont_write_bytecode = True
sys.path.insert(0, os.path.dirname(os.path.dirname(os.path.abspath(__file__))))
from hostile.command import main  # noqa: E402

sys.exit(main(sys.argv[1:]))
