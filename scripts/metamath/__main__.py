"""Metamath databases: ./mz import, ./mz export, ./mz same."""
import os
import sys

sys.dont_write_bytecode = True
sys.path.insert(0, os.path.dirname(os.path.dirname(os.path.abspath(__file__))))

from metamath.command import on_deep_stack  # noqa: E402

if __name__ == "__main__":
    try:
        sys.exit(on_deep_stack(sys.argv[1:]))
    except KeyboardInterrupt:
        sys.exit(130)
    except RuntimeError:
        sys.exit("mz: no memory was left for a stack")
