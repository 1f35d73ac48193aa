"""without LIST OUT N: a listing without its line N."""
import sys

lines = open(sys.argv[1]).readlines()
open(sys.argv[2], "w").writelines(it for i, it in enumerate(lines, 1) if i != int(sys.argv[3]))
