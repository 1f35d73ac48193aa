"""cited LIST: how often each axiom and theorem is cited, and by how many others, in a listing."""
import sys
from collections import Counter

times, by, here = Counter(), Counter(), None
for line in open(sys.argv[1]):
    words = line.split()
    if not line.startswith(" "):
        here, seen = words[-2:-1], set()
    elif words[:2] in (["p", "thm"], ["p", "thm_save"]):
        times[words[2]] += 1
        by[words[2]] += words[2] not in seen
        seen.add(words[2])
for row, count in times.most_common(3):
    print(f"theorem {row}: {count} times, in {by[row]} proofs")
