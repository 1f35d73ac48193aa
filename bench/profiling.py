"""Which functions a program's instructions are in; bench/measure PROGRAM WORK profile [SHAPE or COMMAND ..]."""
import collections
import os
import re
import subprocess
import sys

MOST, LEAST = 5, 0.005  # functions of a row, and the share from which they are named
PARTS, WIDE, SMALL = 7, 0.5, 0.03  # parts of a row; the share from which a part is taken apart, and that from which it is named
USAGE = 2  # the exit number where the arguments are no command
ALLOCATOR = "allocator"
ALLOCATING = re.compile(r"_*(int_)?(malloc|free|realloc|calloc|memalign)$|(unlink_chunk|malloc_consolidate|sysmalloc|systrim|alloc_perturb)$|rattle_(alloc|realloc|dealloc)$")
COPYING = re.compile(r"_*(memcpy|memmove|memset|memcmp|bcmp)(_|$)")


def readable(name):
    """crate::module::function, without what it is made for; what allocates and copies in the C library in one word each."""
    plain = re.sub(r"'\d+$", "", name)  # callgrind's sign of a function within itself
    plain = re.split(r"::<|\.(?:constprop|isra|part|cold|llvm)\b", plain)[0]
    if ALLOCATING.match(plain):
        return ALLOCATOR
    copying = COPYING.match(plain)
    if copying:
        return copying[1].replace("memmove", "memcpy")
    return re.sub(r"^.*?(\w+(?:\+\+\w+)+)\+\w+(?=::\w+$)", lambda it: it[1].replace("++", "::"), plain)  # a trait's, for a type


class Costs:
    """What callgrind counted: of each function alone, and of each call of one by another with all that the call does."""

    def __init__(self, path):
        self.alone, self.calls = collections.Counter(), collections.defaultdict(collections.Counter)
        names, inside, callee, is_call = {}, None, None, False
        with open(path, errors="replace") as file:
            for line in file:
                named = re.match(r"(c?fn)=\((\d+)\)(?: (.*))?", line)
                if named:
                    if named[3]:
                        names[named[2]] = readable(named[3])
                    if named[1] == "fn":
                        inside = names[named[2]]
                    else:
                        callee = names[named[2]]
                elif line.startswith("calls="):
                    is_call = True  # the next line is what the call took
                elif re.match(r"[+*\d-]", line) and inside:
                    count = int(line.split()[-1])
                    if not is_call:
                        self.alone[inside] += count
                    elif callee != inside:
                        self.calls[inside][callee] += count
                    is_call = False
        self.whole = sum(self.alone.values())

    def callers(self, function):
        """What each caller's calls of a function take."""
        return collections.Counter({caller: callees[function] for caller, callees in self.calls.items() if callees[function]})

    def parts(self, begin):
        """What the whole is made of, below the function `begin`: those that take much are taken apart, into what they call."""
        found, done = collections.Counter({begin: self.whole}), set()
        while True:
            wide = [name for name, count in found.items() if count >= WIDE * self.whole and name not in done and self.calls[name]]
            if not wide:
                return found
            name = max(wide, key=found.get)
            done.add(name)
            inclusive = self.alone[name] + sum(self.calls[name].values())
            if self.alone[name] > inclusive / 2:
                continue
            share = found.pop(name) / inclusive
            for callee, count in self.calls[name].items():
                found[callee] += count * share
            found[name] += self.alone[name] * share


def profiled(words, path):
    """The costs of one run; None where the program doesn't have the command."""
    counted = ["valgrind", "--tool=callgrind", "--callgrind-out-file=" + path, *words]
    ran = subprocess.run(counted, stdout=subprocess.DEVNULL, stderr=subprocess.DEVNULL, check=False)
    return None if ran.returncode == USAGE else Costs(path)


def shares(found, whole, most, least):
    return ", ".join("`%s` %.0f %%" % (name, 100 * count / whole) for name, count in found.most_common(most) if count >= least * whole)


def begin_of(costs):
    """The program's own outermost function."""
    mains = [name for name in costs.alone if re.match(r"mz_\w+::main\b", name)]
    return mains[0] if mains else None


def measured(runs, work):
    """The costs of runs: a name, a size and the program's arguments; without those for which the program has no command."""
    for name, n, words in runs:
        costs = profiled(words, os.path.join(work, "%s.%d.callgrind" % (name, n)))
        print(name, n, costs and costs.whole, file=sys.stderr, flush=True)
        if costs:
            yield name, n, costs


def table(found):
    """Of each run the functions with most instructions of their own."""
    yield "| Shape | N | Instructions, millions | The %d functions with most of them, and their shares |" % MOST
    yield "|---|---|---|---|"
    for name, n, costs in found:
        yield "| %s | %d | %.1f | %s |" % (name, n, costs.whole / 1e6, shares(costs.alone, costs.whole, MOST, LEAST))


def table_of_parts(found):
    """Of each run also its parts, and from where memory is asked for and given back."""
    titles = ("Command and files", "N", "Instructions, millions", "Functions alone", "Parts, each with what it calls", "The allocator, by its callers")
    yield "| %s |" % " | ".join(titles)
    yield "|%s" % ("---|" * len(titles))
    for name, n, costs in found:
        begin = begin_of(costs)
        parts = shares(costs.parts(begin), costs.whole, PARTS, SMALL) if begin else "-"
        columns = (shares(costs.alone, costs.whole, MOST, LEAST), parts, shares(costs.callers(ALLOCATOR), costs.whole, MOST, LEAST))
        yield "| %s | %d | %.1f | %s | %s | %s |" % (name, n, costs.whole / 1e6, *columns)
