"""What is left of a build, by what the proof of each crate once cost: costs.txt, which `scripts/costs --record` makes."""
import heapq
import os

COSTS = os.path.join(os.path.dirname(os.path.abspath(__file__)), "costs.txt")
HEAD = "# Of each crate the processor seconds of its proof, read off a gate's run by scripts/costs --watch and kept by scripts/costs --record.\n"
SECONDS_A_LINE = 0.06  # of a crate that isn't recorded, beside some seconds to begin


def recorded(path=COSTS):
    """The seconds of each crate's proof."""
    if not os.path.exists(path):
        return {}
    with open(path, encoding="utf-8") as file:
        rows = [it.split() for it in file if not it.startswith("#")]
    return {it[0]: int(it[1]) for it in rows if len(it) == 2}


def keep(seconds, crates, path=COSTS):
    """Records the seconds of these proofs, beside those of the other crates that there are."""
    whole = {**recorded(path), **{crate: round(it) for crate, it in seconds.items()}}
    with open(path, "w", encoding="utf-8") as file:
        file.write(HEAD + "".join(f"{crate} {whole[crate]}\n" for crate in sorted(crates) if crate in whole))


class Plan:
    """The order in which crates can be proved, some side by side, and when each would be done."""

    def __init__(self, below, costs, lanes):
        self.costs, self.length = costs, 0.0
        self.done = []  # when a crate is done, and what it cost
        behind = self.chains(below)
        waiting = {name: set(below[name]) for name in below}
        ready = [(-behind[name], name) for name in below if not waiting[name]]
        heapq.heapify(ready)
        running, now = [], 0.0
        while ready or running:
            while ready and len(running) < lanes:
                name = heapq.heappop(ready)[1]
                heapq.heappush(running, (now + costs[name], name))
            now, name = heapq.heappop(running)
            self.done.append((now, costs[name]))
            for other, left in waiting.items():
                if name in left:
                    left.remove(name)
                    if not left:
                        heapq.heappush(ready, (-behind[other], other))
        self.length = now

    def chains(self, below):
        """How long the longest chain is that begins with each crate; crates stand behind what they stand on."""
        behind = dict(self.costs)
        for name in reversed(list(below)):
            for it in below[name]:
                behind[it] = max(behind[it], behind[name] + self.costs[it])
        return behind

    def time_at(self, cost):
        """When so much would be done."""
        for time, one in self.done:
            cost -= one
            if cost < 0.5:
                return time
        return self.length


class Estimate:
    """What is left, by the plan and by how fast this machine has been so far."""

    TRUST = 60.0  # so many seconds of the plan count as much as what was seen

    def __init__(self, below, costs, lanes):
        self.below, self.costs, self.lanes = below, dict(costs), lanes
        self.spent = 0.0
        self.plan = Plan(below, self.costs, lanes)

    def is_kept(self, crate):
        """An earlier run has proved it: it costs nothing."""
        self.costs[crate] = 0.0
        self.plan = Plan(self.below, self.costs, self.lanes)

    def is_proved(self, crate):
        self.spent += self.costs[crate]

    def left(self, seconds):
        """How many seconds are left, after so many."""
        planned = self.plan.time_at(self.spent) if self.spent else 0.0
        speed = (seconds + self.TRUST) / (planned + self.TRUST) if planned else 1.0
        return max(self.plan.length * speed - seconds, 0.0)


def costs_of(names, lines):
    """The costs of these crates; `lines` says how long one is that isn't recorded."""
    known = recorded()
    return {it: float(known[it]) if it in known else 5 + SECONDS_A_LINE * lines(it) for it in names}
