"""Says how far a build is, by the lines that `rt ci` prints."""
import re
import sys
import time

PROVED = re.compile(r"rt: (\w+) proved$")
KEPT = re.compile(r"rt: (\w+) is kept: ")
WAITS = re.compile(r"rt: (\w+): another run on this machine is proving the same")
FAILED = re.compile(r"rt: (\w+) NOT PROVED")
FUNCTIONS = re.compile(r"logic=proved.* functions=(\d+)")


def clock(seconds):
    """Hours, minutes and seconds, as 1:02:03 or 12:34."""
    seconds = int(seconds)
    hours, rest = divmod(seconds, 3600)
    return f"{hours}:{rest // 60:02d}:{rest % 60:02d}" if hours else f"{rest // 60}:{rest % 60:02d}"


def about(seconds):
    """So long, in words."""
    minutes = round(seconds / 60)
    return "less than a minute" if minutes < 1 else "about a minute" if minutes == 1 else f"about {minutes} minutes"


def say(text):
    print(f"mz: {text}", file=sys.stderr, flush=True)


class Progress:
    """How many of the crates are proved. `subject` says what a crate is, `estimate` what is left."""

    def __init__(self, names, subject, estimate, now=time.monotonic):
        self.names, self.subject, self.estimate, self.now = names, subject, estimate, now
        self.began, self.done, self.kept, self.functions = now(), 0, 0, ""

    def seconds(self):
        return self.now() - self.began

    def line(self, line):
        """Takes one line of what is printed."""
        functions = FUNCTIONS.match(line)
        found = PROVED.match(line) or KEPT.match(line)
        if functions:
            self.functions = functions[1]
        elif found and found[1] in self.names:
            self.crate(found[1], KEPT.match(line))
        elif WAITS.match(line):
            say(f"another run on this machine is proving {WAITS.match(line)[1]}; waiting for it")
        elif FAILED.match(line):
            say(f"{FAILED.match(line)[1]} is not proved")

    def crate(self, name, is_kept):
        self.done += 1
        if is_kept:
            self.kept += 1
            self.estimate.is_kept(name)
            how = "kept from an earlier run"
        else:
            self.estimate.is_proved(name)
            how = f"{self.functions} functions proved" if self.functions not in ("", "0") else "proved"
        self.functions = ""
        left = f"; {about(self.estimate.left(self.seconds()))} left" if self.done < len(self.names) else ""
        say(f"{self.done:2d} of {len(self.names)}, {clock(self.seconds()):>5}  {name}: {self.subject(name)} ({how}){left}")
