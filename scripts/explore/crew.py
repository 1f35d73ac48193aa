"""Prints pages in several processes: each is a copy of this one, which prints a batch, and gives back what was found."""
import os
import pickle
import sys
import tempfile

from prove.progress import Progress


class Crew:
    """Runs batches, at most so many at once; what they give back is taken in the order in which they were handed over. With
    one process, or where there are no copies of processes, all is done here."""

    def __init__(self, processes, take, total=0):
        self.processes = processes if hasattr(os, "fork") else 1
        self.take, self.running, self.progress = take, [], Progress(total, "axioms and theorems")

    def hand_over(self, batch, work):
        """Has a batch worked on: `work` gives something that can be pickled."""
        if self.processes == 1:
            self._taken(work(batch), len(batch))
            return
        if len(self.running) >= self.processes:
            self._wait()
        result, path = tempfile.mkstemp(prefix="mz-explore-")
        os.close(result)
        sys.stdout.flush()
        child = os.fork()
        if child == 0:
            os._exit(worked(work, batch, path))
        self.running.append((child, path, len(batch)))

    def finish(self):
        while self.running:
            self._wait()
        self.progress.finish()

    def _wait(self):
        child, path, count = self.running.pop(0)
        try:
            os.waitpid(child, 0)
            with open(path, "rb") as file:
                result = file.read()
        finally:
            os.unlink(path)
        if not result:
            raise AssertionError("a process that prints pages has ended early")
        made = pickle.loads(result)
        if isinstance(made, Exception):
            raise made
        self._taken(made, count)

    def _taken(self, made, count):
        self.take(made)
        self.progress.step(count)


def worked(work, batch, path):
    """The exit status of a process that works on a batch; what it found, or why it couldn't, stands in a file."""
    try:
        try:
            made = work(batch)
        except Exception as why:
            made = AssertionError(str(why))
        with open(path, "wb") as file:
            pickle.dump(made, file)
        return 0
    except BaseException:
        return 1
