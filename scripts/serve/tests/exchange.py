"""Plays recorded exchanges with the server, and records them.

    python3 scripts/serve/tests/exchange.py            records all anew, from the client's messages in them
    python3 scripts/serve/tests/exchange.py --check    plays all, and says where an answer is another one

An exchange is a file of messages: "> " and one of the client, "< " and one that the server has to give then. A long one goes
on in lines that begin with two spaces, each of which stands for the space at which the line before it was cut. ROOM stands
for the address of a folder in which the files of monoid/ lie. An exchange whose name begins with judged needs the program;
others are played with none. Of what diagnostics say the first line is compared: more is said where scripts/explain is there.
"""
import json
import os
import queue
import shutil
import subprocess
import sys
import tempfile
import threading

WIDTH = 150
HERE = os.path.dirname(os.path.abspath(__file__))
SERVE = os.path.dirname(HERE)
sys.dont_write_bytecode = True
sys.path.insert(0, os.path.dirname(SERVE))

from serve.protocol import Channel  # noqa: E402


def exchanges():
    folder = os.path.join(HERE, "exchanges")
    return [os.path.join(folder, it) for it in sorted(os.listdir(folder))]


def needs_program(path):
    return os.path.basename(path).startswith("judged")


def turns(path):
    """Each message of the client, with what has to come from the server before the next."""
    messages = []
    with open(path, encoding="utf-8") as file:
        for line in file:
            if line.startswith("  "):
                messages[-1][1] += " " + line[2:].rstrip("\n")
            else:
                messages.append([line[0], line[2:].rstrip("\n")])
    made = []
    for mark, text in messages:
        if mark == ">":
            made.append((json.loads(text), []))
        else:
            made[-1][1].append(json.loads(text))
    return made


def lines(mark, message):
    """A message as lines of an exchange."""
    rest, made = json.dumps(message, ensure_ascii=False), []
    while rest:
        cut = rest.rfind(" ", 1, WIDTH) if len(rest) > WIDTH else len(rest)
        made.append(("  " if made else mark + " ") + rest[:cut])
        rest = rest[cut + 1 :]
    return made


class Player:
    """A server over a folder of its own, to which messages are said."""

    def __init__(self, room, path):
        shutil.copytree(os.path.join(HERE, "monoid"), os.path.join(room, "monoid"))
        self.room = "file://" + room
        variables = os.environ if needs_program(path) else {**os.environ, "MZ": os.path.join(room, "none")}
        self.process = subprocess.Popen([sys.executable, SERVE], stdin=subprocess.PIPE, stdout=subprocess.PIPE, env=variables)
        self.channel, self.said = Channel(self.process.stdout, self.process.stdin), queue.Queue()
        threading.Thread(target=self._listen, daemon=True).start()

    def _listen(self):
        message = True
        while message is not None:
            message = self.channel.read()
            self.said.put(message)

    def say(self, message):
        self.channel.write(json.loads(json.dumps(message).replace("ROOM", self.room)))

    def heard(self, wait):
        """The next message of the server, or nothing where none comes for so many seconds."""
        try:
            message = self.said.get(timeout=wait)
        except queue.Empty:
            return None
        if message is None:
            return None
        message.pop("jsonrpc")
        message = json.loads(json.dumps(message, ensure_ascii=False).replace(self.room, "ROOM"))
        for it in message.get("params", {}).get("diagnostics", ()):
            it["message"] = it["message"].split("\n")[0]
        return message

    def close(self):
        self.process.stdin.close()
        status, rest = self.process.wait(timeout=60), self.heard(5)
        self.process.stdout.close()
        return status, rest


def played(path):
    """What differs, as lines."""
    different = []
    with tempfile.TemporaryDirectory() as room:
        player = Player(room, path)
        for message, wanted in turns(path):
            player.say(message)
            said = [player.heard(60) for _ in wanted]
            if said != wanted:
                different.append(f"{message}\n  wanted {wanted}\n  came   {said}")
        status, rest = player.close()
        if (status, rest) != (0, None):
            different.append(f"the server ended with {status} and said {rest}")
    return different


def record(path):
    made = []
    with tempfile.TemporaryDirectory() as room:
        player = Player(room, path)
        for message, _ in turns(path):
            player.say(message)
            made += lines(">", message)
            said = player.heard(3)
            while said is not None:
                made += lines("<", said)
                said = player.heard(0.5)
        player.close()
    with open(path, "w", encoding="utf-8") as file:
        file.write("\n".join(made) + "\n")


if __name__ == "__main__":
    if sys.argv[1:] == ["--check"]:
        found = [it for path in exchanges() for it in played(path)]
        print(*found, f"{len(exchanges())} exchanges, {len(found)} differences", sep="\n")
        sys.exit(bool(found))
    for it in exchanges():
        record(it)
