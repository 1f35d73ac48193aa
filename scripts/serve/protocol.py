"""Messages of the language server protocol: JSON with a head that has its length."""
import json
import threading


class Unreadable(ValueError):
    """What came is no message. What follows may be one."""


class Channel:
    """Reads messages from one stream, and writes them to another."""

    def __init__(self, source, target):
        self._source, self._target = source, target
        self._lock = threading.Lock()

    def read(self):
        """The next message, or nothing at the end; raises Unreadable where what comes is none."""
        head = self._head()
        if head is None:
            return None
        length = next((value.strip() for name, _, value in head if name.strip().lower() == b"content-length"), None)
        if length is None or not length.isdigit():
            raise Unreadable("the head has no Content-Length")
        try:
            message = json.loads(self._source.read(int(length)))
        except (ValueError, RecursionError) as why:
            raise Unreadable(f"this is no JSON: {why}") from None
        if message is None:
            raise Unreadable("null is no message")
        return message

    def _head(self):
        """The lines of the next head, cut at their colons; nothing at the end."""
        lines = []
        while True:
            line = self._source.readline()
            if not line and not lines:
                return None
            if not line.strip() and (lines or not line):
                return [it.partition(b":") for it in lines]
            if line.strip():
                lines.append(line)

    def write(self, message):
        text = json.dumps({"jsonrpc": "2.0", **message}, ensure_ascii=False).encode("utf-8", "surrogatepass")
        with self._lock:
            self._target.write(b"Content-Length: %d\r\n\r\n%s" % (len(text), text))
            self._target.flush()
