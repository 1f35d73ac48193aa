"""The server: takes what an editor says, and answers."""
import queue
import sys
import threading

from .answers import Answers
from .diagnostics import Diagnostics, NoProgram
from .documents import Document, Workspace
from .protocol import Unreadable

PAUSE = 0.01  # seconds without a message, after which what was changed is judged
NO_METHOD, INVALID, INTERNAL, NO_JSON = -32601, -32600, -32603, -32700
WARNING, INFORMATION = 2, 3  # as the protocol counts kinds of messages
CAPABILITIES = {
    "textDocumentSync": {"openClose": True, "change": 1, "save": True},
    "hoverProvider": True, "definitionProvider": True, "referencesProvider": True, "documentSymbolProvider": True,
    "completionProvider": {"triggerCharacters": ["(", ":", "$", ","], "resolveProvider": True},
    "codeLensProvider": {"resolveProvider": True},
    "codeActionProvider": {"codeActionKinds": ["quickfix"], "resolveProvider": True},
}


class Server:
    def __init__(self, channel):
        self.channel = channel
        self.workspace = Workspace()
        self.answers, self.diagnostics = Answers(self.workspace), Diagnostics(self.workspace)
        self.goals = self.answers.goals
        self.messages, self.changed = queue.Queue(), {}
        self.is_shut = self.has_warned = False
        self._requests = {
            "initialize": self._initialize, "shutdown": self._shutdown,
            "textDocument/hover": lambda it: self.answers.hover(*self._place(it)),
            "textDocument/definition": lambda it: self.answers.definition(*self._place(it)),
            "textDocument/references": self._references,
            "textDocument/documentSymbol": lambda it: self.answers.symbols(self._document(it)),
            "textDocument/completion": lambda it: self.answers.completion(*self._place(it)),
            "completionItem/resolve": self._completed,
            "textDocument/codeLens": lambda it: self.goals.lenses(self._document(it)), "codeLens/resolve": self._lens,
            "textDocument/codeAction": self._actions, "codeAction/resolve": self._acted,
            "mz/goal": lambda it: self.goals.here(*self._place(it)),
        }
        self._notices = {
            "textDocument/didOpen": self._opened, "textDocument/didChange": self._edited,
            "textDocument/didSave": self._saved, "textDocument/didClose": self._closed,
        }

    def run(self):
        """Serves until the editor says exit; the exit status."""
        threading.Thread(target=self._listen, daemon=True).start()
        while True:
            try:
                message = self.messages.get(timeout=PAUSE if self.changed else None)
            except queue.Empty:
                self._guarded(self._judge)
                continue
            if isinstance(message, Unreadable):
                self._refuse({}, NO_JSON, str(message))
            elif message is None or is_message(message) and message.get("method") == "exit":
                return 0 if self.is_shut else 1
            else:
                self._take(message)

    def _listen(self):
        message = True
        while message is not None:
            try:
                message = self.channel.read()
            except Unreadable as why:
                message = why
            except (OSError, ValueError):
                message = None
            self.messages.put(message)

    def _take(self, message):
        if not is_message(message):
            self._refuse(message if isinstance(message, dict) else {}, INVALID, "this is no message of the protocol")
            return
        method, parameters = message.get("method"), message.get("params") or {}
        if "id" not in message:
            self._guarded(self._notices.get(method, lambda _: None), parameters)
            return
        if method is None:
            return  # an answer to the server
        if method not in self._requests or self.is_shut:
            self._refuse(message, INVALID if self.is_shut else NO_METHOD, f"{method} isn't served")
            return
        try:
            self.channel.write({"id": message["id"], "result": self._requests[method](parameters)})
        except KeyError as key:
            self._refuse(message, INVALID, f"no {key}")
        except Exception as fault:  # an editor goes on without this answer
            self._refuse(message, INTERNAL, f"{type(fault).__name__}: {fault}")

    def _refuse(self, message, code, why):
        self.channel.write({"id": message.get("id"), "error": {"code": code, "message": why}})

    def _guarded(self, call, *given):
        """Calls, and says on standard error what goes wrong: the server goes on."""
        try:
            call(*given)
        except Exception as fault:
            print(f"mz serve: {type(fault).__name__}: {fault}", file=sys.stderr, flush=True)

    def _initialize(self, _):
        return {"capabilities": CAPABILITIES, "serverInfo": {"name": "mz"}}

    def _shutdown(self, _):
        self.is_shut = True

    def _document(self, parameters):
        return self.workspace.open[parameters["textDocument"]["uri"]]

    def _place(self, parameters):
        document = self._document(parameters)
        return document, document.offset(parameters["position"])

    def _references(self, parameters):
        return self.answers.references(*self._place(parameters), parameters["context"]["includeDeclaration"])

    def _completed(self, item):
        document = self.workspace.open.get(item.get("data"))
        return {**item, "detail": self.goals.detail(document, item["label"])} if document else item

    def _lens(self, lens):
        document = self.workspace.open[lens["data"]["uri"]]
        return {**lens, "command": {"title": self.goals.lens(document, lens["data"]["at"]), "command": ""}}

    def _actions(self, parameters):
        document, places = self._document(parameters), parameters["range"]
        return self.goals.actions(document, document.offset(places["start"]), document.offset(places["end"]))

    def _acted(self, action):
        """Looks for the proof that an action is to write."""
        it = action["data"]
        edits, said = self.goals.found(self.workspace.open[it["uri"]], it["from"], it["to"], it["depth"])
        if not edits:
            self._show(f"Nothing is found: {said}", WARNING)
            return action
        others = "".join(f"\nor {other['newText'].strip()}" for other in edits[1:])
        self._show(f"Found: {said}{others}", INFORMATION)
        return {**action, "edit": {"changes": {it["uri"]: edits[:1]}}}

    def _show(self, text, how):
        self.channel.write({"method": "window/showMessage", "params": {"type": how, "message": text}})

    def _opened(self, parameters):
        it = parameters["textDocument"]
        self._set(it["uri"], it["text"], it.get("version"))

    def _edited(self, parameters):
        if parameters["contentChanges"]:
            it = parameters["textDocument"]
            self._set(it["uri"], parameters["contentChanges"][-1]["text"], it.get("version"))

    def _set(self, uri, text, version):
        self.workspace.open[uri] = document = Document(uri, text, version)
        self.changed[uri] = None
        if document.kind in ("mm0", "proofs"):  # the open sources may rest on it
            self.changed.update({it.uri: None for it in self.workspace.open.values() if it.kind == "proofs" and it is not document})

    def _saved(self, parameters):
        """Another document of the family may be judged by what was saved."""
        document = self.workspace.open.get(parameters["textDocument"]["uri"])
        for it in self.workspace.family(document) if document else ():
            if it.uri in self.workspace.open:
                self.changed[it.uri] = None

    def _closed(self, parameters):
        uri = parameters["textDocument"]["uri"]
        self.workspace.open.pop(uri, None)
        self.changed.pop(uri, None)
        self._publish(uri, [])

    def _judge(self):
        """Judges one document that was changed."""
        uri = next(iter(self.changed))
        del self.changed[uri]
        try:
            document = self.workspace.open[uri]
            self._publish(uri, self.diagnostics.of(document), document.version)
        except NoProgram as why:
            if not self.has_warned:
                self._show(str(why), WARNING)
            self.has_warned = True

    def _publish(self, uri, found, version=None):
        """Says what is wrong, and in which version, where the editor counts them."""
        said = {"uri": uri, "diagnostics": found} if version is None else {"uri": uri, "version": version, "diagnostics": found}
        self.channel.write({"method": "textDocument/publishDiagnostics", "params": said})


def is_message(message):
    """Whether this is a request, a notice or an answer."""
    return isinstance(message, dict) and isinstance(message.get("method", ""), str) and isinstance(message.get("params") or {}, dict) \
        and ("method" in message or "result" in message or "error" in message)
