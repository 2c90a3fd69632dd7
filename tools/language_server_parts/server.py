"""The messages of the language server."""
import os
from urllib.parse import quote, unquote, urlparse

from reading_parts.messages import Message
from reading_parts.syntax import Fault

from .asking import finding, task_of
from .outline import Lines, symbols_of

ERROR, WARNING = 1, 2
UNKNOWN_METHOD, FAILED = -32601, -32603


def path_of(uri):
    return os.path.realpath(unquote(urlparse(uri).path))


def uri_of(path):
    return "file://" + quote(path)


class Server:
    """What is open, and what was published."""

    def __init__(self, program, send):
        self.program, self.send, self.options, self.workspace, self.ending = program, send, {}, "", False
        self.texts, self.outlines, self.uris, self.published = {}, {}, {}, {}

    def take(self, message):
        """Answers a request, or takes a notification."""
        name = message.get("method", "")
        handler = {
            "initialize": self.initialize, "shutdown": self.shutdown, "textDocument/didOpen": self.opened,
            "textDocument/didChange": self.changed, "textDocument/didSave": self.saved, "textDocument/didClose": self.closed,
            "textDocument/documentSymbol": self.symbols,
        }.get(name)
        if "id" not in message:
            if handler:
                handler(message.get("params") or {})
            return
        if handler is None:
            if name:
                self.send({"id": message["id"], "error": {"code": UNKNOWN_METHOD, "message": f"{name} isn't served"}})
            return
        try:
            self.send({"id": message["id"], "result": handler(message.get("params") or {})})
        except (OSError, KeyError, ValueError) as error:
            self.send({"id": message["id"], "error": {"code": FAILED, "message": str(error)}})

    def initialize(self, given):
        self.options = given.get("initializationOptions") or {}
        folders = given.get("workspaceFolders") or []
        root = folders[0]["uri"] if folders else given.get("rootUri")
        self.workspace = path_of(root) if root else given.get("rootPath") or ""
        self.program = self.options.get("program", self.program)
        sync = {"openClose": True, "change": 1, "save": {"includeText": False}}
        return {"capabilities": {"textDocumentSync": sync, "documentSymbolProvider": True}, "serverInfo": {"name": "pss"}}

    def shutdown(self, _given):
        self.ending = True

    def opened(self, given):
        document = given["textDocument"]
        self.uris[path_of(document["uri"])] = document["uri"]
        self.hold(document["uri"], document["text"])
        self.check(document["uri"])

    def changed(self, given):
        self.hold(given["textDocument"]["uri"], given["contentChanges"][-1]["text"])

    def saved(self, given):
        self.check(given["textDocument"]["uri"])

    def closed(self, given):
        uri = given["textDocument"]["uri"]
        self.texts.pop(uri, None)
        self.publish(uri, [])

    def hold(self, uri, text):
        """Keeps a text, with its outline where it is a source; else the last outline stays."""
        self.texts[uri] = text
        try:
            self.outlines[uri] = symbols_of(text, path_of(uri))
        except Fault:
            pass

    def symbols(self, given):
        return self.outlines.get(given["textDocument"]["uri"], [])

    def check(self, uri):
        """Asks the program, and publishes what it says of the sources to which a file belongs."""
        path = path_of(uri)
        if not os.path.exists(path):
            return
        task = task_of(path, self.options, self.workspace)
        try:
            found = finding(self.program, task)
        except OSError as error:
            self.send({"method": "window/showMessage", "params": {"type": ERROR, "message": f"{self.program}: {error.strerror}"}})
            return
        for name in task.files:
            file = os.path.realpath(os.path.join(task.folder, name))
            here = [self.diagnostic(file, found)] if found and os.path.realpath(found[1]) == file else []
            self.publish(self.uris.get(file, uri_of(file)), here)

    def diagnostic(self, file, found):
        message, _, is_warning = found
        text = self.texts.get(self.uris.get(file))
        if text is None:
            with open(file, encoding="utf-8", errors="replace") as held:
                text = held.read()
        lines = Lines(text)
        more = {"severity": WARNING if is_warning else ERROR, "source": "pstim"}
        if not isinstance(message, Message):
            return {"range": lines.word(1, 1), "message": message, **more}
        place = (message.line, message.column) if message.file != "root" else (1, 1)
        return {"range": lines.word(*place), "message": message.sentence(), "code": message.rule, **more}

    def publish(self, uri, found):
        if found or self.published.get(uri):
            self.send({"method": "textDocument/publishDiagnostics", "params": {"uri": uri, "diagnostics": found}})
        elif uri not in self.published:
            self.send({"method": "textDocument/publishDiagnostics", "params": {"uri": uri, "diagnostics": []}})
        self.published[uri] = found
