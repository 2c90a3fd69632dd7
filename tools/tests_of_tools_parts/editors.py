"""Tests of editors/ and tools/language_server: colours against tokens, the reader of sources against the program, and sessions of a
client, of Neovim and of Emacs."""
import json
import pathlib
import re
import shutil
import subprocess
import sys

from reading_parts.syntax import Fault, read_source

from .colours import engine, wrong_scope
from .shared import TOOLS, TOP, run

SERVER = TOOLS / "language_server"
PRINTS = re.compile(r"^- `(.*)` prints `(.*)`$", re.M)
BLOCK = re.compile(r"^```pss (\S+)\n(.*?)^```", re.M | re.S)
FAULTS = ["component pss_top { action A { rand bit[4] a; constraint a == 4 @ 2; } }", "component c { action", "enum e { a, }",
          "component c { action A { constraint x in [1] + 2; } }", "component c { action A { constraint 012; } }", "/* no end",
          "component c { action A { constraint 9223372036854775808 == x; } }", "component c { bind p i; }", "component list { action type { } }",
          "component c { action A { activity { " + "if (x) " * 70 + "; } } }", "component c { action A { constraint " + "(" * 70 + "1" + ")" * 70 + "; } }"]  # fmt: skip


def sources():
    """The examples, and all sources that the documents show."""
    found = [path.read_text() for path in sorted((TOP / "examples").glob("*.pss"))]
    for path in [TOP / "README.md", *sorted((TOP / "docs").glob("*.md"))]:
        text = path.read_text()
        found += [it for _, it in BLOCK.findall(text)] + [it for it, _ in PRINTS.findall(text)]
    return found


def colours_and_reader(tests):
    """Each token has a colour of its kind; the reader of sources refuses what the program refuses, at the same place."""
    colouring = engine()
    for number, text in enumerate([*sources(), *FAULTS]):
        try:
            read_source(text.encode(), "a.pss")
            owed = ""
        except Fault as fault:
            owed = f"{fault.what} {fault.place}"
        (tests.folder / "a.pss").write_text(text)
        said = run([tests.program, "solve", "root=pss_top::A", "budget=1", "a.pss"], tests.folder).out.decode().strip()
        came = said if said.startswith(("lexical", "syntax")) else ""
        tests.is_same(f"what is said of source {number}", owed, came)
        if not owed.startswith("lexical"):
            wrong = wrong_scope(colouring, text)
            tests.is_true(f"the colours of source {number}", wrong is None, f"{wrong}: {text[:80]}")
    for word, scope in [("package", "invalid.unimplemented"), ("struct", "invalid.unimplemented"), ("join_first", "invalid.unimplemented")]:
        tests.is_true(f"{word} is marked", colouring.scopes(word)[0].startswith(scope))


def spelled(text):
    """A text of the table of tests, where `[*3 x*]` is x three times and `\\n` a line feed."""
    text = re.sub(r"\[\*(\d+) (.*?)\*\]", lambda found: found[2] * int(found[1]), text)
    return text.replace("\\n", "\n")


def table_of_units(tests):
    """What the program's own table of tests says of whole sources."""
    call, frame = "", "$"
    for line in (TOP / "crates" / "pst_tests_sources" / "stdin").read_text().split("\n"):
        kind, _, text = line.partition(": ")
        if line.startswith("call "):
            call, frame = line, "$"
        elif line.startswith("frame "):
            frame = line.removeprefix("frame ")
        elif call == "call unit" and kind in ("unit", "wrong", "deep"):
            before, _, behind = spelled(frame.replace("$", text)).partition("@" if kind != "unit" else "\0")
            lines = before.split("\n")
            owed = {"unit": "", "wrong": "syntax ", "deep": "syntax deep "}[kind] + (f"a:{len(lines)}:{len(lines[-1]) + 1}" if kind != "unit" else "")
            try:
                read_source((before + behind).encode(), "a")
                came = ""
            except Fault as fault:
                came = f"{fault.what} {fault.place}"
            tests.is_same(f"the reader's answer to {line[:100]}", came, owed)


class Client:
    """A client of the language server."""

    def __init__(self, program):
        words = [sys.executable, str(SERVER), "--program", program]
        self.process = subprocess.Popen(words, stdin=subprocess.PIPE, stdout=subprocess.PIPE)
        self.count, self.published = 0, {}

    def send(self, method, params, answered=False):
        self.count += answered
        text = json.dumps({"jsonrpc": "2.0", "method": method, "params": params, **({"id": self.count} if answered else {})}).encode()
        self.process.stdin.write(b"Content-Length: %d\r\n\r\n%s" % (len(text), text))
        self.process.stdin.flush()

    def read(self):
        length = 0
        while (line := self.process.stdout.readline()) not in (b"\r\n", b""):
            length = int(line.split(b":")[1])
        message = json.loads(self.process.stdout.read(length))
        if message.get("method") == "textDocument/publishDiagnostics":
            self.published[message["params"]["uri"].rpartition("/")[2]] = message["params"]["diagnostics"]
        return message

    def ask(self, method, params):
        """Sends a request and reads up to its answer."""
        self.send(method, params, answered=True)
        while (message := self.read()).get("id") != self.count:
            pass
        return message

    def open(self, path):
        text = path.read_text()
        self.send("textDocument/didOpen", {"textDocument": {"uri": f"file://{path}", "languageId": "pss", "version": 1, "text": text}})

    def end(self):
        self.ask("shutdown", None)
        self.send("exit", None)
        return self.process.wait(10)


def outline(symbols):
    return [(it["name"], outline(it["children"])) for it in symbols]


def save(client, source, document, text, shown=None):
    """Saves a text; the editor shows it, or another one."""
    source.write_text(text)
    client.send("textDocument/didChange", {**document, "contentChanges": [{"text": shown or text}]})
    client.send("textDocument/didSave", document)


def session(tests):
    """A file is opened, broken, saved, mended and saved again."""
    folder = tests.folder / "session"
    folder.mkdir()
    source, other = folder / "one.pss", folder / "two.pss"
    good = "/* \u00e4\u00f6 */ component pss_top {\n  action hello { }\n  action entry { activity { do hello; } }\n  part_c part;\n}\n"
    source.write_text(good)
    other.write_text("// run root=pss_top::entry one.pss two.pss\ncomponent part_c { }\n")
    client = Client(tests.program)
    options = {"files": ["one.pss", "two.pss"], "root": "pss_top::entry"}
    answer = client.ask("initialize", {"rootUri": f"file://{folder}", "capabilities": {}, "initializationOptions": options})
    tests.is_true("the server begins", answer["result"]["capabilities"]["documentSymbolProvider"])
    client.send("initialized", {})
    client.open(source)
    document = {"textDocument": {"uri": f"file://{source}"}}
    symbols = client.ask("textDocument/documentSymbol", document)["result"]
    tests.is_same("the outline", outline(symbols), [("pss_top", [("hello", []), ("entry", [("activity", [])]), ("part", [])])])
    tests.is_same("a place behind letters of two bytes", symbols[0]["selectionRange"]["start"], {"line": 0, "character": 19})
    tests.is_same("no message", client.published["one.pss"], [])
    bad = good.replace("do hello", "do hallo")
    save(client, source, document, bad)
    client.ask("textDocument/documentSymbol", document)
    found = client.published["one.pss"]
    tests.is_true("a message at its place", found and found[0]["range"] == {"start": {"line": 2, "character": 31}, "end": {"line": 2, "character": 36}}, str(found))
    tests.is_true("the rule of the message", found and found[0]["code"] == "rule-2" and found[0]["severity"] == 1, str(found))
    save(client, source, document, good, good + "component")
    again = client.ask("textDocument/documentSymbol", document)["result"]
    tests.is_same("no message any more", client.published["one.pss"], [])
    tests.is_same("the outline stays while the text is broken", outline(again), outline(symbols))
    none = good.replace("do hello", "do hello with 1 == 2")
    save(client, source, document, none)
    client.ask("textDocument/documentSymbol", document)
    found = client.published["one.pss"]
    tests.is_true("a warning where no scenario exists", found and (found[0]["severity"], found[0]["code"], found[0]["range"]["start"]["line"]) == (2, "noscenario", 2), str(found))
    tests.is_same("another request is refused", client.ask("textDocument/hover", document)["error"]["code"], -32601)
    tests.is_same("the server ends", client.end(), 0)


NEOVIM = """
vim.cmd('set runtimepath+=RUNTIME')
vim.cmd('edit FILE')
vim.cmd('set filetype=pss')
vim.cmd('syntax on')
vim.cmd('set syntax=pss')
local client = vim.lsp.start_client({ name = 'pss', cmd = { 'SERVER', '--program', 'PROGRAM' }, root_dir = 'FOLDER' })
vim.lsp.buf_attach_client(0, client)
vim.wait(20000, function() return #vim.diagnostic.get(0) > 0 end, 50)
local found = vim.diagnostic.get(0)[1] or {}
local name = vim.fn.synIDattr(vim.fn.synID(1, 1, 1), 'name')
print('told ' .. tostring(found.lnum) .. ':' .. tostring(found.col) .. ' ' .. tostring(found.code) .. ' ' .. name)
vim.cmd('qa!')
"""


def in_neovim(tests):
    """The file's message and its colours in Neovim."""
    folder = tests.folder / "neovim"
    (folder / "syntax").mkdir(parents=True)
    shutil.copy(TOP / "editors" / "pss.vim", folder / "syntax" / "pss.vim")
    file = folder / "bad.pss"
    file.write_text("component pss_top { pool b p; }\n")
    script = NEOVIM
    for word, text in [("RUNTIME", folder), ("FILE", file), ("SERVER", SERVER), ("PROGRAM", tests.program), ("FOLDER", folder)]:
        script = script.replace(word, str(text))
    (folder / "try.lua").write_text(script)
    ran = run(["nvim", "--headless", "-u", "NONE", "-i", "NONE", "-c", f"luafile {folder}/try.lua"], folder, limit=60)
    tests.is_true("Neovim shows the message and the colours", b"told 0:25 rule-2 pssDeclaration" in ran.errors + ran.out, (ran.errors + ran.out).decode())


EGLOT = """
(require 'package)
(package-initialize)
(load "MODE")
(require 'eglot)
(setq eglot-sync-connect t)
(find-file "FILE")
(eglot--connect '(pss-mode) (project-current) 'eglot-lsp-server '("SERVER" "--program" "PROGRAM") "pss")
(let ((turns 0))
  (while (and (< turns 100) (null (flymake-diagnostics)))
    (accept-process-output nil 0.1)
    (setq turns (1+ turns))))
(princ (format "told %s" (mapcar (lambda (it) (list (flymake-diagnostic-beg it) (flymake-diagnostic-text it))) (flymake-diagnostics))))
(princ (format " %s" (imenu--make-index-alist t)))
"""


def in_eglot(tests):
    """The message and the outline in Emacs by Eglot."""
    folder = tests.folder / "eglot"
    folder.mkdir()
    run(["git", "init", "-q", folder])
    (folder / "bad.pss").write_text("component pss_top { pool b p; action entry { } }\n")
    script, text = folder / "try.el", EGLOT
    for word, given in [("MODE", TOP / "editors" / "pss-mode.el"), ("FILE", folder / "bad.pss"), ("SERVER", SERVER), ("PROGRAM", tests.program)]:
        text = text.replace(word, str(given))
    script.write_text(text)
    ran = run(["emacs", "-q", "--batch", "-l", script], folder, limit=60)
    tests.is_true("Eglot shows the message", b"told ((26 pstim [rule-2]" in ran.out, (ran.out + ran.errors).decode()[-400:])
    tests.is_true("Eglot shows the outline", b"(pss_top (entry . 38))" in ran.out, (ran.out + ran.errors).decode()[-400:])


EMACS = """
(load "MODE")
(find-file "FILE")
(font-lock-ensure)
(princ (format "told %s %s %s" major-mode (get-text-property 1 'face) (get-text-property 11 'face)))
"""


def in_emacs(tests):
    """The mode and its colours in Emacs."""
    file = tests.folder / "emacs.pss"
    file.write_text("component pss_top { pool b p; }\n")
    script = tests.folder / "try.el"
    script.write_text(EMACS.replace("MODE", str(TOP / "editors" / "pss-mode.el")).replace("FILE", str(file)))
    ran = run(["emacs", "-Q", "--batch", "-l", script], tests.folder, limit=60)
    owed = b"told pss-mode font-lock-keyword-face font-lock-type-face"
    tests.is_true("Emacs has the colours", owed in ran.out, (ran.out + ran.errors).decode())


def run_all(tests):
    colours_and_reader(tests)
    table_of_units(tests)
    session(tests)
    manifest = json.loads((TOP / "editors" / "package.json").read_text())
    grammar = manifest["contributes"]["grammars"][0]
    tests.is_true("the manifest names the grammar", (TOP / "editors" / grammar["path"]).exists() and grammar["scopeName"] == "source.pss")
    # The editors are tried where they are there.
    for editor, trial in [("nvim", in_neovim), ("emacs", in_emacs)]:
        if shutil.which(editor):
            trial(tests)
        else:
            print(f"  {editor} isn't there and wasn't tried")
    if shutil.which("emacs") and list(pathlib.Path("/usr/share/emacs/site-lisp/elpa-src").glob("eglot-*")):
        in_eglot(tests)
