"""Asks the program about sources: which words, and what its answer means."""
import os
import re
import subprocess

from reading_parts.messages import Message, message_of
from reading_parts.syntax import Fault, read_source, read_sources

HEAD = re.compile(r"^\s*(?://|\*|/\*)\s*(?:\$\s*)?(?:\S*pstim )?\s*(?:run|solve) +(.*root=.*?)\s*(?:\*/)?\s*$")
SECONDS = 20
LOOKED_AT = 12  # lines


class Task:
    """What is asked: the root, the number of inferred actions, the files, and the folder from which they are named."""

    def __init__(self, root, guessed, infer, files, folder):
        self.root, self.guessed, self.infer, self.files, self.folder = root, guessed, infer, files, folder


def guessed_root(text, file):
    """An action of pss_top that may be a root: `entry`, or the last one that isn't abstract."""
    try:
        parts = read_source(text, file)
    except Fault:
        return "pss_top::entry"
    actions = [it.name for part in parts if part.name == "pss_top" for it in part.parts if it.kind == "action" and not it.abstract]
    return "pss_top::" + ("entry" if "entry" in actions or not actions else actions[-1])


def from_comment(text, path, workspace):
    """The task that a comment in the first lines names, where its files are there and this one is among them."""
    for line in text.decode("utf-8", "replace").split("\n")[:LOOKED_AT]:
        found = HEAD.match(line)
        if not found:
            continue
        words = found[1].split()
        keys = dict(word.split("=", 1) for word in words if "=" in word)
        names = [word for word in words if "=" not in word and word.endswith(".pss")]
        for folder in (workspace, os.path.dirname(path)):
            files = [os.path.join(folder, name) for name in names]
            if folder and files and all(map(os.path.exists, files)) and any(os.path.samefile(path, it) for it in files):
                return Task(keys["root"], False, keys.get("infer"), names, folder)
        return Task(keys["root"], False, keys.get("infer"), [os.path.basename(path)], os.path.dirname(path))
    return None


def task_of(path, options, workspace):
    with open(path, "rb") as file:
        text = file.read()
    files = options.get("files")
    if files and workspace and any(os.path.exists(os.path.join(workspace, it)) and os.path.samefile(path, os.path.join(workspace, it)) for it in files):
        return Task(options.get("root", "pss_top::entry"), "root" not in options, options.get("infer"), files, workspace)
    found = from_comment(text, path, workspace)
    if found:
        return found
    root = options.get("root") or guessed_root(text, path)
    return Task(root, "root" not in options, options.get("infer"), [os.path.basename(path)], os.path.dirname(path))


def answer_of(program, task):
    """What the program prints; nothing where it needs too long."""
    words = [program, "solve", f"root={task.root}", "budget=2000"]
    words += [f"infer={task.infer}"] if task.infer is not None else []
    try:
        ran = subprocess.run([*words, *task.files], cwd=task.folder or None, stdin=subprocess.DEVNULL, capture_output=True, timeout=SECONDS)
    except subprocess.TimeoutExpired:
        return None, ""
    return ran.returncode, ran.stdout.decode("ascii", "replace").split("\n")[0]


def without_scenario(task, line):
    """The message that there is no scenario, at the name of the root's action."""
    component, _, action = task.root.partition("::")
    said = f"no legal scenario of {task.root} infers at most {line.split(' ')[-1]} actions"
    parts = read_sources([os.path.join(task.folder, it) for it in task.files])
    inner = [it for part in parts if part.kind == "component" and part.name == component for it in part.parts]
    place = next(it.place for it in inner if it.kind == "action" and it.name == action)
    return Message("noscenario", line, place.file, place.line, place.column, said)


def finding(program, task):
    """The message, the file in which it stands, and whether it is a warning. No message is nothing."""
    status, line = answer_of(program, task)
    message = message_of(line)
    if message and not (message.file == "root" and task.guessed):
        return message, os.path.join(task.folder, message.file if message.file != "root" else task.files[-1]), False
    if status == 3:
        message = without_scenario(task, line)
        return message, message.file, True
    if status in (2, 6, 8, 9):
        return line or f"the program ended with status {status}", os.path.join(task.folder, task.files[-1]), False
    return None
