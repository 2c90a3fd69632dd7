"""What tools/documents and tools/examples share: what a command prints is compared with what is shown.

A run on several lanes may start and end actions in another order each time. So of such a run the lines before the first start
are compared, and what came and what is shown must both be whole traces for `check`.
"""
import pathlib
import re
import subprocess
import tempfile


def printed(program, words, folder):
    """The lines that a command prints, and its status."""
    ran = subprocess.run([program, *words.split()], cwd=folder, capture_output=True, text=True)
    return ran.stdout.splitlines(), ran.returncode


def header_of(lines):
    """The lines of a trace before the first start."""
    starts = [at for at, line in enumerate(lines) if line.startswith("start ")]
    return lines[: starts[0]] if starts else lines


def lanes_of(lines):
    """The actions of a trace, each with the lane on which it starts."""
    return sorted(pair for line in lines if line.startswith("start ") for pair in line.split()[1:])


def is_whole(program, words, folder, lines):
    """Whether `check` finds that the lines are a whole trace of the scenario of a line of `run`."""
    kept = " ".join(word for word in words.split()[1:] if not word.startswith("lanes="))
    with tempfile.TemporaryDirectory() as room:
        trace = pathlib.Path(room) / "run.trace"
        trace.write_text("\n".join(lines) + "\n")
        return printed(program, f"check {kept} trace={trace}", folder) == (["check whole"], 0)


def is_on_many(words):
    """Whether the words ask for a run on several lanes."""
    return re.search(r"^run .* lanes=(?!1( |$))", words) is not None


def are_same(program, words, folder, came, owed, told=False):
    """Whether what came is what is owed; of a run on several lanes, but for the order of its blocks and, where `told` doesn't
    hold, the lanes."""
    if came == owed or not is_on_many(words) or header_of(came) != header_of(owed):
        return came == owed
    if told and lanes_of(came) != lanes_of(owed):
        return False
    return is_whole(program, words, folder, came) and is_whole(program, words, folder, owed)
