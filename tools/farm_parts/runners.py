"""What runs the commands of parts: processes of this machine, GNU parallel, or a job array of Slurm.

Each takes commands and a folder, and leaves there what command N prints as N.text, and what it says on standard error as
N.text.err, counted from 1. A command that was lost leaves less than that, or nothing. Nothing goes on running behind a runner."""
import os
import shutil
import signal
import subprocess
import sys
import time

SCRIPT = '#!/bin/sh\nexec sh "$1/$SLURM_ARRAY_TASK_ID.sh"\n'
LARGEST_ARRAY = 1000
LOOK = 0.02


class NoRunner(Exception):
    """The programs of a runner aren't there, or refuse."""


def begun(words, folder, name, given=subprocess.DEVNULL):
    """A process in a group of its own, which prints into files of the folder."""
    with open(f"{folder}/{name}", "wb") as text, open(f"{folder}/{name}.err", "wb") as errors:
        return subprocess.Popen(words, start_new_session=True, stdin=given, stdout=text, stderr=errors)


def stop(process):
    """Ends a process and those that it began."""
    for number in (signal.SIGTERM, signal.SIGKILL):
        if process.poll() is not None:
            return
        try:
            os.killpg(process.pid, number)
            process.wait(5)
        except (ProcessLookupError, subprocess.TimeoutExpired):
            pass


def call(words, folder, name, given=subprocess.DEVNULL):
    """Runs a process to its end; its status. It looks up at times, so that a signal isn't missed that comes as it begins to wait."""
    process = begun(words, folder, name, given)
    try:
        while True:
            try:
                return process.wait(LOOK)
            except subprocess.TimeoutExpired:
                pass
    finally:
        stop(process)


def run_locally(asked, commands, folder):
    """As many commands at a time as there are workers."""
    running, left = set(), list(enumerate(commands, 1))[::-1]
    try:
        while running or left:
            while left and len(running) < asked.workers:
                number, command = left.pop()
                running.add(begun(["sh", "-c", command], folder, f"{number}.text"))
            ended = {process for process in running if process.poll() is not None}
            running -= ended
            time.sleep(0 if ended else LOOK)
    finally:
        for process in running:
            stop(process)


def is_parallel():
    """Whether GNU parallel is there; other programs have that name, too."""
    try:
        return b"GNU parallel" in subprocess.run(["parallel", "--version"], stdin=subprocess.DEVNULL, capture_output=True).stdout
    except OSError:
        return False


def run_by_parallel(asked, commands, folder):
    """One call of GNU parallel, which reads a command from each line. What one host loses is given to another at once."""
    if not is_parallel():
        raise NoRunner("GNU parallel isn't there (Debian's package parallel)")
    words = ["parallel", "--will-cite", "--jobs", str(asked.workers), "--results", f"{folder}/{{#}}.text"]
    words += ["--retries", str(asked.tries)] if asked.hosts else []
    for option, value in asked.hosts:
        words += [option, value]
    with open(f"{folder}/commands", "w+", encoding="utf-8") as lines:
        lines.write("".join(f"{command}\n" for command in commands))
        lines.seek(0)
        status = call(words, folder, "parallel", lines)
    if status and not os.path.exists(f"{folder}/1.text"):
        raise NoRunner(f"GNU parallel ends with status {status}: {last_line(content(f'{folder}/parallel.err'))}")


def run_by_slurm(asked, commands, folder):
    """A job array for each thousand commands, and a wait for its end."""
    with open(f"{folder}/task", "w", encoding="utf-8") as script:
        script.write(SCRIPT)
    for number, command in enumerate(commands, 1):
        with open(f"{folder}/{number}.sh", "w", encoding="utf-8") as file:
            file.write(command + "\n")
    for first in range(1, len(commands) + 1, LARGEST_ARRAY):
        run_array(asked, f"{first}-{min(first + LARGEST_ARRAY - 1, len(commands))}", folder)


def run_array(asked, numbers, folder):
    words = ["sbatch", "--parsable", "--wait", "--job-name=farm", f"--array={numbers}%{asked.workers}", "--open-mode=truncate"]
    words += [f"--output={folder}/%a.text", f"--error={folder}/%a.text.err", f"{folder}/task", folder]
    if not shutil.which("sbatch"):
        raise NoRunner("sbatch isn't there (Debian's package slurm-client)")
    said = f"{folder}/sbatch-{numbers}"
    try:
        status = call(words, folder, f"sbatch-{numbers}")
    except BaseException:
        job = content(said).decode().strip().partition(";")[0]
        if job:
            subprocess.run(["scancel", job], stdin=subprocess.DEVNULL, stderr=subprocess.DEVNULL, check=False)
        raise
    if not content(said):
        raise NoRunner(f"sbatch ends with status {status}: {last_line(content(said + '.err'))}")


def content(path):
    """What a file has; nothing where it isn't there."""
    try:
        with open(path, "rb") as file:
            return file.read()
    except OSError:
        return b""


def last_line(said):
    return (said.decode("utf-8", "replace").strip().split("\n"))[-1]


RUNNERS = {"local": run_locally, "parallel": run_by_parallel, "slurm": run_by_slurm}


def end_by_signals():
    """A signal that ends the program lets it end what it began."""

    def ended(number, _):
        sys.exit(128 + number)

    for number in (signal.SIGTERM, signal.SIGHUP, signal.SIGINT):
        signal.signal(number, ended)
