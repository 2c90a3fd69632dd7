"""Runs a program over a shape at three sizes, and tells its processor time, memory and growth beside what is allowed."""
import math
import os
import pathlib
import re
import resource
import signal
import subprocess
import tempfile

# A call is ended where it takes this many times the seconds that are allowed, and a second more; and the bytes of addresses that it may have.
LATE, WIDE = 4, 6 << 30
# Growth is judged where the largest size takes this many seconds, since below it noise is more than growth.
JUDGED = 0.25


class Shape:
    """Sources of one shape: `make` gives the text of a size, and `size` is the largest of three, each twice the one before.

    `seconds`, `megabytes` and `growth` are what is allowed at the largest size; `stack` is the stack in kilobytes. The answer's last line
    must fit `answer` from its beginning on. The root is `pss_top::entry`."""

    def __init__(self, name, size, make, seconds, megabytes=100, growth=1.4, answer="solved", command="solve", words="", stack=1024):
        self.name, self.size, self.make = name, size, make
        self.seconds, self.megabytes, self.growth = seconds, megabytes, growth
        self.answer, self.command, self.words, self.stack = answer, command, words, stack


class Measure:
    """What came of one call."""

    def __init__(self, size, seconds, megabytes, wrong):
        self.size, self.seconds, self.megabytes, self.wrong = size, seconds, megabytes, wrong


def limits(shape):
    late = int(LATE * shape.seconds) + 1

    def limited():
        resource.setrlimit(resource.RLIMIT_STACK, (shape.stack << 10, shape.stack << 10))
        resource.setrlimit(resource.RLIMIT_CPU, (late, late))
        resource.setrlimit(resource.RLIMIT_AS, (WIDE, WIDE))

    return limited


def called(words, folder, shape, out):
    """The status, seconds and megabytes of a call whose output goes to a file."""
    with open(out, "wb") as file:
        process = subprocess.Popen(words, cwd=folder, stdin=subprocess.DEVNULL, stdout=file, stderr=subprocess.DEVNULL, preexec_fn=limits(shape))
        _, status, used = os.wait4(process.pid, 0)
        process.returncode = os.waitstatus_to_exitcode(status)
    return process.returncode, used.ru_utime + used.ru_stime, used.ru_maxrss / 1024


def last_line(path):
    with open(path, "rb") as file:
        file.seek(max(0, file.seek(0, os.SEEK_END) - 4096))
        lines = file.read().decode("latin-1").splitlines()
    return lines[-1] if lines else ""


def measured(program, shape, size, folder):
    """One size of a shape; a `check` is of the trace that `run` prints."""
    source, out = folder / "a.pss", folder / "out"
    words = [*shape.words.split()]
    if shape.command != "gen":
        source.write_text(shape.make(size))
        words = ["root=pss_top::entry", *words, "a.pss"]
    else:
        words.append(f"size={size}")
    if shape.command == "check":
        called([program, "run", *words], folder, shape, folder / "a.trace")
        words.append("trace=a.trace")
    status, seconds, megabytes = called([program, shape.command, *words], folder, shape, out)
    return Measure(size, seconds, megabytes, wrong_with(shape, status, seconds, last_line(out)))


def wrong_with(shape, status, seconds, said):
    """What is wrong with a call that ended with this status and last line; nothing where it is as it should be."""
    if status in (-signal.SIGXCPU, -signal.SIGKILL):
        return f"no end in {seconds:.0f} s"
    if status < 0:
        return f"ended by signal {-status}"
    return "" if re.match(shape.answer, said) else f"answers {said[:60]!r}"


def growth_of(rows, floor):
    """The exponent of the time's growth from the last size but one to the last, without the time that an empty source takes."""
    if len(rows) < 2 or rows[-1].size == rows[-2].size:
        return 0
    least, most = (max(row.seconds - floor, 0.001) for row in rows[-2:])
    return math.log(most / least, rows[-1].size / rows[-2].size)


def sizes_of(shape, divide):
    """Three sizes, each twice the one before; those of generated models are multiples of 8."""
    top = max(shape.size // divide, 32 if shape.command == "gen" else 4)
    return [it // 8 * 8 if shape.command == "gen" else it for it in (top // 4, top // 2, top)]


def tried(program, shape, divide, floor):
    """A row of the table for a shape, and what is over in it. Larger sizes than one that doesn't end aren't tried."""
    rows = []
    with tempfile.TemporaryDirectory(prefix="shapes-") as room:
        for size in sizes_of(shape, divide):
            rows.append(measured(program, shape, size, pathlib.Path(room)))
            if rows[-1].wrong:
                break
    growth, most = growth_of(rows, floor), rows[-1]
    over = [f"{most.wrong} at {most.size:,}"] if most.wrong else []
    over += [f"{most.seconds:.2f} s"] if most.seconds > shape.seconds else []
    over += [f"{most.megabytes:.0f} MB"] if most.megabytes > shape.megabytes else []
    over += [f"growth {growth:.1f}"] if growth > shape.growth and most.seconds > JUDGED and not most.wrong else []
    return row_of(shape, rows, growth), over


def row_of(shape, rows, growth):
    shown = [
        "; ".join(f"{row.size:,}" for row in rows),
        "; ".join(f"over {row.seconds:.1f}" if row.wrong.startswith("no end") else f"{row.seconds:.2f}" for row in rows),
        f"{rows[-1].megabytes:.0f}",
        f"{growth:.1f}" if rows[-1].seconds > JUDGED and not rows[-1].wrong else "",
        f"{shape.seconds:g} s, {shape.megabytes} MB, {shape.growth:g}",
    ]
    return f"| {shape.command}: {shape.name} | " + " | ".join(shown) + " |"
