"""What the tests of the tools share: the program, a folder, traces of all examples, a large trace, and the count of what failed."""
import json
import os
import pathlib
import shutil
import subprocess

TOP = pathlib.Path(__file__).resolve().parent.parent.parent
TOOLS = TOP / "tools"
OTHERS = ("lanes=", "over=", "space=", "base=", "first=", "count=")
LARGE = 16384
LARGE_SOURCE = """// 16,384 actions: blocks are written and read by copies that lock channels of a pool.
buffer block_b { rand bit[8] in [16..64] size; }
resource channel_r { rand bit[4] priority; }
component pss_top {
  pool block_b memory; bind memory *;
  pool [4] channel_r channels; bind channels *;
  action copy_in { output block_b block; lock channel_r channel; }
  action copy_out { input block_b block; lock channel_r channel; rand bit[4] tag; }
  action pair { copy_in i; copy_out o; activity { i; o; bind i.block o.block; } }
  action entry { activity { repeat (2048) { schedule { do pair; do pair; do pair; do pair; } } } }
}
"""


def large_trace():
    """A whole trace of the large source on four lanes."""
    lines = ["pst 2", f"scenario {LARGE} 0", "compound pss_top pss_top::entry"] + ["compound pss_top pss_top::pair"] * (LARGE // 2)
    for pair in range(LARGE // 2):
        number, channel = 2 * pair, f"channel[{pair % 4}] channel.priority={pair % 16}"
        lines.append(f"action {number} pss_top pss_top::copy_in leaf block.size={16 + pair % 49} {channel}")
        lines.append(f"action {number + 1} pss_top pss_top::copy_out leaf tag={pair % 16} block<{number}.block {channel}")
    for first in range(0, LARGE, 8):
        for at in range(2):
            lines += [f"start {first + 2 * lane + at}:{lane}" for lane in range(4)]
            lines += [f"end {first + 2 * lane + at}" for lane in range(4)]
    return "\n".join(lines) + f"\ndone {LARGE}\n"


class Ran:
    """What came of a command: its status, what it printed, its processor time in seconds and its memory in megabytes."""

    def __init__(self, status, out, errors, seconds, memory):
        self.status, self.out, self.errors, self.seconds, self.memory = status, out, errors, seconds, memory


def run(words, folder=None, given=None, limit=120):
    """Runs a command to its end."""
    words = [str(word) for word in words]
    with subprocess.Popen(words, cwd=folder, stdin=subprocess.PIPE, stdout=subprocess.PIPE, stderr=subprocess.PIPE) as process:
        try:
            out, errors = process.communicate(given, timeout=limit)
        except subprocess.TimeoutExpired:
            process.kill()
            process.communicate()
            return Ran(-1, b"", f"no end in {limit} s".encode(), limit, 0)
    return Ran(process.returncode, out, errors, 0, 0)


def measured(words, folder=None):
    """Runs a command with its output to nowhere, for its time and memory."""
    with open(os.devnull, "w", encoding="ascii") as nowhere:
        process = subprocess.Popen([str(word) for word in words], cwd=folder, stdout=nowhere)
        _, status, used = os.wait4(process.pid, 0)
        process.returncode = os.waitstatus_to_exitcode(status)
    return Ran(process.returncode, b"", b"", used.ru_utime + used.ru_stime, used.ru_maxrss / 1024)


class Tests:
    """The tests that ran, and what they work on."""

    def __init__(self, program, folder):
        self.program, self.folder = program, pathlib.Path(folder)
        self.passed, self.failed = 0, 0
        self.traces, self.large, self.large_source = {}, self.folder / "large.trace", self.folder / "large.pss"

    def is_true(self, name, held, why=""):
        """Counts a test, and tells of it where it failed."""
        if held:
            self.passed += 1
        else:
            self.failed += 1
            print(f"failed: {name}{': ' if why else ''}{why}")
        return held

    def is_same(self, name, came, owed):
        return self.is_true(name, came == owed, f"{came!r} came, {owed!r} was owed")

    def ends_well(self, name, words, **more):
        """Runs a tool that must end with status 0; what it printed."""
        ran = run(words, **more)
        self.is_true(name, ran.status == 0, f"status {ran.status}, {ran.errors.decode('utf-8', 'replace')[-400:]}")
        return ran.out

    def has(self, *tools):
        """Whether tools of other packages are there; each that isn't counts as a failed test."""
        lacking = [tool for tool in tools if not shutil.which(tool)]
        for tool in lacking:
            self.is_true(f"{tool} is there", False, "README.md has the line that installs what the tests need")
        return not lacking

    def validator(self, path):
        """What judges JSON by a schema; nothing, and a failed test, where its package isn't there."""
        try:
            import jsonschema
        except ImportError:
            self.is_true("jsonschema is there", False, "README.md has the line that installs what the tests need")
            return None
        return jsonschema.Draft7Validator(json.loads(path.read_text()))

    def prepare(self):
        """Writes the traces of all examples, each run on up to sixteen lanes, and the large one."""
        self.large.write_text(large_trace())
        self.large_source.write_text(LARGE_SOURCE)
        for name in [*sorted(path.stem for path in (TOP / "examples").glob("*.out")), "device"]:
            ran = run([self.program, "run", "lanes=16", *self.words(name)], TOP)
            self.traces[name] = self.folder / f"{name}.trace"
            self.traces[name].write_bytes(ran.out)
            self.is_true(f"the example {name} runs", ran.status in (0, 5), f"status {ran.status}")

    def words(self, name):
        """The words of an example with which it is run, from the top of the repository: those that other commands have aren't among them."""
        if name == "device":
            return ["root=pss_top::entry", "infer=6", str(self.source(name))]
        words = (TOP / "examples" / f"{name}.out").read_text().split("\n", 1)[0].split()[3:]
        return [word for word in words if not word.startswith(OTHERS)]

    def source(self, name):
        """The source of an example; `device` has all that the examples have, in one."""
        return pathlib.Path(__file__).parent / "device.pss" if name == "device" else TOP / "examples" / f"{name}.pss"
