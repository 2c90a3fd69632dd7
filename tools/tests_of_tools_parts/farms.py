"""Tests of tools/farm: what it merges is what one sweep prints, by each of its runners, also where workers are killed; GNU parallel
and Slurm are tried where they are there, and by stand-ins (stand_ins/)."""
import contextlib
import os
import pathlib
import shutil
import signal
import socket
import subprocess
import time

from .shared import TOOLS, run

FARM, STAND_INS = TOOLS / "farm", pathlib.Path(__file__).parent / "stand_ins"
SOURCES = {
    "mixed.pss": """buffer block_b { rand bit[4] size; }
component pss_top {
  part_c part;
  pool block_b blocks; bind blocks *;
  action rare { input block_b block; constraint block.size == 7; }
  action common { }
  action make { output block_b block; }
  action often { rand bit[3] a; rand bit[3] b; constraint a * b == 12; }
  action entry { activity { repeat (2) { select { [1]: do rare; [4]: do common; [12]: do often; [3]: do part_c::last; } } } }
  action never { activity { do rare; } }
}
""",
    "part.pss": "component part_c { action last { rand bit[4] x; rand bit[4] y; constraint x * y % 13 == 5; } }\n",
    "plain.pss": "component pss_top { action step { } action entry { activity { do step; } } }\n",
    "trap.pss": "component pss_top { action entry { exec body { int x = 1 / 0; } } }\n",
    "bad.pss": "component pss_top { pool b p; }\n",
}
MIXED = ["root=pss_top::entry", "count=70", "first=5"]
FILES = ["mixed.pss", "part.pss"]
KILLED = """#!/bin/sh
# The first call that begins with the seed is killed in the middle of its text; each other one is as it should be.
case " $* " in *" first=SEED "*) if mkdir ROOM/killed 2>/dev/null; then PROGRAM "$@" | head -c 40; kill -9 $$; fi ;; esac
exec PROGRAM "$@"
"""
SLOW = """#!/bin/sh
# The first call tells its process and never ends; each other one is as it should be.
if mkdir ROOM/slow 2>/dev/null; then PROGRAM "$@" | head -c 40; echo $$ >ROOM/number; mv ROOM/number ROOM/process; exec sleep 600; fi
exec PROGRAM "$@"
"""
FAILED = """#!/bin/sh
# The calls that begin with the seed have a status of their own.
case " $* " in *" first=SEED "*) HOW ;; esac
exec PROGRAM "$@"
"""
SSH = """#!/bin/sh
# Stands in for ssh: one host is this machine, the other can't be reached.
[ "$1" = down ] && exit 255
shift 2
exec sh -c "$*"
"""


class Farm:
    """A folder with sources, and the tool in it."""

    def __init__(self, tests):
        self.tests, self.folder = tests, tests.folder / "farm"
        self.folder.mkdir()
        for name, text in SOURCES.items():
            (self.folder / name).write_text(text)

    def one(self, words):
        """What one call of the program comes to."""
        ran = run([self.tests.program, *words], self.folder)
        return ran.out, ran.status

    def words(self, options, words, program=None):
        return [FARM, "--program", program or self.tests.program, *options, *words]

    def run(self, options, words, program=None, given=()):
        return run(["env", *given, *self.words(options, words, program)], self.folder)

    def same(self, name, options, words, program=None, given=()):
        """The text and the status are those of one call."""
        ran = self.run(options, words, program, given)
        self.tests.is_same(f"farm: {name}", (ran.out, ran.status), self.one(words))
        return ran.errors.decode()

    def script(self, name, text, **values):
        """A program that fails at times."""
        room = self.folder / name
        shutil.rmtree(room, ignore_errors=True)
        room.mkdir()
        for key, value in {"PROGRAM": self.tests.program, "ROOM": room, **values}.items():
            text = text.replace(key, str(value))
        path = room / "program"
        path.write_text(text)
        path.chmod(0o755)
        return path


def tables(farm):
    """Tables with rows of all kinds, of which the parts use different types."""
    local = ["--by", "local", "--workers", "8"]
    for more in (["infer=1"], ["infer=0", "budget=7"], ["budget=3"], ["infer=0"]):
        farm.same(f"sweep {' '.join(more)}", local, ["sweep", *MIXED, *more, *FILES])
    farm.same("no scenario at all", local, ["sweep", "root=pss_top::never", "count=9", "infer=0", *FILES])
    farm.same("one seed", local, ["sweep", "root=pss_top::entry", "count=1", "plain.pss"])
    farm.same("a part for each seed, the last of all", [*local, "--parts", "99"], ["sweep", f"first={2**64 - 5}", "root=pss_top::entry", "plain.pss", "count=5"])
    text = farm.one(["sweep", *MIXED, "infer=0", "budget=7", *FILES])[0]
    kinds = [b" found 2 0\n", b" budget 0\n", b"use pss_top::often ", b"use part_c::last "]
    farm.tests.is_true("farm: the table has rows of several kinds", all(kind in text for kind in kinds), text.decode())
    ran = farm.run(local, ["sweep", "root=pss_top::entry", "count=5000", "plain.pss"])
    lines = ran.out.decode().splitlines()
    owed = ["sweep 5000", *[f"seed {seed} found 1 0" for seed in range(1, 5001)], "use pss_top::step 5000", "found 5000"]
    farm.tests.is_true("farm: more seeds than one call takes", lines == owed, ran.errors.decode())


def refusals(farm):
    """What the program refuses is told as the program tells it; what fails otherwise has its status."""
    local = ["--by", "local", "--workers", "8"]
    for words in (["count=4", "plain.pss"], ["root=pss_top::entry", "count=4"], ["root=pss_top::entry", "count=4", "none.pss"],
                  ["root=pss_top::A", "count=9", "bad.pss"], ["root=pss_top::entry", "count=9", "infer=9", "plain.pss"],
                  ["root=pss_top::nothing", "count=9", "plain.pss"]):  # fmt: skip
        said = farm.same(f"sweep {' '.join(words)}", local, ["sweep", *words])
        farm.tests.is_true("farm: a refusal is told", "farm: status " in said, said)
    for how, owed, told in (("exit 8", 8, "memory ran out"), ("kill -9 $$", 11, "lost"), ("echo sweep 9; exit 0", 11, "no table")):
        program = farm.script("failed", FAILED, SEED=12, HOW=how)
        ran = farm.run([*local, "--parts", "10", "--tries", "2"], ["sweep", *MIXED, *FILES], program)
        said = ran.errors.decode()
        farm.tests.is_same(f"farm: a part with '{how}'", (ran.status, ran.out, said.count("seeds 12 to 18: "), told in said), (owed, b"", 2, True))
    farm.tests.is_same("farm: wrong words", farm.run(["--by", "cloud"], ["sweep", *MIXED, *FILES]).status, 2)
    farm.tests.is_same("farm: no line of a sweep", farm.run([], ["run", "root=pss_top::entry", "plain.pss"]).status, 2)


def killed(farm, name, options, given=()):
    """A worker that is killed in the middle; its part is tried again."""
    program = farm.script("killed", KILLED, SEED=12)
    words = ["sweep", *MIXED, "infer=0", "budget=7", *FILES]
    said = farm.same(f"{name}, with a worker that is killed", [*options, "--workers", "8", "--parts", "10"], words, program, given)
    farm.tests.is_true(f"farm: {name} tells what was lost", "seeds 12 to 18: lost" in said and "tried again" in said, said)


def begun(farm, options, words):
    """A farm whose first call never ends, and the number of the process of that one."""
    program, deadline = farm.script("slow", SLOW), time.monotonic() + 60
    process = subprocess.Popen(farm.words(options, words, program), cwd=farm.folder, stdout=subprocess.PIPE, stderr=subprocess.PIPE)
    told = program.parent / "process"
    while not told.exists() and time.monotonic() < deadline:
        time.sleep(0.02)
    return process, int(told.read_text())


def is_there(number):
    """Whether a process goes on; one that ends has a moment for it."""
    for _ in range(100):
        try:
            state = pathlib.Path(f"/proc/{number}/stat").read_text().rpartition(")")[2].split()[0]
        except OSError:
            return False
        if state == "Z":
            return False
        time.sleep(0.02)
    return True


def stopped(farm):
    """Processes that others end, and a farm that is ended itself."""
    words, options = ["sweep", *MIXED, "infer=1", *FILES], ["--by", "local", "--workers", "8"]
    process, number = begun(farm, options, words)
    os.kill(number, signal.SIGKILL)
    out, said = process.communicate(timeout=60)
    farm.tests.is_same("farm: a process is killed from outside", (out, process.returncode), farm.one(words))
    farm.tests.is_true("farm: it is told", b"lost with status 137" in said, said.decode())
    process, number = begun(farm, options, words)
    process.terminate()
    out, _ = process.communicate(timeout=60)
    farm.tests.is_same("farm: one that is ended prints nothing and leaves nothing", (out, process.returncode, is_there(number)), (b"", 143, False))
    said = farm.same("a part that takes too long", [*options, "--limit", "1"], words, farm.script("slow", SLOW))
    farm.tests.is_true("farm: it is told, too", "lost with status 124" in said, said)


def lists(farm):
    """A list of lines, each with its status and its last line."""
    (farm.folder / "night.list").write_text(
        "# all that runs each night\nrun root=pss_top::entry plain.pss\n\nsweep root=pss_top::entry count=30 mixed.pss part.pss   # cut\n"
        "run root=pss_top::entry trap.pss\nsolve root=pss_top::never infer=0 mixed.pss part.pss\ncheck root=pss_top::entry plain.pss\n"
    )
    owed = "list 5\nline 2 status 0 done 1\nline 4 status 0 found 30\nline 5 status 5 trap 0 0 1\nline 6 status 3 noscenario 0\nline 7 status 2 usage 3\npassed 2\n"
    ran = farm.run(["--by", "local", "--workers", "8", "--keep", "kept", "--list", "night.list"], [])
    farm.tests.is_same("farm: a list", (ran.out.decode(), ran.status), (owed, 5))
    words = ["sweep", "root=pss_top::entry", "count=30", *FILES]
    farm.tests.is_same("farm: the text of a line is kept", (farm.folder / "kept" / "line-4.text").read_bytes(), farm.one(words)[0])
    program = farm.script("failed", FAILED, SEED=1, HOW="kill -9 $$")
    ran = farm.run(["--by", "local", "--tries", "1", "--list", "night.list"], [], program)
    farm.tests.is_same("farm: a lost line of a list", (ran.status, b"line 4 lost\n" in ran.out), (11, True))


def by_parallel(farm):
    """GNU parallel, with hosts of which one can't be reached."""
    by, here = ["--by", "parallel"], f"PATH={STAND_INS}:{os.environ['PATH']}"
    killed(farm, "the stand-in of parallel", by, [here])
    if not shutil.which("parallel"):
        print("farm: GNU parallel isn't there, its stand-in alone was tried")
        return
    killed(farm, "GNU parallel", by)
    ssh = farm.script("ssh", SSH)
    hosts = [*by, "--workers", "4", "--parts", "9", "--sshlogin", "4/down", "--sshlogin", "4/up"]
    farm.same("hosts of GNU parallel", hosts, ["sweep", *MIXED, "infer=1", *FILES], None, [f"PARALLEL_SSH={ssh}"])


CLUSTER = """ClusterName=farm
SlurmctldHost={host}(127.0.0.1)
SlurmUser={user}
SlurmdUser={user}
AuthType=auth/none
CredType=cred/none
StateSaveLocation={room}/state
SlurmdSpoolDir={room}/spool
SlurmctldPidFile={room}/slurmctld.pid
SlurmdPidFile={room}/slurmd.pid
SlurmctldPort={ports[0]}
SlurmdPort={ports[1]}
ProctrackType=proctrack/pgid
TaskPlugin=task/none
JobAcctGatherType=jobacct_gather/none
MpiDefault=none
SelectType=select/cons_tres
SelectTypeParameters=CR_CPU
SchedulerParameters=batch_sched_delay=0,sched_min_interval=100000
SlurmdParameters=config_overrides
ReturnToService=2
NodeName={host} NodeAddr=127.0.0.1 CPUs=8 State=UNKNOWN
PartitionName=all Nodes=ALL Default=YES State=UP
"""


def free_ports(count):
    with contextlib.ExitStack() as stack:
        held = [stack.enter_context(socket.socket()) for _ in range(count)]
        for it in held:
            it.bind(("127.0.0.1", 0))
        return [it.getsockname()[1] for it in held]


@contextlib.contextmanager
def cluster(room):
    """A cluster of one node with eight processors, on this machine; its configuration, or nothing where it doesn't come up."""
    for name in ("state", "spool"):
        (room / name).mkdir(parents=True)
    user = subprocess.run(["id", "-un"], capture_output=True, text=True).stdout.strip()
    settings = room / "slurm.conf"
    settings.write_text(CLUSTER.format(host=socket.gethostname().partition(".")[0], user=user, room=room, ports=free_ports(2)))
    path = {**os.environ, "SLURM_CONF": str(settings), "PATH": f"{os.environ['PATH']}:/usr/sbin"}
    begun_here = []
    try:
        for daemon in ("slurmctld", "slurmd"):
            with open(room / f"{daemon}.log", "wb") as log:
                begun_here.append(subprocess.Popen([daemon, "-D"], env=path, stdout=log, stderr=log))
        for _ in range(120):
            state = subprocess.run(["sinfo", "-h", "-o", "%t"], env=path, capture_output=True, text=True).stdout
            if state.strip() == "idle":
                break
            time.sleep(0.5)
        yield settings if state.strip() == "idle" else None
    finally:
        for process in reversed(begun_here):
            process.terminate()
            process.wait(30)


def by_slurm(farm):
    """A job array of Slurm."""
    by, here = ["--by", "slurm"], f"PATH={STAND_INS}:{os.environ['PATH']}"
    killed(farm, "the stand-in of sbatch", by, [here])
    if not shutil.which("sbatch") or not shutil.which("slurmctld", path="/usr/sbin:" + os.environ["PATH"]):
        print("farm: Slurm isn't there, its stand-in alone was tried")
        return
    with cluster(farm.folder / "cluster") as settings:
        if farm.tests.is_true("a cluster of one node comes up", settings is not None):
            killed(farm, "Slurm", by, [f"SLURM_CONF={settings}"])
    left = [path.name for path in farm.folder.glob("farm-*")]
    farm.tests.is_same("farm: no folder is left", left, [])


def run_all(tests):
    farm = Farm(tests)
    tables(farm)
    refusals(farm)
    killed(farm, "processes", ["--by", "local"])
    stopped(farm)
    lists(farm)
    by_parallel(farm)
    by_slurm(farm)
