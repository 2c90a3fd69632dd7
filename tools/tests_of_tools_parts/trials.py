"""Tests of tools/random and tools/shapes: a few cases and small shapes pass; programs that break what must hold, or take too long, are
found out."""
import re

from .shared import TOOLS, run

RANDOM, SHAPES = TOOLS / "random", TOOLS / "shapes"
LAST = re.compile(r"(\d+) passed, (\d+) failed, (\d+) late: .*")
# Cases of which several have a scenario.
FIRST, COUNT = 1, 16
# Programs that aren't as they should be, and what is told of them.
BROKEN = {
    'case "$1" in check) echo "check prefix"; exit 0 ;; esac': "check of the trace says check prefix, not whole",
    'case "$1" in run) echo "done 0"; exit 0 ;; esac': "no answer: status 0, ",
    'case " $* " in *" infer=0 "*) echo "budget 0"; exit 4 ;; esac': "where only ",
    'case "$1" in solve) echo " " >>calls; [ $(wc -l <calls) = 2 ] && { echo "noscenario 0"; exit 3; } ;; esac': "another answer at the second call",
    'case "$PWD" in */exchanged) echo "noscenario 1"; exit 3 ;; esac': "with names exchanged: ",
    'case "$1" in sweep) PROGRAM "$@" | sed "s/ found [0-9]*/ found 99/"; exit 0 ;; esac': "the row seed ",
    "kill -11 $$": "ended by signal 11",
    "echo lost >&2": "printed to the other output",
}
QUICK = ["actions in sequence", "`select`", "enums of two items", "a generated model"]
SLOW = "while : ; do : ; done"


def script(tests, line):
    """A program that does something else first."""
    path = tests.folder / "broken"
    path.write_text(f"#!/bin/sh\n{line}\nexec PROGRAM \"$@\"\n".replace("PROGRAM", str(tests.program)))
    path.chmod(0o755)
    return path


def of_random(tests):
    """Cases pass, each follows from its number alone, and what is wrong is told with the case left."""
    kept = tests.folder / "kept"
    words = ["--workers", "1", "--keep", kept]
    ran = run([RANDOM, "--program", tests.program, *words, FIRST, COUNT])
    last = LAST.fullmatch(ran.out.decode().splitlines()[-1])
    tests.is_true("random: cases pass", ran.status == 0 and last and (int(last[1]) + int(last[3]), last[2]) == (COUNT, "0"), (ran.out + ran.errors).decode())
    again = run([RANDOM, "--program", tests.program, *words, FIRST, COUNT])
    tests.is_same("random: the same at the second time", (again.status, again.out), (ran.status, ran.out))
    for line, told in BROKEN.items():
        ran = run([RANDOM, "--program", script(tests, line), *words, FIRST, COUNT])
        said = re.search(rf"^case (\d+) wrong: .*{re.escape(told)}", ran.out.decode(), re.M)
        tests.is_true(f"random: a program with '{line}'", ran.status == 1 and said, (ran.out + ran.errors).decode()[-600:])
        tests.is_true("random: its case is left", said and list((kept / f"case-{said[1]}").glob("*.pss")))


def of_shapes(tests):
    """Shapes have rows, and a program that takes too long, or answers something else, is told."""
    ran = run([SHAPES, "--program", tests.program, "--divide", "64", *QUICK])
    lines = ran.out.decode().splitlines()
    rows = [line.split(" | ") for line in lines if line.startswith(("| solve", "| run", "| check", "| gen"))]
    tests.is_true("shapes: each word has rows", all(any(word in row[0] for row in rows) for word in QUICK), ran.out.decode())
    tests.is_true("shapes: rows have six columns", rows and all(len(row) == 6 for row in rows), ran.out.decode())
    tests.is_true("shapes: small ones aren't over", ran.status == 0 and lines[-1] == f"{len(rows)} shapes, 0 over", "\n".join(lines[-5:]))
    for line, told in ((SLOW, "no end in"), ("exit 0", "answers ''"), ("kill -11 $$", "ended by signal 11")):
        ran = run([SHAPES, "--program", script(tests, line), "--divide", "64", "a name of 500,000 bytes"])
        said = ran.out.decode()
        tests.is_true(f"shapes: a program with '{line}'", ran.status == 1 and f"over: solve: a name of 500,000 bytes: {told}" in said, said)


def run_all(tests):
    of_random(tests)
    of_shapes(tests)
