"""Tests of tools/sarif, tools/from_log, the man page, completions and tools/package."""
import json
import os
import re
import shutil

from .shared import TOOLS, TOP, run

SARIF, FROM_LOG, COMPLETIONS = TOOLS / "sarif", TOOLS / "from_log", TOOLS / "completions"
TABLE = (TOP / "examples" / "ci" / "device.table").read_text()


def result_of(tests, validator, name, text, more=()):
    """The first result of a text, and the status."""
    ran = run([SARIF, *more], TOP, given=text.encode())
    log = json.loads(ran.out)
    fault = next(iter(validator.iter_errors(log)), None)
    tests.is_true(f"the log of {name} keeps the schema", fault is None, str(fault and fault.message))
    results = log["runs"][0]["results"]
    return results[0] if results else None, ran.status, log["runs"][0]["invocations"][0]


def sarif(tests):
    validator = tests.validator(TOOLS / "sarif.schema.json")
    if validator is None:
        return
    cases = [("rule 2 a.pss:4:32\n", "rule-2"), ("lexical wide a b.pss:1:2\n", "lexical-wide"), ("syntax deep a.pss:1:2\n", "syntax-deep"),
             ("illegal 9 7\n", "trace-7"), ("badtrace 3\n", "badtrace"), ("rule 24 root:1:1\n", "rule-24")]  # fmt: skip
    for text, rule in cases:
        found, status, _ = result_of(tests, validator, rule, text, ["--trace", "run.trace"])
        tests.is_same(f"the result of {text.strip()}", (found["ruleId"], found["level"], status), (rule, "error", 1))
    found, status, _ = result_of(tests, validator, "noscenario", "noscenario 2\n")
    tests.is_same("no scenario is a warning", (found["level"], status), ("warning", 0))
    found, status, called = result_of(tests, validator, "nofile", "nofile x.pss\n")
    tests.is_same("a call that failed has no result", (found, called["executionSuccessful"]), (None, False))
    found, status, called = result_of(tests, validator, "a trace", tests.traces["dma"].read_text())
    tests.is_same("a whole trace has no result", (found, status, called["executionSuccessful"]), (None, 0, True))
    text = tests.traces["bodies"].read_text()
    found, status, _ = result_of(tests, validator, "a trap", text, ["--sources", "examples/bodies.pss"])
    where = found["locations"][0]["physicalLocation"]
    tests.is_same("a trap stands at its statement", (where["artifactLocation"]["uri"], where["region"]), ("examples/bodies.pss", {"startLine": 18, "startColumn": 59}))
    (tests.folder / "bad.pss").write_text("component pss_top { pool b p; }\n")
    printed = run([tests.program, "solve", "root=pss_top::A", "bad.pss"], tests.folder).out.decode()
    found, _, _ = result_of(tests, validator, "what the program prints", printed)
    tests.is_same("its place", found["locations"][0]["physicalLocation"]["region"], {"startLine": 1, "startColumn": 26})


def log_of(trace):
    """A device's log of a trace, with lines that say nothing between."""
    lines, lanes, types = [], {}, dict(re.findall(r"^action (\d+) \S+ \w+::(\w+)", trace, re.M))
    for line in trace.split("\n"):
        word, *rest = line.split(" ")
        for it in rest if word == "start" else []:
            action, lane = it.split(":")
            lanes[action] = lane
            lines.append(f"[{len(lines)} ns] core{lane}: begin {types[action]} id={action}")
        if word == "end":
            lines.append(f"[{len(lines)} ns] core{lanes[rest[0]]}: end id={int(rest[0]):#x}")
        elif word == "fault":
            lines.append(f"core{rest[0]}: FAIL id={rest[1]} call={rest[2]}")
        elif word == "trap":
            lines.append(f"core{rest[0]}: ASSERT id={rest[1]}")
        lines.append("temperature 41")
    return "\n".join(lines) + "\n"


def from_log(tests):
    """The log of each example's run becomes a trace that `check` takes."""
    table = tests.folder / "device.table"
    table.write_text(TABLE)
    for name, trace in tests.traces.items():
        words = tests.words(name)
        header, log, made = (tests.folder / f"{name}.{kind}" for kind in ("solved", "log", "made"))
        header.write_bytes(run([tests.program, "solve", *words], TOP).out)
        log.write_text(log_of(trace.read_text()))
        tests.ends_well(f"from_log of {name}", [FROM_LOG, table, log, "--header", header, "--output", made])
        tests.is_same(f"the trace of the log of {name}", made.read_text(), trace.read_text())
        said = run([tests.program, "check", f"trace={made}", *words], TOP).out
        tests.is_same(f"check of the log of {name}", said, b"check prefix\n" if name == "bodies" else b"check whole\n")
    by_type = tests.folder / "type.table"
    by_type.write_text("start begin (?P<type>\\w+)\nend end id=(?P<action>0x\\w+)\n")
    made = run([FROM_LOG, by_type, tests.folder / "dma.log", "--header", tests.folder / "dma.solved"]).out
    (tests.folder / "typed.trace").write_bytes(made)
    words = ["check", "root=pss_top::entry", f"trace={tests.folder}/typed.trace", "examples/dma.pss"]
    tests.is_same("a table of types", run([tests.program, *words], TOP).out, b"check whole\n")
    short = "\n".join((tests.folder / "dma.log").read_text().split("\n")[:16]) + "\n"
    ran = run([FROM_LOG, table, "-", "--header", tests.folder / "dma.solved"], given=short.encode())
    tests.is_true("a log that ends early is refused", ran.status == 1 and b"actions are left" in ran.errors, ran.errors.decode())
    (tests.folder / "cut.trace").write_bytes(run([FROM_LOG, table, "-", "--header", tests.folder / "dma.solved", "--cut"], given=short.encode()).out)
    words[2] = f"trace={tests.folder}/cut.trace"
    tests.is_same("with --cut it is judged", run([tests.program, *words], TOP).out, b"check prefix\n")


BASH = """
source COMPLETIONS/pstim.bash
try() { COMP_LINE=$1; COMP_POINT=${#1}; IFS=' ' read -ra COMP_WORDS <<<"$1"; COMP_CWORD=$((${#COMP_WORDS[@]} - 1)); _pstim; printf '%s ' "${COMPREPLY[@]}"; echo; }
try 'pstim so'
try 'pstim run ro'
try 'pstim run examples/dma.pss root=dma'
try 'pstim run examples/dma.pss root=dma_c::copy_o'
try 'pstim check trace=examples/dma.o'
try 'pstim run examples/dma.'
"""
ZSH = """
fpath=(COMPLETIONS $fpath)
autoload -Uz compinit && compinit -u -D
print -r -- ${_comps[pstim]}
"""


def completions(tests):
    """What each shell offers."""
    if tests.has("bash"):
        owed = ["solve", "root=", "dma_c::copy_in dma_c::copy_out", "copy_out", "examples/dma.out", "examples/dma.pss"]
        ran = run(["bash", "-c", BASH.replace("COMPLETIONS", str(COMPLETIONS))], TOP)
        tests.is_same("completions of bash", [line.strip() for line in ran.out.decode().splitlines()], owed)
    if tests.has("zsh"):
        tests.is_same("zsh reads its completions", run(["zsh", "-n", COMPLETIONS / "_pstim"]).errors, b"")
        ran = run(["zsh", "-f", "-c", ZSH.replace("COMPLETIONS", str(COMPLETIONS))], TOP)
        tests.is_same("zsh knows them", ran.out, b"_pstim\n")
    if tests.has("fish"):
        for line, owed in [("pstim ch", "check"), ("pstim run examples/dma.pss root=dma_c::copy_o", "root=dma_c::copy_out"), ("pstim solve inf", "infer=0")]:
            words = ["fish", "--no-config", "-c", f"source {COMPLETIONS}/pstim.fish; complete -C '{line}'"]
            ran = run(words, TOP)
            tests.is_true(f"fish completes '{line}'", owed in [it.split("\t")[0] for it in ran.out.decode().splitlines()], (ran.out + ran.errors).decode()[:300])


def manual(tests):
    """The man page is laid out without complaints and has the statuses."""
    ran = run(["man", "--warnings", "-l", TOP / "docs" / "pstim.1"])
    tests.is_true("the man page", ran.status == 0 and not ran.errors and b"EXIT STATUS" in ran.out, ran.errors.decode())


def package(tests):
    """The package is unpacked and what is in it runs from there; it is made the same twice."""
    first, again, room = tests.folder / "pstim.deb", tests.folder / "again.deb", tests.folder / "unpacked"
    tests.ends_well("the package", [TOOLS / "package", "--program", tests.program, first])
    tests.ends_well("the package again", [TOOLS / "package", "--program", tests.program, again])
    tests.is_true("it is the same twice", first.read_bytes() == again.read_bytes())
    tests.ends_well("dpkg -x", ["dpkg", "-x", first, room])
    tests.is_true("dpkg -I", b"Package: pstim" in run(["dpkg", "-I", first]).out)
    work, examples = tests.folder / "work", room / "usr/share/doc/pstim/examples"
    work.mkdir()
    source = work / "dma.pss"
    shutil.copy(examples / "dma.pss", source)
    text = tests.ends_well("the program of the package", [room / "usr/bin/pstim", "run", "root=pss_top::entry", "dma.pss"], folder=work)
    (work / "dma.trace").write_bytes(text)
    tests.ends_well("its export", [room / "usr/bin/pstim-export", "--vcd", "dma.trace", "--sources", "dma.pss"], folder=work)
    tests.ends_well("its timeline", [room / "usr/bin/pstim-timeline", "dma.trace", "dma.html", "--sources", "dma.pss"], folder=work)
    tests.ends_well("its coverage", [room / "usr/bin/pstim-coverage", "root=pss_top::entry", "--seeds", "1..3", "dma.pss"], folder=work)
    tests.ends_well("its sarif", [room / "usr/bin/pstim-sarif", "dma.trace"], folder=work)
    tests.ends_well("its farm", [room / "usr/bin/pstim-farm", "--by", "local", "sweep", "root=pss_top::entry", "count=3", "dma.pss"], folder=work)
    (work / "dma.static").write_bytes(run([room / "usr/bin/pstim", "static", "root=pss_top::entry", "dma.pss"], work).out)
    tests.ends_well("its test in C", [room / "usr/bin/pstim-c-test", "dma.static", "dma.pss"], folder=work)
    tests.is_true("nothing is left behind", not [path for path in room.rglob("__pycache__")])
    page = run(["man", "-l", room / "usr/share/man/man1/pstim.1.gz"])
    tests.is_true("its man page", page.status == 0 and b"pstim" in page.out, page.errors.decode())
    modes = {path.name: os.stat(path).st_mode & 0o777 for path in (room / "usr/bin").iterdir()}
    tests.is_true("its programs may be run", all(mode == 0o755 for mode in modes.values()), str(modes))


def job(tests):
    """The job for CI, with the programs of the package, on an intent that runs, one that traps, and one that is refused."""
    room, script = tests.folder / "unpacked", TOP / "examples" / "ci" / "job.sh"
    paths = {"PATH": f"{room}/usr/bin:{os.environ['PATH']}", "LANES": "2"}
    log = {"LOG": str(tests.folder / "dma.log"), "TABLE": str(TOP / "examples" / "ci" / "device.table")}

    def tried(name, words, more):
        kept = tests.folder / f"kept-{name}"
        given = [f"{key}={value}" for key, value in {**paths, **more, "KEPT": kept}.items()]
        return run(["env", *given, "sh", script, *words], TOP), sorted(path.name for path in kept.iterdir())

    ran, kept = tried("dma", ["pss_top::entry", 3, "examples/dma.pss"], log)
    tests.is_true("a job that is right", ran.status == 0 and b"log: check whole" in ran.out, (ran.out + ran.errors).decode())
    tests.is_same("what it keeps", kept, ["coverage.html", "coverage.xml", "log.sarif", "log.trace", "scenario"])
    ran, kept = tried("bodies", ["pss_top::entry", 1, "examples/bodies.pss"], {})
    tests.is_true("a job that traps", ran.status == 1 and b"seed 1: trap 0 1 1" in ran.out, (ran.out + ran.errors).decode())
    tests.is_true("it keeps the trace, its page and its result", {"seed-1.trace", "seed-1.trace.html", "seed-1.trace.sarif"} <= set(kept), str(kept))
    (tests.folder / "refused.pss").write_text("component pss_top { pool b p; }\n")
    ran, kept = tried("refused", ["pss_top::entry", 9, tests.folder / "refused.pss"], {})
    tests.is_true("a job of sources that are refused", ran.status == 1 and ran.out.startswith(b"refused: rule 2 "), (ran.out + ran.errors).decode())


def run_all(tests):
    sarif(tests)
    from_log(tests)
    completions(tests)
    manual(tests)
    package(tests)
    job(tests)
