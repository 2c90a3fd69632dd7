"""Tests of tools/export: every format of every example, read back by other programs, and the large trace in time and memory."""
import json

from .shared import TOOLS, TOP, measured, run

EXPORT = TOOLS / "export"
FORMATS = ["perfetto", "vcd", "json", "dot"]


def written(tests, name, kind):
    """Exports an example, with and without its sources; the name of the file with them."""
    file, plain = (tests.folder / f"{name}{part}.{kind}" for part in ("", ".plain"))
    tests.ends_well(f"export --{kind} of {name}", [EXPORT, f"--{kind}", tests.traces[name], "--output", plain])
    words = [EXPORT, f"--{kind}", tests.traces[name], "--output", file, "--sources", tests.source(name)]
    tests.ends_well(f"export --{kind} of {name} with sources", words)
    return file


def read_back_json(tests, name, validator):
    """Each record has the form of the schema, and the actions are those of the trace."""
    numbers = []
    for file in (f"{name}.json", f"{name}.plain.json"):
        for line in (tests.folder / file).read_text().splitlines():
            record = json.loads(line)
            fault = next(iter(validator.iter_errors(record)), None)
            tests.is_true(f"{file} keeps the schema", fault is None, f"{fault and fault.message}: {line[:200]}")
            numbers += [record["number"]] if record["record"] == "action" else []
    text = tests.traces[name].read_text().splitlines()
    owed = [int(line.split()[1]) for line in text if line.startswith("action ")]
    tests.is_same(f"the actions of {name}.json", numbers, owed * 2)


def read_back_waves(tests, name, file):
    """What vcd2fst makes of it, and fst2vcd of that again, has the same wires and the same changes."""
    packed = tests.folder / f"{name}.fst"
    tests.ends_well(f"vcd2fst of {name}", ["vcd2fst", file, packed])
    again = tests.ends_well(f"fst2vcd of {name}", ["fst2vcd", packed]).decode().splitlines()
    first = file.read_text().splitlines()

    def told(lines):
        return {line for line in lines[lines.index("$enddefinitions $end") :] if line[:1] in "sb#"}

    def widened(line):
        value, _, code = line.partition(" ")
        return f"b{int(value[1:], 2):b} {code}" if line.startswith("b") else line

    tests.is_same(f"the wires of {name}", len([it for it in again if it.startswith("$var")]), len([it for it in first if it.startswith("$var")]))
    tests.is_same(f"the changes of {name}", sorted(set(map(widened, told(again)))), sorted(set(map(widened, told(first)))))


def read_back_events(tests, name, file):
    """A bar for each start on the right lane with the right length, and two ends of each arrow that lie in bars."""
    events = json.loads(file.read_text())["traceEvents"]
    bars = {event["args"]["action"]: event for event in events if event["ph"] == "X" and event["pid"] == 1}
    lines = [line for line in tests.traces[name].read_text().splitlines() if line.startswith(("start", "end"))]
    for step, line in enumerate(lines):
        for word in line.split()[1:] if line.startswith("start") else []:
            number, lane = map(int, word.split(":"))
            bar = bars.get(number, {})
            tests.is_same(f"the bar of action {number} of {name}", (bar.get("tid"), bar.get("ts")), (lane, step * 1000))
        if line.startswith("end"):
            bar = bars.get(int(line.split()[1]), {"ts": 0, "dur": 0})
            tests.is_same(f"the end in {name}: {line}", bar["ts"] + bar["dur"], (step + 1) * 1000)
    tracks = {}
    for event in sorted((it for it in events if it["ph"] == "X"), key=lambda it: it["ts"]):
        last = tracks.get((event["pid"], event["tid"]), 0)
        tests.is_true(f"bars of {name} don't overlap in a track", last <= event["ts"], str(event))
        tracks[event["pid"], event["tid"]] = event["ts"] + event["dur"]
    for event in events:
        if event["ph"] in "sf":
            inside = [it for it in bars.values() if it["tid"] == event["tid"] and it["ts"] <= event["ts"] <= it["ts"] + it["dur"]]
            tests.is_true(f"an arrow of {name} ends in a bar", inside, str(event))


def known_facts(tests):
    """What the sources add: parents, handles, enum items, pools, the order of statements."""
    lines = [json.loads(line) for line in (tests.folder / "power.json").read_text().splitlines()]
    actions = {it["number"]: it for it in lines if it["record"] == "action"}
    tests.is_same("an enum item", actions[1]["outputs"][0]["items"], {"mode": "BUSY"})
    tests.is_same("a serving pool", actions[1]["outputs"][0]["pool"], "pss_top.power")
    tests.is_same("what a state output replaces", [it["kind"] for it in actions[1]["links"]], ["state", "previous"])
    lines = [json.loads(line) for line in (tests.folder / "binds.json").read_text().splitlines()]
    actions = {it["number"]: it for it in lines if it["record"] == "action"}
    tests.is_same("handles", [actions[number]["handle"] for number in range(4)], ["p", "c", "p", "c"])
    tests.is_same("parents", [actions[number]["parent"] for number in range(4)], [1, 1, 2, 2])
    lines = [json.loads(line) for line in (tests.folder / "device.json").read_text().splitlines()]
    kinds = {it["kind"] for record in lines if record["record"] == "action" for it in record["links"]}
    tests.is_same("the kinds of links of device", kinds, {"buffer", "stream", "state", "previous"})
    claims = {(it["pool"], it["lock"]) for record in lines if record["record"] == "action" for it in record["claims"]}
    tests.is_true("the pools of device", {("pss_top.buses", True), ("pss_top.buses", False)} <= claims, str(claims))
    graph = (tests.folder / "joins.dot").read_text()
    tests.is_true("what is joined comes before", "a0 -> a3" in graph and "a1 -> a2" in graph and "a2 -> a3" not in graph)
    waves = (tests.folder / "power.vcd").read_text()
    tests.is_true("a state's field changes at its writer's end", '#2\ns1:start !\nsIDLE "' in waves)


def refusals(tests):
    """A text that can't be read is refused with its first bad line."""
    good = tests.traces["dma"].read_bytes()
    bad = [
        (good.replace(b"pst 2", b"pst 3"), "line 1 "),
        (good.replace(b"channel[1]", b"channel(1)", 1), "line 5 "),
        (good.replace(b"end 2\n", b"end 7\n"), "line 8 "),
        (good + b"end 1\n", "line 14 "),
        (good[:-1], "line 13 "),
        (good.replace(b"start 0:", b"start 2:"), "line 9 starts action 2 a second time"),
        (good.replace(b"end 2\n", b"end 0\n"), "line 8 ends action 0, which doesn't run"),
    ]
    for text, owed in bad:
        ran = run([EXPORT, "--json", "-"], given=text)
        tests.is_true(f"a bad text is refused with {owed}", ran.status == 1 and owed.encode() in ran.errors, ran.errors.decode())
    old = good.replace(b"pst 2", b"pst 1")
    tests.ends_well("a text of format 1", [EXPORT, "--vcd", "-", "--sources", tests.source("dma")], given=old)
    for name in ("locks", "streams"):
        solved = "\n".join((TOP / "examples" / f"{name}.out").read_text().splitlines()[1:-1]) + "\n"
        tests.ends_well(f"a scenario of {name}", [EXPORT, "--dot", "-", "--sources", tests.source(name)], given=solved.encode())


def in_time(tests):
    """The large trace, with its sources, below 2 s of processor time and 200 MB."""
    for kind in FORMATS:
        ran = measured([EXPORT, f"--{kind}", tests.large, "--sources", tests.large_source, "--output", tests.folder / f"large.{kind}"])
        tests.is_same(f"export --{kind} of the large trace", ran.status, 0)
        tests.is_true(f"export --{kind} in time", ran.seconds < 2, f"{ran.seconds:.2f} s")
        tests.is_true(f"export --{kind} in memory", ran.memory < 200, f"{ran.memory:.0f} MB")
    tests.is_same("the large graph is read", run(["nop", "-p", tests.folder / "large.dot"]).status, 0)
    tests.is_same("the large dump is read", run(["vcd2fst", tests.folder / "large.vcd", tests.folder / "large.fst"]).status, 0)
    tests.is_true("the large events are read", json.loads((tests.folder / "large.perfetto").read_text()))


def run_all(tests):
    validator = tests.validator(TOP / "docs" / "trace.schema.json")
    if not tests.has("dot", "nop", "vcd2fst", "fst2vcd") or validator is None:
        return
    for name in tests.traces:
        files = {kind: written(tests, name, kind) for kind in FORMATS}
        read_back_json(tests, name, validator)
        read_back_waves(tests, name, files["vcd"])
        read_back_events(tests, name, files["perfetto"])
        drawn = run(["dot", "-Tsvg", files["dot"], "-o", tests.folder / f"{name}.dot.svg"])
        tests.is_true(f"dot draws {name}", drawn.status == 0 and not drawn.errors, drawn.errors.decode())
    known_facts(tests)
    refusals(tests)
    in_time(tests)
