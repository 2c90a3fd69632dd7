"""Tests of tools/coverage: what it counts is counted again from the texts of `solve`, by other means."""
import re
import xml.etree.ElementTree as tree

from .shared import TOOLS, TOP, run

COVERAGE = TOOLS / "coverage"


def solved(tests, name, words, seeds):
    """The texts of `solve` of an example."""
    line = [tests.program, "solve", "root=pss_top::entry", *words, f"examples/{name}.pss"]
    return [run([*line[:3], f"seed={seed}", *line[3:]], TOP).out.decode() for seed in seeds]


def of_values(tests):
    """The bins of a range of 49 values."""
    words = [COVERAGE, "root=pss_top::entry", "--program", tests.program, "--seeds", "1..12", "examples/dma.pss"]
    xml, page = tests.folder / "coverage.xml", tests.folder / "coverage.html"
    text = tests.ends_well("coverage of dma", [*words, "--xml", xml, "--html", page], folder=TOP).decode()
    sizes = [int(it) for found in solved(tests, "dma", [], range(1, 13)) for it in re.findall(r"block\.size=(\d+)", found)]
    hit = {next(at for at in range(16) if 16 + 49 * at // 16 <= size < 16 + 49 * (at + 1) // 16) for size in sizes}
    tests.is_true("the bins of block_b.size", f"block_b.size  {len(hit)} of 16" in text, text)
    tests.is_true("the actions of dma_c::copy_out", re.search(r"dma_c::copy_out +atomic +24 +0 +12\n", text), text)
    root = tree.parse(xml).getroot()
    lines = {it.get("number"): it for it in root.iter("line")}
    tests.is_same("the branches of the field's line", lines["4"].get("condition-coverage").split(" ")[1], f"({len(hit)}/16)")
    tests.is_same("the hits of the line of the activity", lines["29"].get("hits"), str(24 + 12))
    tests.is_same("the file of the class", root.find(".//class").get("filename"), "examples/dma.pss")
    owed = {"line-rate", "branch-rate", "lines-covered", "lines-valid", "branches-covered", "branches-valid", "complexity", "version", "timestamp"}
    tests.is_same("the attributes of Cobertura", set(root.attrib), owed)
    tests.is_true("the page has the bins", page.read_text().count("<span") >= 16)
    again = run([*words, "--jobs", "1"], TOP).out.decode()
    tests.is_same("one job and many count the same", again, text)


def of_states(tests):
    """Transitions, and what is never seen."""
    words = [COVERAGE, "root=pss_top::entry", "infer=2", "--program", tests.program, "--seeds", "1..3", "examples/power.pss"]
    text = tests.ends_well("coverage of power", words, folder=TOP).decode()
    tests.is_true("transitions of power", re.search(r"OFF +\. +3 +\.\n +IDLE +\. +\. +3\n +BUSY +\. +\. +\.\n", text), text)
    source = tests.folder / "never.pss"
    source.write_text(
        "enum e { A, B = 7, C } component pss_top { action never { } action once { rand e in [B..C] kind; rand bool last; }\n"
        "action entry { activity { select { do once with { kind == B; last == 1; }\ndo never; } } constraint 1 == 1; } }\n"
    )
    text = tests.folder / "never.trace"
    text.write_text("pst 2\nscenario 1 0\ncompound pss_top pss_top::entry\naction 0 pss_top pss_top::once leaf kind=7 last=1\nsolved 1\n")
    pair = "pss_top::once.kind,pss_top::once.last"
    told = tests.ends_well("coverage of a text", [COVERAGE, source, "--pair", pair, "--texts", text]).decode()
    for line in ["pss_top::never +atomic +0 +0 +0 +never seen", "pss_top::once.kind +1 of 2 +50 % +C", "never.pss:3:1 +never taken", "1 of 4 +25 %"]:
        tests.is_true(f"the table has '{line}'", re.search(line, told), told)
    tests.is_same("too little is status 1", run([COVERAGE, source, "--least", "90", "--texts", text]).status, 1)
    tests.is_same("wrong words are status 2", run([COVERAGE, source]).status, 2)
    tests.is_same("no field is status 1", run([COVERAGE, source, "--pair", "pss_top::once.x,pss_top::once.last", "--texts", text]).status, 1)


def run_all(tests):
    of_values(tests)
    of_states(tests)
    large = run([COVERAGE, tests.large_source, "--texts", tests.large])
    tests.is_true("coverage of the large trace", large.status == 0 and re.search(rb"pss_top::copy_in +atomic +8192 ", large.out), large.errors.decode())
