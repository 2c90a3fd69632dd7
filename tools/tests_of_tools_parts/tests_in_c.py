"""Tests of tools/c_test: files are built with all warnings as errors, and what they print is a whole trace for `check`, run after
run; bodies call what the program's own bodies would, or are refused where those trap."""
import re
from concurrent.futures import ThreadPoolExecutor

from .shared import TOOLS, TOP, run

C_TEST = TOOLS / "c_test"
BUILT = ["-std=c11", "-pthread", "-Wall", "-Wextra", "-Werror"]
TURNS = 200
# buffers and locks; buffers, states and locks; streams, states and locks; buffers, locks and answers that nobody needs
EXAMPLES = {"dma": 2, "soc": 4, "cache": 4, "memory_map": 4}
PROTOTYPE = re.compile(r"^(\w+) \w+\((.*)\);$", re.M)
OWN = """#define _POSIX_C_SOURCE 200809L
#include <stdatomic.h>
#include <stdbool.h>
#include <stdint.h>
#include <stdlib.h>
#include <time.h>

static void dawdle(void)
{
  static atomic_uint calls;
  unsigned int turn = (unsigned int)atoi(getenv("TURN"));
  struct timespec time = {0, ((calls++ + 7 * turn) * 2654435761u >> 16) % 300 * 1000};
  nanosleep(&time, NULL);
}
"""
TRIO = """stream tone_s { rand bit[3] pitch; }
import target function void play(bit[3] first, bit[3] second);
import target function void hear(bit[3] pitch);
component pss_top {
  pool tone_s left; pool tone_s right;
  bind left { band.left, first.tone }; bind right { band.right, second.tone };
  action band { output tone_s left; output tone_s right; exec body { play(left.pitch, right.pitch); } }
  action first { input tone_s tone; exec body { hear(tone.pitch); } }
  action second { input tone_s tone; exec body { hear(tone.pitch); } }
  action entry { activity { repeat (3) { parallel { do band; do first; do second; } } } }
}
"""
NAMES = """enum kind_e { LOW = 3, HIGH = 200 }
import target function void write(int printf, bit[63] register, bool stderr);
import target function bit[4] log(int[2] main);
import target function int lane_0();
component part_c {
  import target function void send(int x);
  action part { exec body { send(-5); } }
}
component pss_top {
  import target function void send(bit[9] x);
  part_c part;
  action entry { activity { do step; do part_c::part; } }
  action step { rand kind_e in [HIGH] kind; exec body { write(-2147483648, 0x7FFFFFFFFFFFFFFF, true); log(-2); int x = lane_0(); send(kind + LOW); } }
}
"""
WIDE = """enum mode_e { OFF, ON = 6 }
buffer block_b { rand bit[8] in [9] size[2]; }
state power_s { rand mode_e mode; constraint initial -> mode == OFF; }
resource port_r { rand bit[4] in [11] rank; }
import target function void put(int value);
import target function void small(bit[4] value);
import target function int get();
component pss_top {
  pool block_b blocks; bind blocks *; pool power_s power; bind power *; pool port_r ports; bind ports *;
  action make { output block_b block; }
  action turn { input power_s old; output power_s new; constraint new.mode == ON; }
  action work { input block_b block; input power_s now; lock port_r port; rand bit[4] in [5] n; rand bit[4] in [2] a[3]; BODY }
  action entry { activity { do make; do turn; do work with { now.initial == 0; }; } }
}
"""
# Bodies, and what each calls; a number is the kind by which it traps, and None says that it needs an answer.
BODIES = {
    "put(n); put(block.size[1] + a[n - 4]); put(port.instance_id); put(port.rank); put(now.mode);": ["put 5", "put 11", "put 0", "put 11", "put 6"],
    "put(now.initial); put(old_is()); ": "syntax",
    "repeat (i : n - 2) { int k = i * i; repeat (j : 2) put(k + j * 10); }": [f"put {i * i + j * 10}" for i in range(3) for j in range(2)],
    "int x; if (n > 4 && ON == 6) { x = 7; bit[3] y = x; put(y); } else put(1); put(x); x = -x / 2; put(x); put(x % 2); put(-7 >> 1);": ["put 7", "put 7", "put -3", "put -1", "put -4"],
    "int n = 3; { int n = 4; put(n); } put(n); repeat (n : 2) put(n);": ["put 4", "put 3", "put 0", "put 1"],
    "if (n in [1..3, 5] || 1 / 0) put(1); if (n == 5 && !(a[0] == 2)) put(2); else { put(3); ; }": ["put 1", "put 3"],
    "int x = get(); x = 4; put(x); get();": ["get", "put 4", "get"],
    "int x = get(); put(x);": None,
    "int x = get(); if (x == 0) put(1);": None,
    "int x = get(); repeat (x) put(1);": None,
    "bit[4] x = get();": None,
    "put(1); small(n + 11);": 2,
    "bit[2] x = n;": 2,
    "put(1 / (n - 5));": 1,
    "put(a[n]);": 1,
    "repeat (0 - n) put(1);": 1,
    "repeat (i : 400) { int x = i; }": [],
    "repeat (i : 499) put(i);": [f"put {i}" for i in range(499)],
    "repeat (i : 500) put(i);": 3,
    "repeat (i : 1000) { }": 3,
    "repeat (i : 999) { }": [],
}


class Case:
    """A source whose programs become a test."""

    def __init__(self, tests, name, source, lanes, words=()):
        self.tests, self.name, self.source = tests, name, source
        self.words = ["root=pss_top::entry", *words, source]
        self.static, self.file = tests.folder / f"{name}.static", tests.folder / f"{name}.c"
        self.static.write_bytes(run([tests.program, "static", f"over={lanes}", *self.words], TOP).out)

    def written(self):
        self.tests.ends_well(f"c_test of {self.name}", [C_TEST, self.static, self.source, "--output", self.file], folder=TOP)
        return self.file.read_text()

    def built(self, compiler="cc", more=(), end="run"):
        """The program that a compiler makes of the file."""
        made = self.file.with_suffix(f".{end}")
        self.tests.ends_well(f"{compiler} builds {self.name}.c", [compiler, *BUILT, "-o", made, self.file, *more])
        return made

    def own(self):
        """The same with functions that take a while, now less and now more."""
        path = self.file.with_suffix(".own.c")
        functions = [
            line[:-1] + " { " + "".join(f"(void){it.split()[-1]}; " for it in given.split(", ") if given != "void")
            + "dawdle(); " + ("" if answer == "void" else "return 0; ") + "}\n"
            for line, answer, given in [(found[0], *found.groups()) for found in PROTOTYPE.finditer(self.file.read_text())]
        ]  # fmt: skip
        path.write_text(OWN + "\n".join(functions))
        return self.built("cc", ["-DOWN_FUNCTIONS", path], "own")

    def judged(self, program, turns):
        """Runs it many times; each trace that comes is a whole one. What it prints besides, the first time."""
        with ThreadPoolExecutor(4) as pool:
            came = list(pool.map(lambda turn: run(["env", f"TURN={turn}", program]), range(turns)))
        self.tests.is_true(f"each run of {self.name} ends well", all(ran.status == 0 for ran in came))
        trace = self.file.with_suffix(".trace")
        for text in {ran.out for ran in came}:
            trace.write_bytes(text)
            said = run([self.tests.program, "check", f"trace={trace}", *self.words], TOP).out
            self.tests.is_same(f"check of a run of {self.name}", said, b"check whole\n")
        return came[0].errors.decode().splitlines(), len({ran.out for ran in came})


def of_examples(tests):
    """Each example many times, as it comes and with functions that take a while."""
    for name, lanes in EXAMPLES.items():
        case = Case(tests, f"c-{name}", f"examples/{name}.pss", lanes)
        text = case.written()
        tests.is_same(f"the lanes of {name}", len(re.findall(r"^static void \*lane_\d+\(", text, re.M)), lanes)
        calls, _ = case.judged(case.built(), TURNS // 2)
        tests.is_true(f"the bodies of {name} call", len(calls) == len(re.findall(r"^  (?:\(void\))?\w+\(.*\d.*\);$", bodies_of(text), re.M)), str(calls))
        _, ways = case.judged(case.own(), TURNS - TURNS // 2)
        tests.is_true(f"lanes of {name} go on in several ways", ways > 1, str(ways))
        if name == "dma":
            tests.is_same("what dma calls", sorted(calls), ["start_copy 0 32", "start_copy 1 32", "start_copy 1 32"])


def bodies_of(text):
    return "".join(re.findall(r"^static void body_\d+\(void\)\n\{\n.*?^\}\n", text, re.M | re.S))


def of_groups(tests):
    """Three actions that start together, over three lanes and over more than are needed."""
    source = tests.folder / "trio.pss"
    source.write_text(TRIO)
    for lanes in (3, 5):
        case = Case(tests, f"trio-{lanes}", source, lanes)
        case.written()
        calls, _ = case.judged(case.built(), 20)
        tests.is_same("calls of groups", len(calls), 9)


def of_names(tests):
    """Names that C or the file has, and values at their limits; by a second compiler, too, where it is there."""
    source = tests.folder / "names.pss"
    source.write_text(NAMES)
    case = Case(tests, "names", source, 1)
    text = case.written()
    calls, _ = case.judged(case.built(), 2)
    owed = ["write -2147483648 9223372036854775807 1", "target_log -2", "target_lane_0", "pss_top_send 203", "part_c_send -5"]
    tests.is_same("calls with such names", calls, owed)
    tests.is_true("an answer is judged", "judge_answer(target_log(-2), 0, 15);" in text)
    found = run(["clang", *BUILT, "-Wpedantic", "-o", tests.folder / "names.clang", case.file]) if run(["which", "clang"]).status == 0 else None
    tests.is_true("clang builds it, too", found is None or found.status == 0, found and found.errors.decode())


def of_bodies(tests):
    """Each body calls what is owed; where it is refused for a trap the program's own run traps in the same way."""
    source = tests.folder / "wide.pss"
    for body, owed in BODIES.items():
        source.write_text(WIDE.replace("BODY", f"exec body {{ {body} }}"))
        case = Case(tests, "wide", source, 1)
        ran = run([C_TEST, case.static, source])
        last = run([tests.program, "run", *case.words]).out.decode().splitlines()[-1]
        if owed == "syntax":
            tests.is_true(f"the program refuses '{body}'", last.startswith("syntax ") and ran.status == 1, last)
            continue
        if isinstance(owed, list):
            found = [f"{name} {values}".strip() for name, values in re.findall(r"^  (?:\(void\))?(\w+)\((.*)\);$", bodies_of(ran.out.decode()), re.M)]
            tests.is_same(f"'{body}' calls", (found, last), (owed, "done 3"))
            continue
        said = ran.errors.decode()
        where = f"c_test: {source}:12:"
        told = "needs the answer of get: " if owed is None else f"traps by kind {owed}: "
        tests.is_true(f"'{body}' is refused", ran.status == 1 and said.startswith(where) and told in said and said.count("\n") == 1, said)
        tests.is_true(f"the program says the same of '{body}'", owed is None or re.fullmatch(rf"trap 0 \d {owed}", last), last)


def of_refusals(tests):
    """Texts that aren't those of `static`, and sources that aren't those of the text."""
    case = Case(tests, "refused", "examples/dma.pss", 2)
    text = case.static.read_text()
    wrong = [
        ("run 0\n", "run 1\n", "line 13 runs action 1 a second time"),
        ("signal 2\n", "", "line 13 isn't the number of all instructions"),
        ("signal 2\n", "signal 1\n", "line 14 comes, and no lane tells of action 2, which one awaits"),
        ("lane 1\n", "lane 2\n", "line 11 isn't the next lane"),
        ("await 2\n", "await 9\n", "line 12 is no instruction of a lane"),
        ("action 0", "action x", "line 4 is no action line"),
        ("static 5\n", "", "line 13 isn't the number of all instructions"),
    ]
    for there, put, said in wrong:
        ran = run([C_TEST, "-", "examples/dma.pss"], TOP, given=text.replace(there, put).encode())
        tests.is_same(f"a text with '{put.strip()}' for '{there.strip()}'", (ran.status, ran.errors.decode()), (1, f"c_test: -: {said}\n"))
    ran = run([C_TEST, case.static, "examples/soc.pss"], TOP)
    tests.is_true("other sources", ran.status == 1 and b"which the sources don't have" in ran.errors, ran.errors.decode())
    bodies = Case(tests, "answers", "examples/bodies.pss", 1)
    ran = run([C_TEST, bodies.static, bodies.source], TOP)
    owed = "c_test: examples/bodies.pss:15:7: the body of action 1 needs the answer of read_status: it is in status\n"
    tests.is_same("an answer that is needed", (ran.status, ran.errors.decode()), (1, owed))
    tests.is_same("wrong words", run([C_TEST, case.static]).status, 2)


def run_all(tests):
    of_refusals(tests)
    of_bodies(tests)
    if tests.has("cc"):
        of_groups(tests)
        of_names(tests)
        of_examples(tests)
