"""What must hold of the program's answers, whatever the sources are."""
import collections
import re
import resource
import signal
import subprocess

from . import answers
from .changed import exchange, exchanged
from .programs import Machine, groups_of, read_programs

# The processor time that one call may take, in seconds. A budget is spent long before.
LATE = 5
LARGEST = 4194304


class Late(Exception):
    """A call that didn't end in time."""


class Wrong(Exception):
    """Something that must hold and doesn't."""


def must(held, why):
    if not held:
        raise Wrong(why)


class Answer:
    """What a call printed, and its status."""

    def __init__(self, text, status):
        self.text, self.status = text, status
        self.lines = text.split("\n")[:-1]

    def is_scenario(self):
        return self.text.startswith("pst 2\n")

    def is_same(self, other):
        return (self.text, self.status) == (other.text, other.status)


class Case:
    """Sources in a folder, the words that they are asked with, and the checks."""

    def __init__(self, program, folder, files, root, choices):
        self.program, self.folder, self.files, self.root, self.choices = program, folder, files, root, choices
        self.keys = {
            "seed": choices.choice([1, 1, choices.randrange(100), choices.randrange(2**64)]),
            "infer": choices.choice([0, 1, 2, 2, 3]),
            "budget": choices.choice([1, 20, 60, 60, 200, 200, 800]),
        }
        self.words = []
        write(folder, files)

    def ask(self, command, folder=None, root=None, **more):
        """Calls the program, and looks at the form of what it answers."""
        keys = {**self.keys, **more}
        self.words = [command, root or self.root, *[f"{key}={value}" for key, value in keys.items() if value is not None], *self.files]
        status, out, errors = called([self.program, *self.words], folder or self.folder)
        must(status >= 0, f"ended by signal {-status}: {errors[-300:]!r}")
        must(status > 0 or errors == b"", f"printed to the other output: {errors[-300:]!r}")
        must(errors == b"" or is_lines(errors.decode("utf-8", "replace")), f"no messages: {errors[-300:]!r}")
        answer = Answer(out.decode("latin-1"), status)
        must(answer.text.isascii() and is_lines(answer.text), f"no text: {answer.text[-300:]!r}")
        self.has_form(command, answer, keys)
        return answer

    def has_form(self, command, answer, keys):
        """The answer is one of the texts of docs/PROGRAM.md, with its status."""
        lines = answer.lines
        if not answer.is_scenario():
            if command == "sweep" and lines[0].startswith("sweep "):
                why = answers.rows_of(lines, keys["first"], keys["count"])
                return must(why is None and answer.status == 0, why or f"status {answer.status}")
            return must(len(lines) == 1 and answers.refusal_of(lines[0], answer.status, command, self.files), f"no answer: status {answer.status}, {lines[:2]}")
        read = answers.read_header(lines)
        must(isinstance(read, answers.Scenario), read)
        must(re.fullmatch(f"(?:{answers.LAST[command]}) .*", lines[-1]), f"the last line is {lines[-1]}")
        must(answer.status == (5 if lines[-1].startswith(("fault", "trap")) else 0), f"status {answer.status} with {lines[-1]}")
        must(lines[-1] == f"solved {read.count}" and len(lines) == len(read.lines) + 1 if command == "solve" else True, f"the last line is {lines[-1]}")
        return None

    def judge(self):
        """All checks, the cheapest first."""
        first = self.ask("solve")
        must(first.is_same(self.ask("solve")), "another answer at the second call")
        self.same_with_names_exchanged(first)
        if not first.is_scenario():
            self.others_refuse(first)
        if first.status in (0, 3, 4):
            self.more_budget(first)
            self.more_inferred(first)
            self.rows_agree(first)
        if first.is_scenario():
            scenario = answers.read_header(first.lines)
            trace = self.runs(scenario)
            self.programs(scenario, trace)
            self.places(scenario)
        return first.text.split(" ")[0] if not first.is_scenario() else "solved"

    def same_with_names_exchanged(self, first):
        """Names exchanged for others give the text with these names."""
        table = exchange(list(self.files.values()), self.choices)
        folder = self.folder / "exchanged"
        folder.mkdir()
        write(folder, {name: exchanged(text, table) for name, text in self.files.items()})
        other = self.ask("solve", folder, exchanged(self.root.encode(), table).decode())
        owed = exchanged(first.text.encode(), table).decode()
        must(other.text == owed and other.status == first.status, f"with names exchanged: {differing(other.text, owed)}")

    def others_refuse(self, first):
        """Each command refuses what `solve` refuses."""
        trace = self.kept_trace("pst 2\nscenario 0 0\ndone 0\n")
        lanes = self.choices.choice([1, 4])
        for command, more in (("run", {"lanes": lanes}), ("place", {"space": 100}), ("static", {"over": 2}), ("check", {"trace": trace})):
            if first.status != 4 or command == "run":
                other = self.ask(command, **more)
                must(other.is_same(first), f"{command} answers {other.lines[0]}, solve {first.lines[0]}")
        if first.status in (1, 9):
            other = self.ask("sweep", seed=None, first=1, count=2)
            must(other.is_same(first), f"sweep answers {other.lines[0]}, solve {first.lines[0]}")

    def more_budget(self, first):
        """More budget never changes a scenario, nor that there is none."""
        for budget in (self.keys["budget"] * self.choices.choice([2, 7]), max(1, self.keys["budget"] // 3)):
            other = self.ask("solve", budget=budget)
            if (first if budget > self.keys["budget"] else other).status != 4:
                must(other.is_same(first), f"another answer with the budget {budget}: {differing(other.text, first.text)}")
            elif budget < self.keys["budget"] and first.status == 4:
                must(other.lines[0] <= first.lines[0], f"{other.lines[0]} with less budget than {first.lines[0]}")

    def more_inferred(self, first):
        """One more that may be inferred changes no scenario, and `noscenario` only to what infers just as many."""
        infer = self.keys["infer"]
        other = self.ask("solve", infer=infer + 1)
        if first.status == 3:
            count = answers.read_header(other.lines).inferred if other.is_scenario() else int(other.lines[0].split()[1])
            must(first.lines[0] == f"noscenario {infer}" and count == infer + 1, f"{other.lines[:2]} where one more may be inferred than in {first.lines[0]}")
        else:
            must(other.is_same(first), f"another answer where one more may be inferred: {differing(other.text, first.text)}")
        level = int(first.lines[0].split()[1]) if first.status == 4 else answers.read_header(first.lines).inferred if first.is_scenario() else 0
        if level > 0:
            other = self.ask("solve", infer=level - 1)
            must(other.lines == [f"noscenario {level - 1}"], f"{other.lines[:2]} where only {level - 1} may be inferred")

    def rows_agree(self, first):
        """The rows of a sweep are those of `solve` of each seed, and so are the uses."""
        begin = min(self.keys["seed"], 2**64 - 2)
        seeds = range(begin, begin + 2)
        swept = self.ask("sweep", seed=None, first=begin, count=len(seeds))
        must(swept.lines[0] == "sweep 2", f"sweep answers {swept.lines[0]}, solve {first.lines[0]}")
        used = collections.Counter()
        for at, seed in enumerate(seeds):
            alone = first if seed == self.keys["seed"] else self.ask("solve", seed=seed)
            row = f"seed {seed} {alone.lines[0].split()[0] if alone.status == 3 else alone.lines[0]}"
            if alone.is_scenario():
                row = f"seed {seed} found {alone.lines[1].split()[1]} {alone.lines[1].split()[2]}"
                used.update(line.split()[3] for line in alone.lines if line.startswith("action "))
            must(swept.lines[at + 1] == row, f"the row {swept.lines[at + 1]} where solve has {row}")
        came = dict(line.split()[1:] for line in swept.lines[1 + len(seeds) : -1])
        must(came == {name: str(count) for name, count in used.items()}, f"the uses {came} where solve has {dict(used)}")

    def runs(self, scenario):
        """Runs on one lane and on several; the lines of a whole run, or nothing."""
        whole = None
        for lanes in (1, self.choices.choice([2, 3, 4]), 16):
            ran = self.ask("run", lanes=lanes)
            if not ran.is_scenario():
                must(lanes < 16 and ran.lines[0].split()[2] == str(lanes) and lanes < int(ran.lines[0].split()[1]) <= 16, f"{ran.lines[0]} of {lanes} lanes")
                continue
            header = len(scenario.lines)
            must(ran.lines[:header] == scenario.lines, f"run on {lanes} lanes has another header: {differing(ran.text, chr(10).join(scenario.lines))}")
            why = answers.blocks_of(ran.lines[header:-1], scenario.count, ran.lines[-1])
            must(why is None, f"run on {lanes} lanes: {why}")
            must(not any(int(lane) >= lanes for lane in re.findall(r":(\d+)", "\n".join(ran.lines[header:-1]))), f"run on {lanes} lanes takes another")
            if lanes == 1:
                must(ran.is_same(self.ask("run", lanes=1)), "another run on one lane at the second call")
            self.is_taken(ran.text, "whole" if ran.status == 0 else "prefix")
            whole = ran.lines if ran.status == 0 else whole
        if whole:
            self.changed_traces(scenario, whole)
        return whole

    def kept_trace(self, text):
        (self.folder / "a.trace").write_text(text)
        return "a.trace"

    def is_taken(self, text, verdict):
        """A trace is what it must be for `check`."""
        if len(text) <= LARGEST:
            said = self.ask("check", trace=self.kept_trace(text))
            must(said.lines == [f"check {verdict}"], f"check of the trace says {said.lines[0]}, not {verdict}")

    def changed_traces(self, scenario, lines):
        """A trace with something changed gets some verdict; one with another header none but at the first line that differs."""
        header, lines = len(scenario.lines), list(lines)
        at = self.choices.randrange(len(lines))
        way = self.choices.randrange(4)
        if way == 0:
            del lines[at]
        elif way == 1:
            other = self.choices.randrange(len(lines))
            lines[at], lines[other] = lines[other], lines[at]
        elif way == 2:
            lines.insert(at, self.choices.choice(lines))
        else:
            spot = self.choices.randrange(len(lines[at]))
            lines[at] = lines[at][:spot] + self.choices.choice("0123456789 :=") + lines[at][spot + 1 :]
        said = self.ask("check", trace=self.kept_trace("\n".join(lines) + "\n"))
        differs = next((line for line in range(header) if lines[line : line + 1] != scenario.lines[line : line + 1]), None)
        if said.status == 0:
            must(differs is None and answers.blocks_of(lines[header:-1], scenario.count, lines[-1]) is None, f"check takes a trace that was changed at line {at + 1}")
        elif differs is not None and said.status == 3:
            must(said.lines[0] == f"illegal {differs + 1} 1", f"{said.lines[0]} where line {differs + 1} of the header is another")

    def programs(self, scenario, trace):
        """The programs of lanes run the scenario, in whichever order the lanes go on."""
        over = self.choices.choice([1, 2, 3, 5, 16])
        made = self.ask("static", over=over)
        if not made.is_scenario():
            return must(made.lines[0].split()[2] == str(over) and int(made.lines[0].split()[1]) > over, f"{made.lines[0]} of {over} lanes")
        header = len(scenario.lines)
        must(made.lines[:header] == scenario.lines, "static has another header")
        programs = read_programs(made.lines[header:], over, scenario.count)
        must(isinstance(programs, list), programs)
        if trace:
            machine = Machine(programs, groups_of(trace))
            must(machine.run(self.choices), f"the programs of {over} lanes come to a stand")
            self.is_taken("\n".join([*scenario.lines, *machine.lines, f"done {scenario.count}"]) + "\n", "whole")
        return None

    def places(self, scenario):
        """Each ask for memory has an address in the space that fits it, or one has none."""
        space, base = self.choices.choice([64, 256, 1000, 2**20, 2**62]), self.choices.choice([0, 0, 7, 4096, 2**62])
        placed = self.ask("place", space=space, base=base)
        asks = [(number, int(values["mem_size"]), max(1, int(values.get("mem_align", 0)))) for number, values in enumerate(scenario.values) if int(values.get("mem_size", 0)) > 0]
        if not placed.is_scenario():
            return must(int(placed.lines[0].split()[1]) in [number for number, _, _ in asks], f"{placed.lines[0]}, which asks for nothing")
        header = len(scenario.lines)
        must(placed.lines[:header] == scenario.lines and placed.lines[-1] == f"placed {len(asks)}", f"place ends with {placed.lines[-1]}")
        must(len(placed.lines) == header + len(asks) + 1, "another number of places")
        for line, (number, size, align) in zip(placed.lines[header:], asks):
            found = re.fullmatch(rf"place {number} (\d+) {size}", line)
            must(found and int(found[1]) % align == 0 and base <= int(found[1]) <= base + space - size, f"wrong place: {line}")
        return None


def called(words, folder):
    """The status of a call, and what it printed to both outputs."""
    with subprocess.Popen(words, cwd=folder, stdin=subprocess.DEVNULL, stdout=subprocess.PIPE, stderr=subprocess.PIPE) as process:
        try:
            resource.prlimit(process.pid, resource.RLIMIT_CPU, (LATE, LATE))
        except ProcessLookupError:
            pass
        out, errors = process.communicate()
    if process.returncode in (-signal.SIGXCPU, -signal.SIGKILL):
        raise Late(f"no end in {LATE} s")
    return process.returncode, out, errors


def is_lines(text):
    """Whether a text has whole lines of characters that can be shown."""
    return text.endswith("\n") and text.replace("\n", "").isprintable()


def differing(came, owed):
    """The first lines that differ."""
    pairs = zip(came.split("\n") + [""] * 9, owed.split("\n") + [""])
    return next((f"line {at}: {one!r} came, {other!r} was owed" for at, (one, other) in enumerate(pairs, 1) if one != other), "the status")


def write(folder, files):
    for name, text in files.items():
        (folder / name).write_bytes(text)
