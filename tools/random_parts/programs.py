"""The machine of docs/STATIC.md: it runs the programs of lanes that `static` prints, in any order that is possible."""
import re


def read_programs(lines, lanes, count):
    """The program of each lane, as pairs of a word and an action; or what is wrong in the lines."""
    programs, runs = [], set()
    for line in lines[:-1]:
        if line == f"lane {len(programs)}":
            programs.append([])
            continue
        found = re.fullmatch(r"(run|signal|await) (\d+)", line)
        if not found or not programs or int(found[2]) >= count:
            return f"no line of a program: {line}"
        programs[-1].append((found[1], int(found[2])))
        if found[1] == "run" and int(found[2]) in runs:
            return f"run twice: {line}"
        runs |= {int(found[2])} if found[1] == "run" else set()
    whole = sum(len(it) for it in programs)
    if len(programs) != lanes or len(runs) != count or lines[-1] != f"static {whole}":
        return f"{len(programs)} lanes that run {len(runs)} actions, {lines[-1]}"
    return programs


def groups_of(lines):
    """The actions that start together, for each action, from the starts of a trace."""
    groups = {}
    for line in lines:
        if line.startswith("start "):
            members = [int(word.partition(":")[0]) for word in line.split()[1:]]
            groups.update((number, members) for number in members)
    return groups


class Machine:
    """Lanes that go on by themselves, and the lines of the trace that they make."""

    def __init__(self, programs, groups):
        self.programs, self.groups = programs, groups
        self.places, self.told, self.running, self.lines = [0] * len(programs), set(), set(), []
        self.lane_of = {number: lane for lane, program in enumerate(programs) for word, number in program if word == "run"}

    def at(self, lane):
        """The instruction at which a lane stands, or nothing at its end."""
        program, place = self.programs[lane], self.places[lane]
        return program[place] if place < len(program) else None

    def is_possible(self, lane):
        it = self.at(lane)
        if it is None or it[0] == "signal":
            return it is not None
        if it[0] == "await":
            return it[1] in self.told
        return it[1] in self.running or all(self.at(self.lane_of[other]) == ("run", other) for other in self.groups[it[1]])

    def step(self, lane):
        word, number = self.at(lane)
        if word == "run" and number not in self.running:
            members = sorted(self.groups[number])
            self.running |= set(members)
            self.lines.append("start " + " ".join(f"{other}:{self.lane_of[other]}" for other in members))
            return
        if word == "run":
            self.running.discard(number)
            self.lines.append(f"end {number}")
        elif word == "signal":
            self.told.add(number)
        self.places[lane] += 1

    def run(self, choices):
        """Whether all lanes come to their ends."""
        while any(self.at(lane) is not None for lane in range(len(self.programs))):
            ready = [lane for lane in range(len(self.programs)) if self.is_possible(lane)]
            if not ready:
                return False
            self.step(choices.choice(ready))
        return True
