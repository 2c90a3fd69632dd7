"""The text that `static` prints: a header, and a program for each lane."""
from reading_parts.order import kinds_of_links
from reading_parts.trace import LANES, BadLine, is_small, read

WORDS = ("run", "signal", "await")


class Programs:
    """The header as a trace, its lines, and for each lane its instructions: pairs of a word and an action."""

    def __init__(self, header, trace):
        self.header, self.trace, self.lanes = header, trace, []

    def actions_of(self, word):
        """The actions that an instruction of some lane names, each with its lane; the last where several lanes name one."""
        return {action: number for number, lane in enumerate(self.lanes) for it, action in lane if it == word}

    def take(self, line, number):
        """Takes a line behind the header."""
        word, _, value = line.partition(" ")
        if not is_small(value):
            raise BadLine(number)
        if word == "lane":
            if int(value) != len(self.lanes) or int(value) >= LANES:
                raise BadLine(number, "isn't the next lane")
            self.lanes.append([])
        elif word not in WORDS or not self.lanes or int(value) not in self.trace.actions:
            raise BadLine(number, "is no instruction of a lane")
        elif word == "run" and int(value) in self.actions_of("run"):
            raise BadLine(number, f"runs action {value} a second time")
        else:
            self.lanes[-1].append((word, int(value)))

    def judge(self, number):
        """Each action is run, and what is awaited is told."""
        run, told = self.actions_of("run"), self.actions_of("signal")
        for action in self.trace.actions:
            if action not in run:
                raise BadLine(number, f"comes, and no lane runs action {action}")
        for action in self.actions_of("await"):
            if action not in told:
                raise BadLine(number, f"comes, and no lane tells of action {action}, which one awaits")


def read_programs(text):
    """The programs whose text this is, in bytes. Raises BadLine at the first line that can't be read."""
    lines = text.decode("ascii", "replace").split("\n")
    first = next((at for at, line in enumerate(lines) if line.startswith("lane ")), None)
    if first is None or lines[-1] or len(lines) < 3:
        raise BadLine(len(lines), "comes too early for the text of `static`")
    count = sum(line.startswith("action ") for line in lines[:first])
    header = [*lines[:first], f"solved {count}", ""]
    programs = Programs(lines[:first], read("\n".join(header).encode()))
    for number, line in enumerate(lines[first:-2], first + 1):
        programs.take(line, number)
    if lines[-2] != f"static {sum(map(len, programs.lanes))}":
        raise BadLine(len(lines) - 1, "isn't the number of all instructions")
    programs.judge(len(lines) - 1)
    return programs


def groups_of(programs, model):
    """The actions that start together with each action, in ascending order: streams join them."""
    trace = programs.trace
    group = {number: [number] for number in trace.actions}
    for (number, reference), kind in kinds_of_links(trace, model, {}).items():
        source = trace.actions[number].links[reference]
        if kind == "stream" and source and group[number] is not group[source[0]]:
            joined = sorted(group[number] + group[source[0]])
            group.update(dict.fromkeys(joined, joined))
    return group
