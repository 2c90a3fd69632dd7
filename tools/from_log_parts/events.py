"""The blocks of a trace, gathered from what a log says."""

LANES = 16


class BadLog(Exception):
    """A line of the log that can't be used, or an end that no trace has."""


class Events:
    """The starts and ends so far. Starts wait in `waiting` until an end comes, so that linked ones become one block."""

    def __init__(self, trace):
        self.trace, self.blocks, self.waiting, self.running = trace, [], [], {}
        self.started, self.ended, self.last = set(), set(), None
        self.by_type = {}
        for number in sorted(trace.actions):
            action = trace.actions[number]
            self.by_type.setdefault(action.type, []).append(number)
            self.by_type.setdefault(action.short(), []).append(number)

    def take(self, word, groups, line):
        """Takes what a line of the log says."""
        if self.last:
            return
        number = self.number(word, groups, line)
        if number not in self.trace.actions:
            raise BadLog(f"line {line} names action {number}, which the scenario hasn't")
        if word == "start":
            self.start(number, groups, line)
        elif word == "end":
            self.flush()
            self.running.pop(number, None)
            self.ended.add(number)
            self.blocks.append(f"end {number}")
        else:
            self.flush()
            lane = self.lane(groups, line) if groups.get("lane") else self.running.get(number, 0)
            what = groups.get("call" if word == "fault" else "kind") or "1"
            self.last = f"{word} {lane} {number} {int(what, 0)}"

    def number(self, word, groups, line):
        """The action that a line names, by number or by type."""
        if groups.get("action"):
            try:
                return int(groups["action"], 0)
            except ValueError:
                return int(groups["action"], 10) if groups["action"].isdigit() else self.refuse(line, f"'{groups['action']}' is no number")
        if not groups.get("type"):
            return self.refuse(line, "neither an action nor a type is named")
        of_type = self.by_type.get(groups["type"], [])
        if word == "start":
            found = [it for it in of_type if it not in self.started]
        else:
            found = [it for it in self.running if it in of_type]
        return found[0] if found else self.refuse(line, f"no action of type {groups['type']} can {word}")

    def refuse(self, line, why):
        raise BadLog(f"line {line}: {why}")

    def lane(self, groups, line):
        lane = int(groups["lane"], 0) if groups["lane"].isdigit() else LANES
        return lane if lane < LANES else self.refuse(line, f"'{groups['lane']}' is no lane from 0 to 15")

    def start(self, number, groups, line):
        free = (lane for lane in range(LANES) if lane not in self.running.values())
        lane = self.lane(groups, line) if groups.get("lane") else next(free, None)
        if lane is None:
            self.refuse(line, "no lane is free")
        self.started.add(number)
        self.running[number] = lane
        self.waiting.append((number, lane))

    def flush(self):
        """Writes the starts that wait: those that are linked with one another in one block, in the order of the first of each."""
        left = self.waiting
        while left:
            block, grown = [left[0]], True
            while grown:
                more = [it for it in left if it not in block and any(self.linked(it[0], other) for other, _ in block)]
                block, grown = block + more, bool(more)
            left = [it for it in left if it not in block]
            self.blocks.append("start " + " ".join(f"{number}:{lane}" for number, lane in sorted(block)))
        self.waiting = []

    def linked(self, one, other):
        return any(
            source and source[0] == there
            for here, there in ((one, other), (other, one))
            for source in self.trace.actions[here].links.values()
        )

    def lines(self, cut):
        """The blocks and the last line."""
        self.flush()
        last = self.last
        if last is None and len(self.ended) == len(self.trace.actions):
            last = f"done {len(self.ended)}"
        if last is None and cut and self.running:
            number = min(self.running)
            last = f"fault {self.running[number]} {number} 1"
        if last is None:
            left = sorted(set(self.trace.actions) - self.ended)
            running = ", ".join(map(str, sorted(self.running))) or "none"
            raise BadLog(f"it ends while {len(left)} actions are left (running: {running}); --cut ends the trace there where one runs")
        return [*self.blocks, last]
