"""What happened in a trace: when and on which lane each action ran, who held which resource, what each state pool held, and what
an action waited for. A step is a block of the trace, counted from 0: an action that starts in step 3 and ends in step 5 fills
the steps 3, 4 and 5. With a model of the sources it also knows pools, handles, parents and the names of enum items."""
from .filling import Filling, homes
from .order import by_objects, by_statements, kinds_of_links


class Object:
    """An object in a state pool: the step from which it is there, its fields, and its writer (None for the first one)."""

    def __init__(self, start, fields, writer):
        self.start, self.fields, self.writer = start, fields, writer


class Hold:
    """An action that holds a resource instance from one step to another (the first one behind it)."""

    def __init__(self, action, claim, start, stop, fields):
        self.action, self.claim, self.start, self.stop, self.fields = action, claim, start, stop, fields


class Story:
    """A trace with what follows from it."""

    def __init__(self, trace, model=None):
        self.trace, self.model = trace, model
        self.starts, self.ends, self.lanes, self.lines, self.enums = {}, {}, {}, {}, {}
        for step, (word, what, line) in enumerate(trace.blocks):
            if word == "end":
                self.ends[what] = step
            for action, lane in what if word == "start" else []:
                self.starts[action], self.lanes[action], self.lines[action] = step, lane, line
        self.steps = max(1, len(trace.blocks))
        self.broken = trace.last[1][1] if trace.last[0] in ("fault", "trap") else None
        self.kinds = kinds_of_links(trace, model, self.starts)
        root = Filling(model, trace).root() if model else None
        self.filled = root is not None or model is None
        self.leaf_homes, self.compound_homes = homes(root) if root else ({}, {})
        self.causes = by_objects(trace, self.kinds, self.pool_name)
        if root:
            by_statements(root, trace.joins, self.causes)
        self.root = root

    def has_run(self):
        return bool(self.trace.blocks) or self.trace.last[0] != "solved"

    def stop(self, number):
        """The step behind an action; the end of the trace where it hasn't ended."""
        return self.ends[number] + 1 if number in self.ends else self.steps

    def pool_name(self, action, name):
        """The pool of a reference or claim; without sources the only state pool, or the instance with the name."""
        pool = self.model and self.model.pool_of(action.instance, action.type, name)
        if pool:
            return pool.path
        if name not in action.claims and len(self.trace.initials) == 1:
            return self.trace.initials[0].pool
        return f"{action.instance}.{name}"

    def resources(self):
        """The holds of each resource instance, by pool and number, in order of their starts. Those of pools that nobody claims are
        there, too, where the sources are known."""
        found = {}
        for pool in self.model.pools.values() if self.model else []:
            if pool.kind and pool.kind.kind == "resource" and pool.size <= 64:
                found.update({(pool.path, number): [] for number in range(pool.size)})
        for number in sorted(self.starts, key=lambda it: (self.starts[it], it)):
            action = self.trace.actions[number]
            for claim, (instance, fields) in action.claims.items():
                hold = Hold(action, claim, self.starts[number], self.stop(number), fields)
                found.setdefault((self.pool_name(action, claim), instance), []).append(hold)
        return dict(sorted(found.items()))

    def is_shared(self, hold):
        part = self.model and self.model.member(hold.action.type, hold.claim, "lock", "share")
        return bool(part) and part.kind == "share"

    def states(self):
        """The objects of each state pool, in the order in which they came."""
        found = {it.pool: [Object(0, it.fields, None)] for it in self.trace.initials}
        written = [key for key, kind in self.kinds.items() if kind == "previous" and key[0] in self.ends]
        for number, reference in sorted(written, key=lambda key: self.ends[key[0]]):
            action = self.trace.actions[number]
            pool = self.state_pool(number, reference)
            if pool is not None:
                fields = action.objects.get(reference, {})
                found.setdefault(pool, []).append(Object(self.ends[number] + 1, fields, action))
        return found

    def state_pool(self, number, reference):
        """The pool of a state output: by the sources, or by the chain of its previous writers to the only pool's first object."""
        name = self.pool_name(self.trace.actions[number], reference)
        return name if self.model or len(self.trace.initials) == 1 else None

    def parents(self, number):
        """The compound actions round an action, the outermost first."""
        home = self.leaf_homes.get(number)
        return [self.trace.compounds[index] for index in home.above] if home else []

    def handle(self, number):
        home = self.leaf_homes.get(number)
        return home.step.handle if home and home.step else None

    def place(self, number):
        """The place of the statement that an action stands for, or of the declaration of its type."""
        home = self.leaf_homes.get(number)
        if home and home.step:
            return home.step.place
        part = self.model and self.model.actions.get(self.trace.actions[number].type)
        return part.place if part else None

    def item(self, action, reference, field, value):
        """The name of the enum item that a value of a field is, or nothing. The reference is None for an action's own fields."""
        if not self.model:
            return None
        key = (action.instance, action.type, reference, field)
        if key not in self.enums:
            self.enums[key] = self.items_of(action, reference, field.partition("[")[0])
        return self.enums[key].get(value)

    def items_of(self, action, reference, name):
        """The names of the items by value of the enum that a field has; none where its type is no enum."""
        if reference is None:
            part, component = self.model.member(action.type, name, "field"), self.model.components.get(action.type.split("::")[0])
        else:
            fields, component = self.model.object_fields(self.model.pool_of(action.instance, action.type, reference))
            part = next((it for it in fields if it.name == name), None)
        enum = self.model.enum_of(part, component) if part else None
        return {value: item for item, value in self.model.items(enum).items()} if enum else {}

    def pool_item(self, pool, field, value):
        """The same for a field of the objects of a pool, by its path."""
        fields, component = self.model.object_fields(self.model.pools.get(pool)) if self.model else ([], None)
        part = next((it for it in fields if it.name == field.partition("[")[0]), None)
        return part and self.model.item_name(part, component, value)

    def shown(self, action, reference, fields):
        """Fields as text, with the names of enum items where they are known."""
        return {name: self.item(action, reference, name, value) or str(value) for name, value in fields.items()}

    def waited(self):
        """What each action that ran waited for: (why, action, what) for each that had to end before, lanes and claims too."""
        found = {number: [] for number in self.starts}
        for cause in self.causes:
            latest = max(cause.before, key=lambda it: self.ends.get(it, -1))
            for number in cause.after:
                if number in found and latest in self.ends and latest != number:
                    found[number].append((cause.why, latest, cause.what))
        for (pool, instance), holds in self.resources().items():
            self.waited_for_holds(found, holds, f"{pool}[{instance}]")
        for number, before in self.lane_neighbours():
            found[number].append(("lane", before, f"lane {self.lanes[number]}"))
        return found

    def waited_for_holds(self, found, holds, what):
        for at, hold in enumerate(holds):
            for earlier in reversed(holds[max(0, at - 8) : at]):
                if not (self.is_shared(hold) and self.is_shared(earlier)) and earlier.action is not hold.action:
                    found[hold.action.number].append(("lock", earlier.action.number, what))
                    break

    def lane_neighbours(self):
        """Each action that ran with the one before it on its lane."""
        last = {}
        for number in sorted(self.starts, key=self.starts.get):
            lane = self.lanes[number]
            if lane in last:
                yield number, last[lane]
            last[lane] = number


def tracks_of(holds):
    """Holds in as few tracks as can be, so that none overlap in one: actions that share an instance have it at the same time."""
    tracks = []
    for hold in holds:
        track = next((it for it in tracks if it[-1].stop <= hold.start), None)
        if track is None:
            tracks.append([hold])
        else:
            track.append(hold)
    return tracks or [[]]
