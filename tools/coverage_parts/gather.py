"""Counts what scenarios have of what their sources allow."""
from reading_parts.filling import Filling, homes
from reading_parts.order import kinds_of_links

from .bins import Pair, bins_of

LARGEST_POOL = 64


class Kind:
    """An action type: how many actions of it there are, in how many scenarios, and how many are inferred."""

    def __init__(self, name, part, compound):
        self.name, self.part, self.compound = name, part, compound
        self.actions = self.scenarios = self.inferred = 0


class Gathered:
    """What all scenarios together have."""

    def __init__(self, model, pairs):
        self.model, self.scenarios, self.outcomes = model, 0, {}
        self.kinds, self.fields, self.statements, self.resources, self.transitions = {}, {}, {}, {}, {}
        self.unfilled = 0
        used = set(model.instances.values())
        for name, part in model.actions.items():
            if not part.abstract and name.split("::")[0] in used:
                self.take_type(name, part)
        for pool in model.pools.values():
            self.take_pool(pool)
        self.pairs = [self.pair_of(*names) for names in pairs]

    def take_type(self, name, part):
        component = self.model.components[name.split("::")[0]]
        activity = self.model.activity(name)
        self.kinds[name] = Kind(name, part, activity is not None)
        for field in self.model.members(name, "field"):
            self.fields[name, field.name] = bins_of(self.model, f"{name}.{field.name}", field, component)
        todo = list(activity.steps) if activity else []
        while todo:
            step = todo.pop()
            if step.kind == "traverse":
                self.statements[str(step.place)] = [step.place, 0]
            todo += steps_in(step)

    def take_pool(self, pool):
        if pool.kind is None:
            return
        fields, component = self.model.object_fields(pool)
        for field in fields:
            key = (pool.kind.name, field.name)
            if key not in self.fields:
                self.fields[key] = bins_of(self.model, f"{pool.kind.name}.{field.name}", field, component)
        if pool.kind.kind == "resource":
            self.resources[pool.path] = [0] * min(pool.size, 1024)
        if pool.kind.kind == "state":
            self.transitions[pool.path] = {field.name: {} for field in fields if len(self.fields[pool.kind.name, field.name].labels) <= 16}

    def pair_of(self, first, second):
        """The pair of two names of fields, as T.f or T.reference.f of one action type T."""
        (owner, one), (other_owner, other) = self.key_of(first), self.key_of(second)
        if owner != other_owner:
            raise ValueError(f"{first} and {second} aren't of one action type")
        pair = Pair(self.field_of(owner, one), self.field_of(owner, other))
        pair.owner, pair.keys, pair.name = owner, (one, other), f"{first} with {second}"
        return pair

    def key_of(self, name):
        for owner in self.kinds:
            if name.startswith(owner + "."):
                return owner, tuple(name[len(owner) + 1 :].split("."))
        raise ValueError(f"{name} is no field of an action type, as in pss_top::copy.size")

    def field_of(self, owner, key):
        if len(key) == 1 and (owner, key[0]) in self.fields:
            return self.fields[owner, key[0]]
        part = self.model.member(owner, key[0], "input", "output", "lock", "share") if len(key) == 2 else None
        found = part and self.fields.get((part.type.rpartition("::")[2], key[1]))
        if not found:
            raise ValueError(f"{owner} has no field {'.'.join(key)}")
        return found

    def outcome(self, text):
        self.outcomes[text] = self.outcomes.get(text, 0) + 1

    def add(self, trace):
        """Counts a scenario."""
        self.scenarios += 1
        for action in trace.actions.values():
            self.add_action(trace, action)
        for it in trace.compounds:
            self.add_kind(it.type, False)
            self.add_values(it.type, it.fields)
        for it in trace.initials:
            pool = self.model.pools.get(it.pool)
            if pool and pool.kind:
                self.add_values(pool.kind.name, it.fields)
        for name in {it.type for it in [*trace.actions.values(), *trace.compounds]} & set(self.kinds):
            self.kinds[name].scenarios += 1
        self.add_transitions(trace)
        self.add_statements(trace)

    def add_kind(self, name, inferred):
        kind = self.kinds.get(name)
        if kind:
            kind.actions += 1
            kind.inferred += inferred

    def add_values(self, owner, fields):
        for name, value in fields.items():
            bins = self.fields.get((owner, name.partition("[")[0]))
            if bins:
                bins.add(value)

    def add_action(self, trace, action):
        self.add_kind(action.type, action.inferred)
        self.add_values(action.type, action.fields)
        for reference, fields in action.objects.items():
            self.add_object(action, reference, fields)
        for claim, (instance, fields) in action.claims.items():
            pool = self.add_object(action, claim, fields)
            if pool and pool.path in self.resources and instance < len(self.resources[pool.path]):
                self.resources[pool.path][instance] += 1
        for pair in self.pairs:
            if pair.owner == action.type:
                values = [self.value(trace, action, key) for key in pair.keys]
                if None not in values:
                    pair.add(*values)

    def add_object(self, action, reference, fields):
        pool = self.model.pool_of(action.instance, action.type, reference)
        if pool and pool.kind:
            self.add_values(pool.kind.name, fields)
        return pool

    def value(self, trace, action, key):
        """A field of an action, of what it writes or claims, or of what it reads."""
        if len(key) == 1:
            return action.fields.get(key[0])
        if key[0] in action.claims:
            return action.claims[key[0]][1].get(key[1])
        if key[0] in action.objects:
            return action.objects[key[0]].get(key[1])
        source = action.links.get(key[0], 0)
        if source == 0:
            return None
        if source is None:
            pool = self.model.pool_of(action.instance, action.type, key[0])
            return next((it.fields.get(key[1]) for it in trace.initials if pool and it.pool == pool.path), None)
        return trace.actions[source[0]].objects.get(source[1], {}).get(key[1]) if source[0] in trace.actions else None

    def add_transitions(self, trace):
        """From each object of a state pool to the one that replaces it."""
        firsts = {it.pool: it.fields for it in trace.initials}
        for (number, reference), kind in kinds_of_links(trace, self.model, {}).items():
            action = trace.actions[number]
            pool = kind == "previous" and self.model.pool_of(action.instance, action.type, reference)
            if not pool or pool.path not in self.transitions:
                continue
            source = action.links[reference]
            before = firsts.get(pool.path, {}) if source is None else trace.actions[source[0]].objects.get(source[1], {})
            for field, seen in self.transitions[pool.path].items():
                bins = self.fields[pool.kind.name, field]
                if field in before and field in action.objects.get(reference, {}):
                    key = (bins.at(before[field]), bins.at(action.objects[reference][field]))
                    seen[key] = seen.get(key, 0) + 1

    def add_statements(self, trace):
        """Which statements of activities stand for actions."""
        root = Filling(self.model, trace).root()
        if root is None:
            self.unfilled += 1
            return
        leaves, compounds = homes(root)
        for home in [*leaves.values(), *compounds.values()]:
            if home.step and str(home.step.place) in self.statements:
                self.statements[str(home.step.place)][1] += 1

    def total(self):
        """How many bins of fields, resource instances, action types and pairs are hit, and how many there are."""
        hit = sum(bins.covered() for bins in self.fields.values()) + sum(1 for kind in self.kinds.values() if kind.actions)
        hit += sum(1 for counts in self.resources.values() for count in counts if count) + sum(len(pair.counts) for pair in self.pairs)
        size = sum(len(bins.labels) for bins in self.fields.values()) + len(self.kinds)
        size += sum(len(counts) for counts in self.resources.values()) + sum(pair.size() for pair in self.pairs)
        return hit, size


def steps_in(step):
    """The statements in a statement."""
    found = list(getattr(step, "steps", []))
    found += [inner for _, inner in getattr(step, "branches", [])] + [inner for _, inner in getattr(step, "arms", [])]
    return found + [it for name in ("inner", "first", "other") if (it := getattr(step, name, None)) is not None]
