"""Finds where in an activity each action of a trace stands: which compound action holds it, by which statement and handle.

The header of a trace names the compound actions and the leaves in preorder, and leaves out the statements between them. So the
statements are gone through from the root on, with every state that is possible so far: how many compound actions, leaves and
nodes have been taken. Of two ways that come to one state the first is kept."""
from .expressions import NoValue, value_of


class Node:
    """A node of the filled activity. `index` is that of a compound action, or the number of a leaf."""

    __slots__ = ("kind", "step", "number", "index", "children", "above")

    def __init__(self, kind, step, number, index, above):
        self.kind, self.step, self.number, self.index, self.above, self.children = kind, step, number, index, above, []


class Filling:
    """The walk over the activities of a model along the header of a trace."""

    def __init__(self, model, trace):
        self.model, self.trace = model, trace
        self.leaves = [action for _, action in sorted(trace.actions.items()) if not action.inferred]

    def root(self):
        """The root node of the filled activity, or nothing where the header isn't of these sources."""
        states = {(0, 0, 0): None}
        kind = self.trace.compounds[0].type if self.trace.compounds else self.leaves[0].type if self.leaves else ""
        if self.model.actions.get(kind) is None:
            return None
        states = self.traverse(states, None, kind, "pss_top", None)
        end = next((trail for state, trail in states.items() if self.is_end(state)), None)
        return self.tree(end) if end else None

    def is_end(self, state):
        return state[0] == len(self.trace.compounds) and state[1] == len(self.leaves)

    def traverse(self, states, step, kind, instance, handle):
        """Behind a traversal of an action type from an instance on."""
        activity, after = self.model.activity(kind), {}
        for state, trail in states.items():
            taken = self.trace.compounds if activity else self.leaves
            at = state[0] if activity else state[1]
            found = taken[at] if at < len(taken) else None
            if found is None or found.type != kind or not (found.instance + ".").startswith(instance + "."):
                continue
            if activity is None:
                after.setdefault((state[0], at + 1, state[2] + 1), (trail, ("leaf", step, state[2], found.number)))
                continue
            inside = {(at + 1, state[1], state[2] + 1): (trail, ("compound", step, state[2], at))}
            inside = self.steps(inside, activity.steps, (found, {}))
            keep(after, closed(inside))
        return after

    def steps(self, states, steps, around):
        for step in steps:
            if not states:
                break
            states = states if step.kind == "empty" else self.step(states, step, around)
        return states

    def single(self, states, step, around):
        """Where one statement is asked for, an empty one stands as an empty sequence."""
        if step.kind != "empty":
            return self.step(states, step, around)
        return closed(opened(states, "sequence", step))

    def step(self, states, step, around):
        """Behind a statement; `around` is the compound action that holds it and the values of its indices."""
        if step.kind == "traverse":
            kind = self.type_of(step, around[0].type)
            return self.traverse(states, step, kind, around[0].instance, step.handle)
        inside = opened(states, step.kind, step)
        if step.kind in ("parallel", "schedule", "sequence"):
            inside = self.steps(self.with_join(inside, step), step.steps, around)
        elif step.kind == "repeat":
            inside = self.turns(inside, step, around)
        else:
            inside = self.chosen(inside, step, around)
        return closed(inside)

    def with_join(self, states, step):
        """Only a block with a join form has a `join` line."""
        if self.trace.format == 1 or step.kind == "sequence":
            return states
        return {state: trail for state, trail in states.items() if (state[2] - 1 in self.trace.joins) == (step.join is not None)}

    def turns(self, states, step, around):
        count = self.value(step.count, around)
        for turn in range(max(count or 0, 0)):
            here = (around[0], {**around[1], step.index: turn}) if step.index else around
            states = closed(self.single(opened(states, "turn", step), step.inner, here))
            if not states:
                break
        return states

    def chosen(self, states, step, around):
        """Behind one of the parts of a select, an if or a match."""
        after = {}
        for part in self.parts(step, around):
            keep(after, states if part is None else self.single(states, part, around))
        return after

    def parts(self, step, around):
        """The parts that may have been taken; those whose condition has no value here all may."""
        if step.kind == "select":
            return [inner for guard, inner in step.branches if guard is None or self.value(guard, around) != 0]
        if step.kind == "if":
            value = self.value(step.condition, around)
            return [step.first, step.other] if value is None else [step.first if value else step.other]
        value = self.value(step.value, around)
        fitting = [inner for ranges, inner in step.arms if ranges and (value is None or self.is_in(value, ranges, around))]
        return fitting if fitting and value is not None else fitting + [inner for ranges, inner in step.arms if ranges is None]

    def is_in(self, value, ranges, around):
        ends = [(self.value(first, around), self.value(last, around)) for first, last in ranges]
        return any(None not in pair and pair[0] <= value <= pair[1] for pair in ends)

    def value(self, expression, around):
        """The value of an expression of an activity, or nothing."""
        holder, indices = around
        component = self.model.components.get(holder.type.split("::")[0])

        def look_up(named):
            if named[0] == "item":
                return self.model.item(named[1], component)
            (name, index), *more = named[1]
            if name in indices and not more:
                return indices[name]
            key = name if index is None else f"{name}[{value_of(index, look_up)}]"
            if key in holder.fields and not more:
                return holder.fields[key]
            return self.model.item([name], component)

        try:
            return value_of(expression, look_up)
        except NoValue:
            return None

    def type_of(self, step, holder):
        """The action type of a traversal in the activity of an action type."""
        component = holder.split("::")[0]
        name = step.type
        if step.handle:
            part = self.model.member(holder, step.handle, "handle")
            name = part.type if part else ""
        return name if "::" in name else f"{component}::{name}"

    def tree(self, trail):
        """The nodes along a trail."""
        events = []
        while trail:
            trail, event = trail
            events.append(event)
        open_nodes = [Node("", None, -1, None, None)]
        for kind, *more in reversed(events):
            if kind == "close":
                open_nodes.pop()
                continue
            node = Node(kind, *more, open_nodes[-1])
            open_nodes[-1].children.append(node)
            if kind != "leaf":
                open_nodes.append(node)
        root = open_nodes[0].children[0]
        root.above = None
        return root


def opened(states, kind, step):
    return {(a, b, n + 1): (trail, (kind, step, n, None)) for (a, b, n), trail in states.items()}


def closed(states):
    return {state: (trail, ("close",)) for state, trail in states.items()}


def keep(after, more):
    """Adds states; of two ways to one the first stays."""
    for state, trail in more.items():
        after.setdefault(state, trail)


class Home:
    """Where an action stands: the nodes of the compound actions round it, the outermost first, and its statement."""

    def __init__(self, above, step):
        self.above, self.step = above, step


def homes(root):
    """The home of each leaf by number, and that of each compound action by index."""
    leaves, compounds, todo = {}, {}, [(root, ())]
    while todo:
        node, above = todo.pop()
        if node.kind in ("leaf", "compound"):
            (leaves if node.kind == "leaf" else compounds)[node.index] = Home(above, node.step)
        if node.kind == "compound":
            above = (*above, node.index)
        todo += [(child, above) for child in node.children]
    return leaves, compounds
