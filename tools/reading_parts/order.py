"""Who waits for whom in a scenario, and why: by statements, buffers, streams and states.

A `Cause` says that one action may start only when another has ended; `why` is sequence, buffer, source (it reads the state that
the other wrote), previous (it replaces what the other wrote) or replaced (the other reads what it replaces). Statements may
join many actions with many; then the cause is one between the two lists."""


class Cause:
    """Actions, of which each must have ended before any of others starts."""

    __slots__ = ("why", "before", "after", "what")

    def __init__(self, why, before, after, what=""):
        self.why, self.before, self.after, self.what = why, before, after, what


def by_statements(node, joins, causes):
    """The first and last leaves of a node, and those that are released; appends what sequences say."""
    if node.kind == "leaf":
        return [node.index], [node.index], []
    below = [by_statements(child, joins, causes) for child in node.children]
    if node.kind in ("compound", "sequence", "turn", "repeat"):
        return in_sequence(below, causes)
    released = [it for part in below for it in part[2]]
    joined = joins.get(node.number, range(len(below))) if node.kind in ("parallel", "schedule") else range(len(below))
    lasts = []
    for number, part in enumerate(below):
        if number in joined:
            lasts += part[1]
        else:
            released += part[1]
    return [it for part in below for it in part[0]], lasts, released


def in_sequence(below, causes):
    """The same for statements one after another."""
    begun, ended, released = [], [], []
    for first, last, free in below:
        if ended and first:
            causes.append(Cause("sequence", ended, first))
        begun = begun or first
        ended = last or ended
        released += free
    return begun, ended + released, []


def kinds_of_links(trace, model, starts):
    """What each link is: buffer, stream, state (an input) or previous (a state output). `starts` has the steps of a run."""
    found = {}
    for number, action in trace.actions.items():
        for reference, source in action.links.items():
            found[number, reference] = kind_of_link(action, reference, source, model, starts)
    return found


def kind_of_link(action, reference, source, model, starts):
    part = model and model.member(action.type, reference, "input", "output")
    pool = model and model.pool_of(action.instance, action.type, reference)
    if part and pool and pool.kind:
        return ("previous" if part.kind == "output" else "state") if pool.kind.kind == "state" else pool.kind.kind
    if source is None:
        return "previous" if reference in action.objects else "state"
    if reference in action.objects:
        return "previous"
    if starts and starts.get(action.number) is not None and starts.get(action.number) == starts.get(source[0]):
        return "stream"
    return "object"


def by_objects(trace, kinds, pool_of):
    """What objects say: each cause but those of streams, whose ends start together. `pool_of` names the pool of a reference."""
    causes, writers, readers = [], {}, {}
    for (number, reference), kind in kinds.items():
        source = trace.actions[number].links[reference]
        replaced = source or pool_of(trace.actions[number], reference)
        if kind == "previous":
            writers[replaced] = (number, reference)
        elif kind == "state":
            readers.setdefault(replaced, []).append(number)
        if source is None or kind == "stream" or source[0] not in trace.actions:
            continue
        why = {"state": "source", "previous": "previous", "buffer": "buffer"}.get(kind, "object")
        causes.append(Cause(why, [source[0]], [number], f"{source[0]}.{source[1]} to {number}.{reference}"))
    for source, (number, reference) in writers.items():
        reading = [it for it in readers.get(source, []) if it != number]
        if reading:
            causes.append(Cause("replaced", reading, [number], f"what {number}.{reference} replaces"))
    return causes
