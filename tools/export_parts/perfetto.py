"""The Chrome trace format (JSON), which ui.perfetto.dev and chrome://tracing open. One step of the trace is shown as 1 ms."""
import json

from reading_parts.story import tracks_of

ENCODER = json.JSONEncoder(separators=(",", ":"))

STEP = 1000  # a step in the format's unit, a millionth of a second
LANES, RESOURCES, STATES = 1, 2, 3
NAMES = {
    LANES: "lanes (1 ms is one step of the trace, no time)",
    RESOURCES: "resource instances, by holder",
    STATES: "state pools, by object",
}


def text_of(fields):
    return " ".join(f"{name}={value}" for name, value in fields.items())


def arguments(story, action, waited):
    """What a click on an action shows."""
    found = {"action": action.number, "type": action.type, "instance": action.instance}
    found["inferred"] = action.inferred
    found.update({f"field {name}": value for name, value in story.shown(action, None, action.fields).items()})
    for reference, fields in action.objects.items():
        found[f"output {reference}"] = text_of(story.shown(action, reference, fields))
    for reference, source in action.links.items():
        kind = story.kinds[action.number, reference]
        found[f"{kind} {reference}"] = "the pool's first object" if source is None else f"{source[1]} of action {source[0]}"
    for claim, (instance, fields) in action.claims.items():
        shown = text_of(story.shown(action, claim, fields))
        found[f"claim {claim}"] = f"{story.pool_name(action, claim)}[{instance}] {shown}".strip()
    parents = story.parents(action.number)
    if parents:
        found["parents"] = " / ".join(it.type for it in parents)
    if story.handle(action.number):
        found["handle"] = story.handle(action.number)
    if story.model and story.place(action.number):
        found["source"] = str(story.place(action.number))
    for why, before, what in waited:
        found.setdefault(f"waited for ({why})", f"action {before}, {what}")
    return found


def slice_of(process, thread, name, start, stop, more):
    return {"ph": "X", "pid": process, "tid": thread, "name": name, "ts": start * STEP, "dur": max(stop - start, 0) * STEP, "args": more}


def named(kind, process, thread, name):
    return {"ph": "M", "pid": process, "tid": thread, "name": kind, "args": {"name": name}}


def lane_events(story):
    waited = story.waited()
    for lane in sorted(set(story.lanes.values())):
        yield named("thread_name", LANES, lane, f"lane {lane}")
    for number, start in story.starts.items():
        action = story.trace.actions[number]
        title = f"{number} {action.short()}"
        yield slice_of(LANES, story.lanes[number], title, start, story.stop(number), arguments(story, action, waited[number]))


def resource_events(story):
    tracks = [(f"{pool}[{instance}]", track) for (pool, instance), holds in story.resources().items() for track in tracks_of(holds)]
    for thread, (name, track) in enumerate(tracks):
        yield named("thread_name", RESOURCES, thread, name)
        yield {"ph": "M", "pid": RESOURCES, "tid": thread, "name": "thread_sort_index", "args": {"sort_index": thread}}
        for hold in track:
            action = hold.action
            more = {"claim": hold.claim, "shared": story.is_shared(hold), **story.shown(action, hold.claim, hold.fields)}
            yield slice_of(RESOURCES, thread, f"{action.number} {action.short()}", hold.start, hold.stop, more)


def state_events(story):
    for thread, (pool, objects) in enumerate(story.states().items()):
        yield named("thread_name", STATES, thread, pool)
        stops = [it.start for it in objects[1:]] + [story.steps]
        for held, stop in zip(objects, stops):
            fields = {name: story.pool_item(pool, name, value) or value for name, value in held.fields.items()}
            writer = "the first object" if held.writer is None else f"written by action {held.writer.number}"
            yield slice_of(STATES, thread, text_of(fields) or writer, held.start, stop, {"object": writer, **fields})


def flow_events(story):
    """An arrow for each object that flows, from its writer to its reader or to the action that replaces it."""
    for count, ((number, reference), kind) in enumerate(story.kinds.items()):
        source = story.trace.actions[number].links[reference]
        if source is None or number not in story.starts or source[0] not in story.starts:
            continue
        at_once = kind == "stream"
        begun = story.starts[source[0]] if at_once else story.stop(source[0])
        name = f"{kind} {source[0]}.{source[1]} to {number}.{reference}"
        shared = {"cat": kind, "name": name, "id": count, "pid": LANES}
        # An arrow is tied to the bar that its time lies in: just before the end of the writer's, just behind the start of the other.
        yield {**shared, "ph": "s", "tid": story.lanes[source[0]], "ts": begun * STEP + (STEP // 4 if at_once else -1)}
        late = STEP // 2 if at_once else 0
        yield {**shared, "ph": "f", "bp": "e", "tid": story.lanes[number], "ts": story.starts[number] * STEP + late}


def last_event(story):
    """A fault or trap as a mark on the lane."""
    word, found = story.trace.last
    if word in ("fault", "trap"):
        lane, action, what = found
        name = f"{word}: action {action}, {'call' if word == 'fault' else 'kind'} {what}"
        yield {"ph": "i", "s": "g", "pid": LANES, "tid": lane, "name": name, "ts": story.steps * STEP}


def events(story):
    for process, name in NAMES.items():
        yield named("process_name", process, 0, name)
        yield {"ph": "M", "pid": process, "name": "process_sort_index", "args": {"sort_index": process}}
    for part in (lane_events, resource_events, state_events, flow_events, last_event):
        yield from part(story)


def write(story, out):
    """Writes one event a line."""
    out.write('{"displayTimeUnit": "ms", "otherData": {"unit": "1 ms is one step of the trace (one line of starts or ends), no time"},\n')
    out.write('"traceEvents": [\n')
    separator = ""
    for event in events(story):
        out.write(separator + ENCODER.encode(event))
        separator = ",\n"
    out.write("\n]}\n")
