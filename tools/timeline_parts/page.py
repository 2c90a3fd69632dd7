"""The page of a trace: one file of HTML with everything in it."""
import json
import pathlib
from html import escape

from reading_parts.story import tracks_of

from .colours import ARROWS, FAULT, TYPES

HERE = pathlib.Path(__file__).resolve().parent
SAID = {
    "sequence": "an earlier statement",
    "buffer": "its buffer is written",
    "object": "its object is written",
    "source": "its state is written",
    "previous": "the state that it replaces is written",
    "replaced": "what it replaces is read",
    "lock": "a lock is given back",
    "lane": "its lane is free",
}


def shown(story, action, reference, fields):
    return [[name, value] for name, value in story.shown(action, reference, fields).items()]


def action_data(story, action, waited, types):
    """What the page knows of an action."""
    number = action.number
    place = story.place(number)
    handle = story.handle(number)
    outputs = [[name, " ".join("=".join(pair) for pair in shown(story, action, name, held))] for name, held in action.objects.items()]
    claims = [
        [name, f"{story.pool_name(action, name)}[{instance}]", " ".join("=".join(pair) for pair in shown(story, action, name, held))]
        for name, (instance, held) in action.claims.items()
    ]
    found = {
        "number": number,
        "type": types[action.type],
        "instance": action.instance,
        "inferred": action.inferred,
        "lane": story.lanes[number],
        "start": story.starts[number],
        "stop": story.stop(number),
        "ended": number in story.ends,
        "lines": [action.line, story.lines[number], story.trace.blocks[story.ends[number]][2] if number in story.ends else 0],
        "fields": shown(story, action, None, action.fields),
        "outputs": outputs,
        "claims": claims,
        "links": [[name, story.kinds[number, name], *(source or (-1, ""))] for name, source in action.links.items()],
        "waited": [[SAID[why], before, what] for why, before, what in sorted(waited, key=lambda it: -story.stop(it[1]))],
        "place": [place.file, place.line, place.column] if place else None,
        "parents": [it.index for it in story.parents(number)],
        "handle": handle,
    }
    # What is empty is left out: a large page opens faster so.
    return {name: value for name, value in found.items() if value is not None and value is not False and value != []}


def rows_of(story):
    """The rows: lanes, resource instances, state pools. A bar is its start, the step behind it, its action, and its text."""
    lanes = {lane: [] for lane in range(1 + max(story.lanes.values(), default=0))}
    for number in sorted(story.starts, key=story.starts.get):
        lanes[story.lanes[number]].append([story.starts[number], story.stop(number), number])
    rows = [{"group": "Lanes", "name": f"lane {lane}", "tracks": [bars]} for lane, bars in lanes.items()]
    for (pool, instance), holds in story.resources().items():
        tracks = [[[hold.start, hold.stop, hold.action.number] for hold in track] for track in tracks_of(holds)]
        rows.append({"group": "Resource instances, by holder", "name": f"{pool}[{instance}]", "tracks": tracks})
    for pool, objects in story.states().items():
        stops = [it.start for it in objects[1:]] + [story.steps]
        bars = []
        for held, stop in zip(objects, stops):
            text = " ".join(f"{name}={story.pool_item(pool, name, value) or value}" for name, value in held.fields.items())
            bars.append([held.start, stop, held.writer.number if held.writer else -1, text or "first"])
        rows.append({"group": "State pools, by object", "name": pool, "tracks": [bars]})
    return rows


def source_lines(names):
    """The lines of the sources, for the one that an action stands for."""
    return {name: pathlib.Path(name).read_text(encoding="utf-8", errors="replace").splitlines() for name in names}


def data_of(story, name, sources):
    """All that the page shows."""
    used = [story.trace.actions[number] for number in sorted(story.starts)]
    types = {kind: at for at, kind in enumerate(sorted({action.type for action in used}))}
    waited = story.waited()
    word, numbers = story.trace.last
    return {
        "name": name,
        "word": word,
        "numbers": numbers,
        "scenario": story.trace.scenario,
        "steps": story.steps,
        "types": list(types),
        "broken": -1 if story.broken is None else story.broken,
        "rows": rows_of(story),
        "actions": [action_data(story, action, waited[action.number], types) for action in used],
        "compounds": [[it.type, it.instance, shown(story, it, None, it.fields)] for it in story.trace.compounds],
        "sources": source_lines(sources),
        "colours": TYPES,
        "arrows": ARROWS,
        "fault": FAULT,
    }


def draw(story, name, sources):
    """The text of the page."""
    # Behind a `<` in a text the page mustn't end its data.
    data = json.dumps(data_of(story, name, sources), separators=(",", ":")).replace("<", "\\u003c")
    page = (HERE / "page.html").read_text(encoding="utf-8")
    parts = {"TITLE": escape(name), "STYLE": (HERE / "page.css").read_text(encoding="utf-8"), "DATA": data}
    parts["SCRIPT"] = (HERE / "page.js").read_text(encoding="utf-8")
    for key, text in parts.items():
        before, _, after = page.partition(f"@{key}@")
        page = before + text + after
    return page
