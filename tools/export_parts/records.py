"""JSON lines: one record a line, each of a form of docs/trace.schema.json."""
import json

ENCODER = json.JSONEncoder(separators=(",", ":"))


def place_of(place):
    return {"file": place.file, "line": place.line, "column": place.column}


def items_of(story, action, reference, fields):
    """The names of enum items among values, by field."""
    if not story.model:
        return {}
    found = {name: story.item(action, reference, name, value) for name, value in fields.items()}
    return {name: item for name, item in found.items() if item}


def with_items(record, items):
    return {**record, "items": items} if items else record


def head(story):
    """The first record, of the whole trace."""
    trace = story.trace
    record = {"record": "trace", "format": trace.format, "actions": trace.scenario[0], "inferred": trace.scenario[1]}
    return {**record, "steps": len(trace.blocks), "outcome": trace.last[0], "numbers": trace.last[1], "sources": story.model is not None}


def initial(story, it):
    items = {name: story.pool_item(it.pool, name, value) for name, value in it.fields.items()}
    record = {"record": "initial", "line": it.line, "pool": it.pool, "fields": it.fields}
    return with_items(record, {name: item for name, item in items.items() if item})


def compound(story, it):
    record = {"record": "compound", "line": it.line, "index": it.index, "instance": it.instance, "type": it.type, "fields": it.fields}
    record = with_items(record, items_of(story, it, None, it.fields))
    home = story.compound_homes.get(it.index)
    if home:
        record["parent"] = home.above[-1] if home.above else None
        if home.step:
            record["place"] = place_of(home.step.place)
            record.update({"handle": home.step.handle} if home.step.handle else {})
    return record


def pool(story, action, name):
    """The serving pool, where the sources are known."""
    found = story.model and story.model.pool_of(action.instance, action.type, name)
    return {"pool": found.path} if found else {}


def output(story, action, name, fields):
    return with_items({"reference": name, "fields": fields, **pool(story, action, name)}, items_of(story, action, name, fields))


def link(story, action, name, source):
    record = {"reference": name, "kind": story.kinds[action.number, name], **pool(story, action, name)}
    if source is None:
        return {**record, "initial": True}
    return {**record, "initial": False, "action": source[0], "source": source[1]}


def claim(story, action, name, instance, fields):
    record = {"claim": name, "instance": instance, "fields": fields, **pool(story, action, name)}
    part = story.model and story.model.member(action.type, name, "lock", "share")
    record.update({"lock": part.kind == "lock"} if part else {})
    return with_items(record, items_of(story, action, name, fields))


def atomic(story, action):
    number = action.number
    record = {"record": "action", "line": action.line, "number": number, "instance": action.instance, "type": action.type}
    record = with_items({**record, "inferred": action.inferred, "fields": action.fields}, items_of(story, action, None, action.fields))
    record["outputs"] = [output(story, action, name, fields) for name, fields in action.objects.items()]
    record["links"] = [link(story, action, name, source) for name, source in action.links.items()]
    record["claims"] = [claim(story, action, name, *held) for name, held in action.claims.items()]
    if number in story.starts:
        record.update({"lane": story.lanes[number], "start": story.starts[number], "end": story.ends.get(number)})
    home = story.leaf_homes.get(number)
    if home:
        record["parent"] = home.above[-1] if home.above else None
        record.update({"handle": story.handle(number)} if story.handle(number) else {})
    if story.model and story.place(number):
        record["place"] = place_of(story.place(number))
    return record


def records(story):
    yield head(story)
    yield from (initial(story, it) for it in story.trace.initials)
    yield from (compound(story, it) for it in story.trace.compounds)
    for node, branches in story.trace.joins.items():
        yield {"record": "join", "node": node, "branches": branches}
    yield from (atomic(story, action) for action in story.trace.actions.values())
    for step, (word, what, line) in enumerate(story.trace.blocks):
        if word == "end":
            yield {"record": "end", "line": line, "step": step, "action": what}
        else:
            starts = [{"action": action, "lane": lane} for action, lane in what]
            yield {"record": "start", "line": line, "step": step, "actions": starts}
    yield {"record": "last", "line": story.trace.last_line, "word": story.trace.last[0], "numbers": story.trace.last[1]}


def write(story, out):
    for record in records(story):
        out.write(ENCODER.encode(record) + "\n")
