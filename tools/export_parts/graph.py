"""The order of a scenario as a graph for `dot`: who waits for whom, and why."""

LOOKS = {
    "sequence": 'color="#666666"',
    "buffer": 'color="#0072b2",fontcolor="#0072b2"',
    "object": 'color="#0072b2",fontcolor="#0072b2"',
    "source": 'color="#009e73",fontcolor="#009e73"',
    "previous": 'color="#009e73",fontcolor="#009e73",style=bold',
    "replaced": 'color="#009e73",fontcolor="#009e73",style=dotted',
    "stream": 'color="#cc79a7",fontcolor="#cc79a7",dir=both,arrowhead=odot,arrowtail=odot',
    "lock": 'color="#999999",fontcolor="#777777",style=dashed',
}
SAID = {"source": "reads the state", "previous": "replaces the state", "replaced": "is replaced", "buffer": "buffer", "object": "object"}


def quoted(text):
    return '"' + text.replace("\\", "\\\\").replace('"', '\\"').replace("\n", "\\n") + '"'


def node(story, action):
    lines = [f"{action.number} {action.type}", action.instance]
    lines += [f"{name}={value}" for name, value in story.shown(action, None, action.fields).items()]
    for reference, fields in action.objects.items():
        lines += [f"{reference}.{name}={value}" for name, value in story.shown(action, reference, fields).items()]
    lines += [f"{claim}[{held[0]}]" for claim, held in action.claims.items()]
    look = "style=\"filled,dashed\"" if action.inferred else "style=filled"
    if action.number == story.broken:
        look += ',color="#c00000",penwidth=3'
        lines.append(story.trace.last[0])
    return f"a{action.number} [label={quoted(chr(10).join(lines))},{look}];"


def write_nodes(story, out):
    """The actions, in boxes of the compound actions that hold them where these are known."""
    if story.root is None:
        out.write("".join(f"  {node(story, action)}\n" for action in story.trace.actions.values()))
        return
    out.write("".join(f"  {node(story, it)}\n" for it in story.trace.actions.values() if it.inferred))
    todo = [story.root]
    while todo:
        item = todo.pop()
        if isinstance(item, str):
            out.write(item)
        elif item.kind == "leaf":
            out.write(f"  {node(story, story.trace.actions[item.index])}\n")
        elif item.kind == "compound":
            handle = f" {item.step.handle}" if item.step and item.step.handle else ""
            title = quoted(story.trace.compounds[item.index].type + handle)
            out.write(f"  subgraph cluster_{item.index} {{ label={title};\n")
            todo += ["  }\n", *reversed(item.children)]
        else:
            todo += reversed(item.children)


def edge(before, after, why, what=""):
    label = f"label={quoted(what)}," if what else ""
    return f"  {before} -> {after} [{label}{LOOKS[why]}];\n"


def write_causes(story, out):
    for count, cause in enumerate(story.causes):
        label = f"{SAID[cause.why]}\n{cause.what}" if cause.why in SAID else ""
        if len(cause.before) == 1 or len(cause.after) == 1:
            pairs = ((before, after) for before in cause.before for after in cause.after)
            out.write("".join(edge(f"a{before}", f"a{after}", cause.why, label) for before, after in pairs))
            continue
        # Many before many: one point between them in place of an arrow for each pair.
        out.write(f"  p{count} [shape=point,label=\"\"];\n")
        out.write("".join(edge(f"a{before}", f"p{count}", cause.why) for before in cause.before))
        out.write("".join(edge(f"p{count}", f"a{after}", cause.why) for after in cause.after))


def write_streams(story, out):
    """The two ends of a stream start together; each names the other, so one of them is drawn."""
    for (number, reference), kind in story.kinds.items():
        source = story.trace.actions[number].links[reference]
        if kind == "stream" and source and (number > source[0] or (source[0], source[1]) not in story.kinds):
            out.write(edge(f"a{source[0]}", f"a{number}", kind, f"stream {source[1]}, {reference}\nstart together"))


def write_locks(story, out):
    """In a run, who had an instance before whom: this order is the run's, not the scenario's."""
    for (pool, instance), holds in story.resources().items() if story.has_run() else []:
        for earlier, later in zip(holds, holds[1:]):
            shared = story.is_shared(earlier) and story.is_shared(later)
            if earlier.stop <= later.start and not shared:
                what = f"{pool}[{instance}]\nin this run"
                out.write(edge(f"a{earlier.action.number}", f"a{later.action.number}", "lock", what))


def write(story, out):
    out.write("digraph scenario {\n  rankdir=LR;\n  node [shape=box,fillcolor=\"#eef2f7\",fontname=\"sans-serif\",fontsize=11];\n")
    out.write("  edge [fontname=\"sans-serif\",fontsize=9];\n  graph [fontname=\"sans-serif\",fontsize=10,color=\"#999999\"];\n")
    write_nodes(story, out)
    write_causes(story, out)
    write_streams(story, out)
    write_locks(story, out)
    out.write("}\n")
