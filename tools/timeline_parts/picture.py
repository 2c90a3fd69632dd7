"""An SVG of a trace: one row for each lane, one column for each step."""
from html import escape

from .colours import ARROWS, FAULT, colour_of

COLUMN, ROW, LEFT, TOP, LEGEND = 96, 46, 64, 46, 20
HALO = 'paint-order="stroke" stroke="#fff" stroke-width="4" stroke-linejoin="round"'
SAID = {
    "buffer": ("", "a buffer is written, then read"),
    "object": ("", "an object is written, then read"),
    "state": ("", "a state is written, then read"),
    "previous": ("7 3", "a state is written, then replaced"),
    "stream": ("2 3", "a stream; both ends start together"),
}


class Picture:
    """What the parts of the picture share."""

    def __init__(self, story):
        self.story = story
        self.columns = story.steps
        self.lanes = 1 + max(story.lanes.values(), default=0)
        used = [story.trace.actions[number] for number in story.starts]
        self.types = sorted({action.type for action in used})
        self.kinds = {kind for (number, _), kind in story.kinds.items() if number in story.starts}
        self.width = max(LEFT + self.columns * COLUMN + 16, 520)
        self.bottom = TOP + self.lanes * ROW
        self.notes = notes(self)
        self.height = self.bottom + 34 + LEGEND * len(self.notes)


def dashed(dash):
    return f' stroke-dasharray="{dash}"' if dash else ""


def bar(picture, number):
    """The bar of an action; one that a fault or trap broke off has a red edge and a cross."""
    story, action = picture.story, picture.story.trace.actions[number]
    left, right = LEFT + story.starts[number] * COLUMN + 6, LEFT + story.stop(number) * COLUMN - 6
    top = TOP + story.lanes[number] * ROW + 6
    edge = f'stroke="{FAULT}" stroke-width="3"' if number == story.broken else 'stroke="#3d4852"'
    fields = "".join(f"\n{name}={value}" for name, value in story.shown(action, None, action.fields).items())
    title = escape(f"{number} {action.type} in {action.instance}{', inferred' if action.inferred else ''}{fields}")
    shape = f'<rect x="{left}" y="{top}" width="{right - left}" height="{ROW - 12}" rx="4" fill="{colour_of(picture.types, action.type)}" '
    cross = ""
    if number == story.broken:
        cross = f'<path d="M {right - 20} {top + 10} l 14 14 m 0 -14 l -14 14" {edge}/>'
    return f"<g><title>{title}</title>{shape}{edge}{dashed('5 3' if action.inferred else '')}/>{cross}</g>"


def label(picture, number):
    story = picture.story
    left, top = LEFT + story.starts[number] * COLUMN + 12, TOP + story.lanes[number] * ROW + 28
    return f'<text x="{left}" y="{top}" {HALO}>{number} {escape(story.trace.actions[number].short())}</text>'


def arrow(picture, number, reference, source, kind):
    """The arrow from the writer of an object to the action that reads or replaces it."""
    story = picture.story
    y1, y2 = (TOP + story.lanes[it] * ROW + ROW // 2 for it in (source[0], number))
    x2 = LEFT + story.starts[number] * COLUMN + 6
    at_once = kind == "stream" or story.stop(source[0]) > story.starts[number]
    x1 = LEFT + story.starts[source[0]] * COLUMN + 14 if at_once else LEFT + story.stop(source[0]) * COLUMN - 6
    x2 = x2 + 8 if at_once else x2
    # On one lane it passes below the bars between the two.
    bend, below = (24, ROW // 2 + 8) if y1 == y2 and x2 - x1 > COLUMN else (max(24, abs(x2 - x1) // 2), 0)
    title = f"<title>{kind}: {source[0]}.{escape(source[1])} to {number}.{escape(reference)}</title>"
    ends = f"C {x1 + bend} {y1 + below} {x2 - bend} {y2 + below} {x2} {y2}"
    look = f'fill="none" stroke="{ARROWS[kind]}" stroke-width="1.5" marker-end="url(#{kind})"{dashed(SAID[kind][0])}'
    return f'<path d="M {x1} {y1} {ends}" {look}>{title}</path>'


def arrows(picture):
    story = picture.story
    for (number, reference), kind in story.kinds.items():
        source = story.trace.actions[number].links[reference]
        if source and number in story.starts and source[0] in story.starts:
            yield arrow(picture, number, reference, source, kind)


def notes(picture):
    """The lines of the legend: what stands before each, and its text."""
    story = picture.story
    box = '<rect x="0" y="-11" width="26" height="13" rx="3" fill="{}" stroke="{}"{}/>'
    found = [(box.format(colour_of(picture.types, kind), "#3d4852", ""), kind) for kind in picture.types]
    if any(story.trace.actions[number].inferred for number in story.starts):
        found.append((box.format("#fff", "#3d4852", dashed("5 3")), "inferred: no statement asks for it"))
    for kind in sorted(picture.kinds):
        line = f'<path d="M 0 -4 H 26" stroke="{ARROWS[kind]}" stroke-width="2"{dashed(SAID[kind][0])}/>'
        found.append((line, SAID[kind][1]))
    if story.broken is not None:
        found.append((box.format("#fff", FAULT, ' stroke-width="3"'), f"{story.trace.last[0]}: the run ended here"))
    return found


def markers(picture):
    head = '<marker id="{0}" viewBox="0 0 8 8" refX="8" refY="4" markerWidth="7" markerHeight="7" orient="auto"><path d="M 0 0 L 8 4 L 0 8 z" fill="{1}"/></marker>'
    return "<defs>" + "".join(head.format(kind, ARROWS[kind]) for kind in sorted(picture.kinds)) + "</defs>"


def grid(picture):
    """The axis, and a line for each column and lane."""
    yield f'<text x="{LEFT}" y="16" fill="#57606a">steps: lines of starts and ends of the trace, counted from 0; no time</text>'
    for column in range(picture.columns):
        x = LEFT + column * COLUMN
        yield f'<path d="M {x} {TOP} V {picture.bottom}" stroke="#e4e9ee"/>'
        yield f'<text x="{x}" y="{TOP - 8}" text-anchor="middle" fill="#57606a">{column}</text>'
    for lane in range(picture.lanes):
        y = TOP + lane * ROW
        yield f'<path d="M 8 {y} H {picture.width - 16}" stroke="#e4e9ee"/><text x="8" y="{y + 28}">lane {lane}</text>'
    yield f'<path d="M 8 {picture.bottom} H {picture.width - 16}" stroke="#c9d1d9"/>'


def draw(story, _name, _sources):
    """The picture."""
    picture = Picture(story)
    size = f'width="{picture.width}" height="{picture.height}" viewBox="0 0 {picture.width} {picture.height}"'
    parts = [f'<svg xmlns="http://www.w3.org/2000/svg" {size} font-family="sans-serif" font-size="13">', markers(picture)]
    parts.append(f'<rect width="{picture.width}" height="{picture.height}" fill="#fff"/>')
    parts += grid(picture)
    parts += [bar(picture, number) for number in story.starts]
    parts += arrows(picture)
    parts += [label(picture, number) for number in story.starts]
    word, numbers = story.trace.last
    colour = FAULT if story.broken is not None else "#1c2733"
    parts.append(f'<text x="8" y="{picture.bottom + 20}" fill="{colour}" font-weight="bold">{word} {" ".join(map(str, numbers))}</text>')
    for at, (shape, text) in enumerate(picture.notes):
        y = picture.bottom + 22 + LEGEND * (at + 1)
        parts.append(f'<g transform="translate(8 {y - 4})">{shape}<text x="36" y="0">{escape(text)}</text></g>')
    return "\n".join(parts) + "\n</svg>\n"
