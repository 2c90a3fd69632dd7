"""The declarations of a source as the symbols of an outline."""
from reading_parts.syntax import read_source

KINDS = {
    "component": 2, "action": 5, "buffer": 23, "stream": 23, "state": 23, "resource": 23, "enum": 10, "item": 22, "function": 12,
    "pool": 18, "instance": 8, "handle": 8, "field": 8, "input": 11, "output": 11, "lock": 20, "share": 20, "activity": 6, "body": 6,
    "constraint": 6, "parameter": 13,
}
LEFT_OUT = ("bind", "parameter")


class Lines:
    """The lines of a text, for places in bytes and positions in units of UTF-16."""

    def __init__(self, text):
        self.lines = text.encode("utf-8").split(b"\n")

    def position(self, line, column):
        """The position of a place that counts lines and bytes from 1."""
        line = min(line, len(self.lines))
        before = self.lines[line - 1][: column - 1].decode("utf-8", "replace")
        return {"line": line - 1, "character": len(before.encode("utf-16-le")) // 2}

    def range(self, start, stop):
        return {"start": self.position(start.line, start.column), "end": self.position(stop.line, stop.column)}

    def word(self, line, column):
        """The range of the word, number or mark at a place."""
        text = self.lines[min(line, len(self.lines)) - 1]
        stop = column
        while stop <= len(text) and (text[stop - 1 : stop].isalnum() or text[stop - 1 : stop] == b"_"):
            stop += 1
        return {"start": self.position(line, column), "end": self.position(line, max(stop, column + 1))}


def detail(part):
    """What stands behind the name."""
    if part.kind == "field":
        return part.type[1] if part.type[0] == "enum" else part.type[0]
    if part.kind in ("input", "output", "lock", "share"):
        return f"{part.kind} {part.type}"
    return getattr(part, "type", part.kind) if part.kind in ("instance", "handle", "pool") else part.kind


class Span:
    """A place behind a name."""

    def __init__(self, place, width):
        self.line, self.column = place.line, place.column + width


def symbol(part, lines):
    name_range = lines.range(part.place, Span(part.place, len(part.name)))
    stop = part.stop if (part.stop.line, part.stop.column) > (part.place.line, part.place.column + len(part.name)) else Span(part.place, len(part.name))
    return {
        "name": part.name,
        "detail": detail(part),
        "kind": KINDS[part.kind],
        "range": lines.range(part.start, stop),
        "selectionRange": name_range,
        "children": [symbol(it, lines) for it in part.parts if it.kind not in LEFT_OUT],
    }


def symbols_of(text, file):
    """The outline of a text. Raises Fault where it is no source."""
    lines = Lines(text)
    return [symbol(part, lines) for part in read_source(text.encode("utf-8"), file)]
