"""Reads the text of a trace, or of a scenario that no run wrote (docs/TRACE.md)."""
import re
import sys

PRINTED = re.compile(rb"[\x20-\x7e]*")
NAME = "[A-Za-z_][A-Za-z_0-9]*"
NUMBER = "(?:0|[1-9][0-9]*)"
SMALL = re.compile(NUMBER)
PATH = re.compile(rf"{NAME}(?:\.{NAME})*")
TYPE = re.compile(rf"{NAME}::{NAME}")
VALUE = re.compile(rf"({NAME})(?:\.({NAME}))?(\[{NUMBER}\])?=(-?{NUMBER})")
LINK = re.compile(rf"({NAME})<(?:initial|({NUMBER})\.({NAME}))")
CLAIM = re.compile(rf"({NAME})\[({NUMBER})\]")
SECTIONS = ["initial", "compound", "join", "action"]
LANES = 16


class BadLine(Exception):
    """A text that isn't that of a trace; the number is that of its first bad line, counted from 1."""

    def __init__(self, number, why="is none of a trace"):
        super().__init__(number, why)
        self.number, self.why = number, why


class Initial:
    """The first object of a state pool."""

    def __init__(self, pool, fields, line):
        self.pool, self.fields, self.line = pool, fields, line


class Compound:
    """A compound action; its index counts the compound actions of the header from 0."""

    def __init__(self, index, instance, type_name, fields, line):
        self.index, self.instance, self.type, self.fields, self.line = index, instance, type_name, fields, line


class Action:
    """An atomic action. `objects` has the fields of each output, `links` the action and reference that each reference leads to
    (None for the pool's first object), `claims` the number of each claimed instance with its fields."""

    __slots__ = ("number", "instance", "type", "inferred", "fields", "objects", "links", "claims", "line")

    def __init__(self, number, instance, type_name, inferred, line):
        self.number, self.instance, self.type, self.inferred, self.line = number, instance, type_name, inferred, line
        self.fields, self.objects, self.links, self.claims = {}, {}, {}, {}

    def short(self):
        """Its type without the component."""
        return self.type.rpartition("::")[2]

    def take(self, word):
        """Takes a word of its line; whether it has the form of one."""
        if found := VALUE.fullmatch(word):
            name, field, index, value = found.groups()
            if field is None:
                self.fields[name + (index or "")] = int(value)
                return True
            held = self.claims[name][1] if name in self.claims else self.objects.setdefault(name, {})
            held[field + (index or "")] = int(value)
            return True
        if found := LINK.fullmatch(word):
            self.links[found[1]] = None if found[2] is None else (int(found[2]), found[3])
            return True
        if found := CLAIM.fullmatch(word):
            self.claims[found[1]] = (int(found[2]), {})
            return True
        return False


class Trace:
    """The text of a trace: its header, its blocks with the numbers of their lines, and its last line."""

    def __init__(self):
        self.format, self.scenario, self.last, self.last_line = 0, (0, 0), ("solved", [0]), 0
        self.initials, self.compounds, self.joins, self.actions, self.blocks = [], [], {}, {}, []


def is_small(text, bound=2**32):
    """Whether a text is a number below the bound, without a sign or a leading zero."""
    return SMALL.fullmatch(text) is not None and int(text) < bound


def numbers(words):
    """The numbers that words are, or nothing where one isn't a number below 2^32."""
    return [int(word) for word in words] if all(map(is_small, words)) else None


def block_of(words):
    """What a line of a block says: the pairs of action and lane that start, or the action that ends."""
    if words[0] == "end":
        ended = numbers(words[1:])
        return ("end", ended[0]) if ended and len(ended) == 1 else None
    if words[0] != "start" or len(words) == 1:
        return None
    pairs = [word.split(":") for word in words[1:]]
    if any(len(pair) != 2 or not is_small(pair[0]) or not is_small(pair[1], LANES) for pair in pairs):
        return None
    return ("start", [(int(action), int(lane)) for action, lane in pairs])


def last_of(words):
    """What a last line says: its word and its numbers."""
    found = numbers(words[1:])
    if found is None or len(found) != {"done": 1, "solved": 1, "fault": 3, "trap": 3}.get(words[0], -1):
        return None
    if len(found) == 3 and (found[0] >= LANES or words[0] == "trap" and not 1 <= found[2] <= 3):
        return None
    return (words[0], found)


def lines_of(text):
    """The lines of a text with their numbers; one without its line feed, one that isn't printed bytes, or none, is bad."""
    parts = text.split(b"\n")
    for number, part in enumerate(parts[:-1], 1):
        if not PRINTED.fullmatch(part):
            raise BadLine(number, "has a byte that isn't printed")
        yield number, part.decode("ascii")
    raise BadLine(len(parts), "is missing or has no line feed")


def fields_of(words, number):
    """The fields that words give."""
    fields = {}
    for word in words:
        found = VALUE.fullmatch(word)
        if not found or found[2]:
            raise BadLine(number, f"has '{word}' where a field is due")
        fields[found[1] + (found[3] or "")] = int(found[4])
    return fields


def read_action(words, number):
    """The action of an `action` line."""
    if len(words) < 5 or not is_small(words[1]) or words[4] not in ("leaf", "inferred"):
        raise BadLine(number, "is no action line")
    if not PATH.fullmatch(words[2]) or not TYPE.fullmatch(words[3]):
        raise BadLine(number, "names no instance and action type")
    action = Action(int(words[1]), sys.intern(words[2]), sys.intern(words[3]), words[4] == "inferred", number)
    for word in words[5:]:
        if not action.take(word):
            raise BadLine(number, f"has '{word}', which is no field, link or claim")
    return action


def read_header_line(trace, words, number):
    """Takes a line of the header behind the scenario line."""
    if words[0] == "action":
        action = read_action(words, number)
        if action.number in trace.actions:
            raise BadLine(number, f"has action {action.number} a second time")
        trace.actions[action.number] = action
    elif words[0] == "join":
        found = numbers(words[1:])
        if not found:
            raise BadLine(number, "is no join line")
        trace.joins[found[0]] = found[1:]
    elif len(words) < 2 or not PATH.fullmatch(words[1]):
        raise BadLine(number, "names no pool or instance")
    elif words[0] == "initial":
        trace.initials.append(Initial(words[1], fields_of(words[2:], number), number))
    elif len(words) < 3 or not TYPE.fullmatch(words[2]):
        raise BadLine(number, "names no action type")
    else:
        trace.compounds.append(Compound(len(trace.compounds), words[1], words[2], fields_of(words[3:], number), number))


def read_front(trace, lines):
    """Takes the format line and the scenario line; the sections that may follow."""
    number, line = next(lines)
    if line not in ("pst 1", "pst 2"):
        raise BadLine(number, "is neither 'pst 1' nor 'pst 2'")
    trace.format = int(line[4:])
    number, line = next(lines)
    found = numbers(line.split(" ")[1:])
    if not line.startswith("scenario ") or found is None or len(found) != 2:
        raise BadLine(number, "is no scenario line")
    trace.scenario = tuple(found)
    return [section for section in SECTIONS if trace.format == 2 or section != "join"]


def read(text):
    """The trace whose text this is, in bytes. Raises BadLine at the first line that can't be read."""
    trace, lines = Trace(), lines_of(text)
    sections, section, number = read_front(trace, lines), 0, 2
    for number, line in lines:
        words = line.split(" ")
        if words[0] in sections[section:] and not trace.blocks:
            section = sections.index(words[0])
            read_header_line(trace, words, number)
        elif (block := block_of(words)) is not None:
            trace.blocks.append((*block, number))
        elif (last := last_of(words)) is not None:
            trace.last, trace.last_line = last, number
            break
        else:
            raise BadLine(number)
    if text.count(b"\n") != number or not text.endswith(b"\n"):
        raise BadLine(number + 1, "stands behind the last line")
    return check_numbers(trace)


def check_numbers(trace):
    """The trace, where its blocks and its last line name actions of the header, each starts once, and what ends runs."""
    started, running = set(), set()
    for word, what, number in trace.blocks:
        for action in [what] if word == "end" else [pair[0] for pair in what]:
            if action not in trace.actions:
                raise BadLine(number, f"names action {action}, which the header hasn't")
            if action in (started if word == "start" else ()):
                raise BadLine(number, f"starts action {action} a second time")
            if word == "end" and action not in running:
                raise BadLine(number, f"ends action {action}, which doesn't run")
            started.add(action)
            (running.add if word == "start" else running.discard)(action)
    word, found = trace.last
    if word in ("fault", "trap") and found[1] not in trace.actions:
        raise BadLine(trace.last_line, f"names action {found[1]}, which the header hasn't")
    return trace


def read_file(name):
    """The trace in a file; '-' is standard input."""
    if name == "-":
        return read(sys.stdin.buffer.read())
    with open(name, "rb") as file:
        return read(file.read())
