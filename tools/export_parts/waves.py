"""Value change dump (VCD) for GTKWave, Surfer and others: a wire for each lane, resource instance and field of a state pool.

Wires of texts are of the type `string`, which these viewers read beside the types that the format has by itself; fields with numbers are of the
type `integer`, 64 bits in two's complement. A step of the trace is 1 ms."""
import re

IDLE = "-"
MASK = 2**64 - 1


class Wires:
    """The wires with their changes by time."""

    def __init__(self):
        self.scopes, self.changes, self.count = [], {}, 0

    def wire(self, scope, name, kind, first):
        """A new wire with its value at the start; its code."""
        code, rest = "", self.count
        while True:
            code, rest = code + chr(33 + rest % 94), rest // 94
            if not rest:
                break
        self.count += 1
        self.scopes.append((scope, name, kind, code))
        self.change(0, code, kind, first)
        return code

    def change(self, time, code, kind, value):
        """A change; a later one at the same time takes the place of an earlier one."""
        text = f"b{value & MASK:b} {code}" if kind == "integer" else f"s{escaped(value)} {code}"
        self.changes.setdefault(time, {})[code] = text


def escaped(text):
    """A text as one word."""
    return re.sub(r"[^\x21-\x7e]", lambda found: f"\\x{ord(found[0]):02x}", text) or IDLE


def label(action):
    return f"{action.number}:{action.short()}"


def lane_wires(story, wires):
    lanes = {lane: wires.wire("lanes", f"lane_{lane}", "string", IDLE) for lane in sorted(set(story.lanes.values()))}
    for number, start in sorted(story.starts.items(), key=lambda it: it[1]):
        code = lanes[story.lanes[number]]
        action = story.trace.actions[number]
        if number in story.ends:
            wires.changes.setdefault(story.stop(number), {}).setdefault(code, f"s{IDLE} {code}")
        elif number == story.broken:
            wires.change(story.steps, code, "string", f"{story.trace.last[0].upper()}:{label(action)}")
        wires.change(start, code, "string", label(action))


def resource_wires(story, wires):
    """The holders of each instance; several that share it stand together."""
    for (pool, instance), holds in story.resources().items():
        above, _, name = ("resources." + pool).rpartition(".")
        code = wires.wire(above, f"{name}_{instance}", "string", IDLE)
        changes = sorted([(hold.stop, 0, hold) for hold in holds] + [(hold.start, 1, hold) for hold in holds], key=lambda it: it[:2])
        held = []
        for time, begins, hold in changes:
            if begins:
                held.append(label(hold.action))
            elif hold.action.number in story.ends:
                held.remove(label(hold.action))
            wires.change(time, code, "string", "+".join(held) or IDLE)


def state_wires(story, wires):
    for pool, objects in story.states().items():
        above, _, name = ("states." + pool).rpartition(".")
        for field in objects[0].fields:
            kind = "string" if story.pool_item(pool, field, objects[0].fields[field]) else "integer"
            values = [it.fields.get(field, objects[0].fields[field]) for it in objects]
            shown = [story.pool_item(pool, field, value) or str(value) if kind == "string" else value for value in values]
            code = wires.wire(above, f"{name}_{field}", kind, shown[0])
            for held, value in zip(objects[1:], shown[1:]):
                wires.change(held.start, code, kind, value)
        code = wires.wire(above, f"{name}_written_by", "string", "first")
        for held in objects[1:]:
            wires.change(held.start, code, "string", label(held.writer))


def write_scopes(wires, out):
    """The declarations, in nested scopes."""
    inside = []
    for scope, name, kind, code in wires.scopes:
        names = scope.split(".")
        shared = 0
        while shared < min(len(names), len(inside)) and names[shared] == inside[shared]:
            shared += 1
        out.write("$upscope $end\n" * (len(inside) - shared))
        out.write("".join(f"$scope module {it} $end\n" for it in names[shared:]))
        inside = names
        size, plain = (64 if kind == "integer" else 1), name.replace("[", "_").replace("]", "")
        out.write(f"$var {kind} {size} {code} {plain} $end\n")
    out.write("$upscope $end\n" * len(inside))


def write(story, out):
    wires = Wires()
    for part in (lane_wires, resource_wires, state_wires):
        part(story, wires)
    out.write("$comment One step of the trace (a line of starts or ends) is shown as 1 ms; it is no time. $end\n")
    out.write("$version tools/export $end\n$timescale 1 ms $end\n$scope module trace $end\n")
    write_scopes(wires, out)
    out.write("$upscope $end\n$enddefinitions $end\n")
    for time in sorted(wires.changes):
        changes = "\n".join(wires.changes[time].values())
        out.write(f"#{time}\n$dumpvars\n{changes}\n$end\n" if time == 0 else f"#{time}\n{changes}\n")
    if story.steps not in wires.changes:
        out.write(f"#{story.steps}\n")
