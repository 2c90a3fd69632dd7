"""Sources by the rules: most of what comes out keeps all rules of docs/LANGUAGE.md, and has a scenario or nearly one."""
from .expressions import Expressions
from .activities import Activities

SORTS = ["buffer", "stream", "state", "resource"]


class Field:
    """A field: its name, how many elements it has (0 where it is no array), and values that are likely among its own."""

    def __init__(self, name, size, values):
        self.name, self.size, self.values = name, size, values


class Object:
    """A type of flow objects or resources."""

    def __init__(self, sort, name, fields):
        self.sort, self.name, self.fields = sort, name, fields


class Action:
    """An action with what it has of its bases: `ends` are references and claims, as (word, name, object)."""

    def __init__(self, component, name):
        self.component, self.name = component, name
        self.fields, self.ends, self.handles = [], [], []
        self.abstract = self.compound = self.closed = False


class Models(Expressions, Activities):
    """Makes one model. All its names are a letter and two digits, so any of them may be exchanged."""

    def __init__(self, choices):
        self.choices = choices
        self.names = [f"{letter}{number:02d}" for letter in "abcdghijklmnpqrstuvwyz" for number in range(40)]
        choices.shuffle(self.names)
        self.enums, self.objects, self.functions, self.actions = [], [], [], []
        self.indices, self.depth, self.calls = [], 0, 0
        # How often something wrong is written, of a thousand.
        self.wrong = choices.choice([0, 0, 0, 2, 10])
        # How often a constraint is written where one may be, of a hundred.
        self.bound = choices.choice([0, 4, 12, 30, 100])

    def likely(self, percent):
        return self.choices.randrange(100) < percent

    def is_wrong(self):
        return self.choices.randrange(1000) < self.wrong

    def name(self):
        return self.names.pop() if not self.is_wrong() else self.choices.choice(self.names[:20])

    def enum(self):
        name, items, at = self.name(), [], 0
        texts = []
        for _ in range(self.choices.randint(1, 4)):
            item = self.name()
            if self.likely(30):
                at += self.choices.randint(0 if self.is_wrong() else 1, 5)
                texts.append(f"{item} = {at}" if self.likely(70) else f"{item} = {at - 2} + 2")
            else:
                texts.append(item)
            items.append((item, at))
            at += 1
        self.enums.append((name, items))
        return f"enum {name} {{ {', '.join(texts)} }}"

    def plain(self):
        """A type without ranges, with its least and greatest value."""
        way = self.choices.randrange(10)
        if way == 0:
            return "bool", 0, 1
        if way < 7:
            width = self.choices.choice([1, 1, 2, 2, 3, 4, 8, 32, 63])
            shown = "bit" if width == 1 else self.choices.choice([f"bit[{width}]", f"bit[{width - 1}:0]"])
            return shown, 0, 2**width - 1
        width = self.choices.choice([2, 3, 4, 16, 32, 63])
        return ("int" if width == 32 else f"int[{width}]"), -(2 ** (width - 1)), 2 ** (width - 1) - 1

    def type(self):
        """A type of a field, and some of its values."""
        if self.enums and self.likely(20):
            name, items = self.choices.choice(self.enums)
            return name, [value for _, value in items]
        shown, least, greatest = self.plain()
        if self.likely(30):
            low = self.choices.randint(least, min(greatest, least + 20))
            high = self.choices.randint(low, min(greatest, low + 9))
            more = f", {self.choices.randint(least, greatest)}" if self.likely(30) else ""
            return f"{shown} in [{low}..{high}{more}]", [low, high]
        return shown, [least, least + 1, min(greatest, 3), greatest]

    def fields(self, most):
        """Declarations of fields, and the fields."""
        shown, made = [], []
        for _ in range(self.choices.randint(0, most)):
            kind, values = self.type()
            parts = []
            for _ in range(2 if self.likely(15) else 1):
                size = self.choices.randint(1, 4) if self.likely(20) else 0
                field = Field(self.name(), size, values)
                made.append(field)
                parts.append(f"{field.name}[{size}]" if size else field.name)
            shown.append(f"rand {kind} {', '.join(parts)};")
        return shown, made

    def object(self, sort):
        name = self.name()
        shown, fields = self.fields(2)
        paths = self.paths_of(fields)
        if sort == "state":
            more = [f"prev.{path}" for path in paths]
            shown += [f"constraint !initial -> {self.constraint_line(paths + more)}"] if more and self.likely(self.bound) else []
            shown += [f"constraint initial -> {self.constraint_line(paths)}"] if paths and self.likely(self.bound) else []
        elif sort == "resource":
            paths = paths + ["instance_id"]
        shown += [f"constraint {self.constraint(paths, fields)}"] if paths and self.likely(self.bound // 2) else []
        made = Object(sort, name, fields)
        self.objects.append(made)
        return f"{sort} {name} {{ {' '.join(shown)} }}"

    def function(self):
        name, count = self.name(), self.choices.randint(0, 3)
        gives = self.likely(50)
        shown = ", ".join(f"{self.choices.choice(['', 'input '])}{self.plain()[0]} {self.name()}" for _ in range(count))
        self.functions.append((name, count, gives))
        target = self.choices.choice(["", "target "])
        return f"import {target}function {self.plain()[0] if gives else 'void'} {name}({shown});"

    def ends(self, action):
        """References and claims of an action."""
        shown = []
        for _ in range(self.choices.choice([0, 0, 1, 1, 2])):
            if not self.objects:
                break
            it = self.choices.choice(self.objects)
            words = ["lock", "share"] if it.sort == "resource" else ["input", "output"]
            word = self.choices.choice(words if not self.is_wrong() else words + ["lock", "input"])
            name = self.name()
            action.ends.append((word, name, it))
            shown.append(f"{word} {it.name} {name};")
        return shown

    def memory(self, action):
        """Fields by which an action asks for memory."""
        shown = []
        for name, values in (("mem_size", [0, 1, 64, 100]), ("mem_align", [0, 1, 16, 64])):
            if self.likely(80) and name not in [it.name for it in action.fields]:
                value = self.choices.choice(values)
                action.fields.append(Field(name, 0, values))
                shown.append(f"rand bit[8] in [{value}, {self.choices.choice(values)}] {name};")
        return shown

    def atomic(self, component, abstract=False):
        action = Action(component, self.name())
        action.abstract = abstract
        bases = [it for it in self.actions if it.component == component and not it.compound]
        base = self.choices.choice(bases) if bases and self.likely(25) else None
        if base:
            action.fields, action.ends, action.closed = list(base.fields), list(base.ends), base.closed
        shown = self.memory(action) if self.with_memory and self.likely(50) else []
        more, own = self.fields(2)
        action.fields += own
        shown += more + self.ends(action)
        paths = self.paths_of_action(action)
        shown += [f"constraint {self.constraint(paths, action.fields)}" for _ in range(2) if paths and self.likely(self.bound // 2)]
        if self.functions and not action.closed and self.likely(35):
            shown.append(self.body(action))
            action.closed = True
        self.actions.append(action)
        return self.shown(action, base, shown)

    def shown(self, action, base, parts):
        derived = f" : {base.name}" if base else ""
        return f"{'abstract ' if action.abstract else ''}action {action.name}{derived} {{ {' '.join(parts)} }}"

    def compound(self, component, name=None):
        action = Action(component, name or self.name())
        action.compound = True
        shown, action.fields = self.fields(2)
        usable = [it for it in self.actions if not it.abstract and self.is_below(it.component, component)]
        for _ in range(self.choices.choice([0, 0, 1, 2, 3])):
            if usable:
                it, handle = self.choices.choice(usable), self.name()
                action.handles.append((handle, it))
                shown.append(f"{self.type_name(it, component)} {handle};")
        activity = self.activity(action, usable)
        paths = self.paths_of(action.fields) + [f"{handle}.{path}" for handle, it in action.handles for path in self.paths_of(it.fields)]
        shown += [f"constraint {self.constraint(paths, action.fields)}" for _ in range(2) if paths and self.likely(self.bound // 2)]
        shown.insert(self.choices.randrange(len(shown) + 1), activity)
        self.actions.append(action)
        return self.shown(action, None, shown)

    def type_name(self, action, component):
        return action.name if action.component == component else f"{action.component}::{action.name}"

    def is_below(self, component, above):
        """Whether actions of a component may be traversed by those of another."""
        return component == above or above == "pss_top" or self.is_wrong()

    def pools(self, objects):
        """A pool with its bind for each of these types."""
        shown = []
        for it in objects:
            name = self.name()
            size = f" [{self.choices.choice([1, 2, 4, 8])}]" if it.sort == "resource" and self.likely(85) else ""
            shown.append(f"pool{size} {it.name} {name};")
            shown.append(f"bind {name} *;")
        return shown

    def component(self, name, inner):
        seen = len(self.enums)
        parts = self.pools([it for it in self.objects if self.likely(25) or name == "pss_top"])
        if name == "pss_top" and self.wrong and parts:
            parts = [it for it in parts if not self.is_wrong()]
        for it in inner:
            count = self.choices.choice([1, 1, 2])
            parts.append(f"{it} {', '.join(self.name() for _ in range(count))};")
        if self.likely(30):
            parts.append(self.enum())
        parts += [self.atomic(name, abstract=self.likely(10)) for _ in range(self.choices.randint(1, 4))]
        parts += [self.compound(name) for _ in range(self.choices.choice([0, 0, 1, 1, 2]))]
        if name == "pss_top":
            parts.append(self.compound(name, self.root))
        del self.enums[seen:]
        return f"component {name} {{\n  " + "\n  ".join(parts) + "\n}"

    def model(self):
        """The declarations of the level of files, and the word that names the root."""
        self.root, self.with_memory = self.name(), self.likely(40)
        shown = [self.enum() for _ in range(self.choices.choice([0, 0, 1, 2]))]
        for sort in SORTS:
            shown += [self.object(sort) for _ in range(self.choices.choice([0, 0, 1, 1, 2]))]
        shown += [self.function() for _ in range(self.choices.choice([0, 0, 1, 2]))]
        inner = [self.name() for _ in range(self.choices.choice([0, 0, 1, 2]))]
        shown += [self.component(name, []) for name in inner]
        shown.append(self.component("pss_top", inner))
        return shown, f"root=pss_top::{self.root}"
