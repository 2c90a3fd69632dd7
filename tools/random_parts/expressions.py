"""Expressions, constraints and bodies of the sources that tools/random makes by the rules."""
COMPARED = ["==", "==", "!=", "<", "<=", ">", ">="]
OPERATORS = ["+", "-", "*", "/", "%", "<<", ">>", "&", "|", "^", "&&", "||", "==", "!=", "<", "<=", ">", ">="]


class Expressions:
    """The part of `Models` that writes expressions over paths."""

    def paths_of(self, fields):
        """What names the values of these fields."""
        made = []
        for field in fields:
            made += [f"{field.name}[{at}]" for at in range(field.size)] if field.size else [field.name]
        return made

    def paths_of_action(self, action):
        """What names the values of an action, of its references and of its claims."""
        made = self.paths_of(action.fields)
        for word, name, it in action.ends:
            made += [f"{name}.{path}" for path in self.paths_of(it.fields)]
            made += [f"{name}.initial"] if it.sort == "state" else []
            made += [f"{name}.instance_id"] if it.sort == "resource" else []
        return made

    def number(self):
        return str(self.choices.choice([0, 0, 1, 1, 2, 3, 4, 5, 7, 8, 15, 100, 2**31, 2**62, 2**63 - 1]) if self.likely(90) else self.choices.randrange(2**62))

    def constant(self):
        """A number, or an item of an enum."""
        if self.enums and self.likely(15):
            name, items = self.choices.choice(self.enums)
            item = self.choices.choice(items)[0]
            return item if self.likely(60) else f"{name}::{item}"
        if self.likely(5):
            return self.choice_of("true", "false", hex(self.choices.randrange(300)))
        return self.number() if self.likely(85) else f"-{self.number()}"

    def choice_of(self, *words):
        return self.choices.choice(words)

    def part(self, paths):
        if self.indices and self.likely(40):
            return self.choices.choice(self.indices)
        if self.is_wrong():
            return self.name()
        return self.choices.choice(paths) if paths and self.likely(65) else self.constant()

    def expression(self, paths, depth=0):
        """An expression, with brackets where it has operators and stands within another."""
        way = self.choices.randrange(10)
        if depth > 2 or way < 3:
            return self.part(paths)
        if way == 3:
            return f"{self.choice_of('-', '!', '~')}{self.expression(paths, depth + 2)}"
        if way == 4:
            return f"({self.part(paths)} in [{self.ranges(paths)}])"
        operator = self.choices.choice(OPERATORS)
        made = f"{self.expression(paths, depth + 1)} {operator} {self.expression(paths, depth + 1)}"
        return made if depth == 0 or self.is_wrong() else f"({made})"

    def ranges(self, paths):
        """Ranges behind an `in`; their ends may be anything."""
        made = []
        for _ in range(self.choices.choice([1, 1, 2, 3])):
            low = self.part(paths) if self.likely(20) else str(self.choices.randrange(9))
            made.append(f"{low}..{self.choices.randrange(12)}" if self.likely(50) else low)
        return ", ".join(made)

    def constraint_line(self, paths):
        """A constraint that many values keep."""
        way = self.choices.randrange(10)
        if way < 5:
            right = self.part(paths) if self.likely(50) else str(self.choices.randrange(9))
            return f"{self.part(paths)} {self.choices.choice(COMPARED)} {right};"
        if way < 7:
            return f"{self.part(paths)} in [{self.ranges(paths)}];"
        return f"{self.expression(paths)};"

    def constraint(self, paths, fields, depth=0):
        """What comes behind `constraint` or `with`: a set."""
        way = self.choices.randrange(14)
        if depth > 2 or way < 6:
            return self.constraint_line(paths)
        if way == 6:
            return f"{self.expression(paths, 1)} -> {self.constraint(paths, fields, depth + 1)}"
        if way == 7:
            return f"{{ {' '.join(self.item(paths, fields, depth + 1) for _ in range(self.choices.randint(0, 3)))} }}"
        if way == 8:
            return f"if ({self.expression(paths)}) {{ {self.item(paths, fields, depth + 1)} }} else {self.constraint(paths, fields, depth + 1)}"
        if way == 9:
            return f"if ({self.expression(paths)}) {self.constraint(paths, fields, depth + 1)}"
        if way == 10 and paths:
            count = self.choices.randint(1, min(4, len(paths)))
            return f"unique {{ {', '.join(self.choices.sample(paths, count))} }};"
        arrays = [field for field in fields if field.size]
        if way >= 11 and arrays:
            return self.foreach(paths, fields, self.choices.choice(arrays), depth)
        return self.constraint_line(paths)

    def item(self, paths, fields, depth):
        """A constraint that may stand within braces."""
        made = self.constraint(paths, fields, depth)
        return made if not made.startswith("{") else made.removeprefix("{").removesuffix("}")

    def foreach(self, paths, fields, array, depth):
        index = self.name()
        self.indices.append(index)
        more = [f"{array.name}[{index}]", f"{array.name}[{index} - 1]", f"{array.name}[{index} + 1]"]
        inner = self.constraint(paths + more + more, fields, depth + 1)
        self.indices.pop()
        guard = f"{index} > 0 && {index} + 1 < {array.size} -> " if self.likely(60) else ""
        return f"foreach ({array.name}[{index}]) {guard}{inner}"

    def body(self, action):
        """The body of an action."""
        paths, self.calls = self.paths_of_action(action), 0
        return f"exec body {{ {self.statements(paths, [], 0)} }}"

    def statements(self, paths, own, depth):
        own = list(own)
        made = []
        for _ in range(self.choices.randint(1, 4)):
            made.append(self.statement(paths, own, depth))
        return " ".join(made)

    def call(self, paths, gives):
        """A call of a function that gives a value, or of any."""
        every = [it for it in self.functions if it[2] or not gives]
        if not every:
            return None
        name, count, _ = self.choices.choice(every)
        count += 1 if self.is_wrong() else 0
        return f"{name}({', '.join(self.expression(paths, 1) for _ in range(count))})"

    def statement(self, paths, own, depth):
        """One statement; a local that it declares is added to `own`, and behind it others may name it."""
        way = self.choices.randrange(12)
        every = paths + own + own
        if way < 3:
            name = self.name()
            source = (self.call(every, True) if self.likely(40) else None) or self.expression(every, 1)
            text = f"{self.plain()[0]} {name}{f' = {source}' if self.likely(85) else ''};"
            own.append(name)
            return text
        if way < 5 and own:
            return f"{self.choices.choice(own)} = {(self.call(every, True) if self.likely(30) else None) or self.expression(every, 1)};"
        if way < 8:
            made = self.call(every, False)
            return f"{made};" if made else ";"
        if way == 8 and depth < 2:
            return f"{{ {self.statements(paths, own, depth + 1)} }}"
        if way == 9 and depth < 2:
            other = f" else {{ {self.statements(paths, own, depth + 1)} }}" if self.likely(50) else ""
            return f"if ({self.expression(every, 1)}) {{ {self.statements(paths, own, depth + 1)} }}{other}"
        if way >= 10 and depth < 2:
            return self.turns(paths, own, depth)
        return ";"

    def turns(self, paths, own, depth):
        """A `repeat` of a body, with an index or without."""
        index = self.name() if self.likely(50) else None
        count = str(self.choices.choice([0, 1, 2, 3, 9, 400])) if self.likely(80) else self.expression(paths + own, 1)
        inner = self.statements(paths + ([index] if index else []), own, depth + 1)
        return f"repeat ({f'{index} : ' if index else ''}{count}) {{ {inner} }}"
