"""Activities of the sources that tools/random makes by the rules."""


class Activities:
    """The part of `Models` that writes activities."""

    def activity(self, action, usable):
        """The activity of an action, which traverses each of its handles once."""
        self.action, self.usable, self.left = action, usable, list(action.handles)
        self.traversals = 0
        parts = [self.activity_statement(0, False) for _ in range(self.choices.randint(1, 4))]
        parts += [self.traversed_handle() for _ in list(self.left)]
        self.choices.shuffle(parts)
        parts += self.binds()
        return f"activity {{ {' '.join(parts)} }}"

    def traversed_handle(self):
        handle, it = self.left.pop()
        return f"{handle}{self.with_set(it)}"

    def with_set(self, it):
        """What comes behind a traversal."""
        if not self.likely(self.bound // 2):
            return ";"
        paths = self.paths_of_action(it) if not it.compound else self.paths_of(it.fields)
        around = self.paths_of(self.action.fields)
        paths = paths + paths + around
        return f" with {self.constraint(paths, it.fields)}" if paths else " with { }"

    def traversal(self):
        self.traversals += 1
        if not self.usable:
            return "{ }"
        it = self.choices.choice(self.usable)
        return f"do {self.type_name(it, self.action.component)}{self.with_set(it)}"

    def inner(self, depth, within, least=1, most=3):
        return " ".join(self.activity_statement(depth + 1, within) for _ in range(self.choices.randint(least, most)))

    def activity_statement(self, depth, within):
        """A statement; `within` says that handles may not be traversed here."""
        way = self.choices.randrange(20)
        if way < 8 or depth > 3 or self.traversals > 12:
            if self.left and not within and self.likely(40):
                return self.traversed_handle()
            return self.traversal()
        if way < 10:
            return f"{self.choice_of('sequence ', '')}{{ {self.inner(depth, within, 0)} }}"
        if way < 14:
            return self.block(depth, within)
        if way == 14:
            return self.selection(depth)
        if way == 15:
            return self.repetition(depth)
        if way == 16:
            other = f" else {{ {self.inner(depth, True)} }}" if self.likely(60) else ""
            return f"if ({self.condition()}) {{ {self.inner(depth, True)} }}{other}"
        if way == 17:
            return self.matching(depth)
        return ";" if way == 18 else f"{self.name()}: {self.traversal()}"

    def condition(self):
        return self.expression(self.paths_of(self.action.fields), 1)

    def block(self, depth, within):
        """A `parallel` or `schedule`, with a form of join or without."""
        word, count = self.choice_of("parallel", "schedule"), self.choices.randint(1, 4)
        labels = [self.name() if self.likely(50) else None for _ in range(count)]
        parts = [self.activity_statement(depth + 1, within) for _ in range(count)]
        named = [label for label in labels if label]
        texts = []
        for label, part in zip(labels, parts):
            whole = part if part != ";" else "{ }"
            texts.append(f"{label}: {{ {whole} }}" if label else whole)
        join = ""
        if self.likely(30):
            join = self.choice_of("join_none", f"join_select ({self.choices.randint(0, count)})")
            if named and self.likely(50):
                join = f"join_branch ({', '.join(self.choices.sample(named, self.choices.randint(1, len(named))))})"
        return f"{word} {join} {{ {' '.join(texts)} }}"

    def selection(self, depth):
        parts = []
        for _ in range(self.choices.randint(1, 3)):
            guard = f"({self.condition()}) " if self.likely(30) else ""
            weight = f"[{self.choices.choice([1, 1, 2, 10, 1000])}]" if self.likely(30) else ""
            colon = ": " if guard or weight else ""
            parts.append(f"{guard}{weight}{colon}{{ {self.inner(depth, True, 0, 2)} }}")
        return f"select {{ {' '.join(parts)} }}"

    def repetition(self, depth):
        index = self.name() if self.likely(50) else None
        fields = [it for it in self.action.fields if not it.size and 0 <= min(it.values) and max(it.values) < 5]
        count = str(self.choices.choice([0, 1, 2, 3])) if not fields or self.likely(60) else self.choices.choice(fields).name
        if index:
            self.indices.append(index)
        inner = self.inner(depth, True, 1, 2)
        if index:
            self.indices.pop()
        return f"repeat ({f'{index} : ' if index else ''}{count}) {{ {inner} }}"

    def matching(self, depth):
        parts, at = [], self.choices.choice([-2, 0, 0])
        for _ in range(self.choices.randint(1, 3)):
            high = at + self.choices.randint(0, 3)
            parts.append(f"[{at}{f'..{high}' if high > at else ''}]: {{ {self.inner(depth, True, 0, 2)} }}")
            at = high + 1
        if self.likely(70):
            parts.append(f"default: {{ {self.inner(depth, True, 0, 1)} }}")
        return f"match ({self.condition()}) {{ {' '.join(parts)} }}"

    def binds(self):
        """Binds of outputs of handles to inputs of other handles."""
        outputs = [(handle, name, it) for handle, action in self.action.handles for word, name, it in action.ends if word == "output"]
        inputs = [(handle, name, it) for handle, action in self.action.handles for word, name, it in action.ends if word == "input"]
        made = []
        for handle, name, it in outputs:
            fitting = [end for end in inputs if end[2] is it and end[0] != handle]
            if fitting and self.likely(60):
                end = self.choices.choice(fitting)
                inputs.remove(end)
                made.append(f"bind {handle}.{name} {end[0]}.{end[1]};")
        return made
