"""Statements of activities, constraints and bodies: how they are read. A statement is a `Step`."""
from .tokens import Fault


class Step:
    """A statement of an activity: its kind, its place, its label, and what it has."""

    def __init__(self, kind, place, **more):
        self.kind, self.place, self.label = kind, place, None
        self.__dict__.update(more)


class Activities:
    """The part of the parser that reads what stands in actions."""

    def activity(self):
        start = self.take().place
        steps = self.block(self.statement)
        part = self.made("activity", start)
        part.steps = steps
        return part

    def made(self, kind, start):
        """A part without a name."""
        from .syntax import Part

        part = Part(kind, kind, start, start)
        part.stop = self.behind()
        return part

    def block(self, reader):
        self.need("{")
        found = []
        while not self.skip("}"):
            found.append(self.nested(reader))
        return found

    def statement(self):
        place = self.here()
        if self.skip(";"):
            return Step("empty", place)
        label = None
        if self.kind() == "name" and self.kind(1) == ":":
            label = self.take().text
            self.take()
        step = self.core(place)
        step.label = label
        return step

    def core(self, place):
        kind = self.kind()
        readers = {
            "do": self.traversal, "name": self.handle_use, "sequence": self.sequence, "{": self.sequence, "parallel": self.joined,
            "schedule": self.joined, "select": self.select, "repeat": self.repeat, "if": self.conditional, "match": self.match,
            "bind": self.tie,
        }
        if kind not in readers:
            raise Fault("syntax", self.here())
        return readers[kind](place)

    def traversal(self, place):
        self.take()
        step = Step("traverse", place, type=self.type_name(), handle=None)
        self.with_part()
        return step

    def handle_use(self, place):
        step = Step("traverse", place, type=None, handle=self.need("name").text)
        self.with_part()
        return step

    def with_part(self):
        if self.kind() == "with":
            self.take()
            self.constraint_set()
        else:
            self.need(";")

    def sequence(self, place):
        self.skip("sequence")
        return Step("sequence", place, steps=self.block(self.statement))

    def joined(self, place):
        kind = self.take().kind
        join = self.join()
        return Step(kind, place, join=join, steps=self.block(self.statement))

    def join(self):
        kind = self.kind()
        if not self.skip("join_branch", "join_none", "join_select"):
            return None
        if kind == "join_none":
            return (kind, None)
        self.need("(")
        if kind == "join_select":
            given = self.expression()
        else:
            given = [self.need("name").text]
            while self.skip(","):
                given.append(self.need("name").text)
        self.need(")")
        return (kind, given)

    def select(self, place):
        self.take()
        self.need("{")
        branches = [self.branch()]
        while not self.skip("}"):
            branches.append(self.branch())
        return Step("select", place, branches=branches)

    def branch(self):
        guard = None
        if self.kind() in ("(", "["):
            if self.skip("("):
                guard = self.expression()
                self.need(")")
            if self.skip("["):
                self.expression()
                self.need("]")
            self.need(":")
        return (guard, self.nested(self.statement))

    def counted(self):
        """The name of an index, where there is one, and the count of a `repeat`."""
        self.need("(")
        index = None
        if self.kind() == "name" and self.kind(1) == ":":
            index = self.take().text
            self.take()
        count = self.expression()
        self.need(")")
        return index, count

    def repeat(self, place):
        self.take()
        index, count = self.counted()
        return Step("repeat", place, index=index, count=count, inner=self.nested(self.statement))

    def conditional(self, place):
        self.take()
        condition, first = self.bracketed(), self.nested(self.statement)
        other = self.nested(self.statement) if self.skip("else") else None
        return Step("if", place, condition=condition, first=first, other=other)

    def match(self, place):
        self.take()
        value = self.bracketed()
        self.need("{")
        arms = [self.arm()]
        while not self.skip("}"):
            arms.append(self.arm())
        return Step("match", place, value=value, arms=arms)

    def arm(self):
        ranges = None if self.skip("default") else self.bracketed_ranges()
        self.need(":")
        return (ranges, self.nested(self.statement))

    def tie(self, place):
        self.take()
        self.end()
        if self.skip("{"):
            self.end()
            while self.skip(","):
                self.end()
            self.need("}")
        else:
            self.end()
        self.need(";")
        return Step("empty", place)

    def end(self):
        self.need("name")
        self.need(".")
        self.need("name")

    def constraint(self):
        start = self.need("constraint").place
        name = None
        if self.kind() == "name" and self.kind(1) == "{":
            name = self.take()
            self.block(self.constraint_item)
        else:
            self.constraint_set()
        part = self.made("constraint", start)
        if name:
            part.name, part.place = name.text, name.place
        return part

    def constraint_set(self):
        if self.kind() == "{":
            self.block(self.constraint_item)
        else:
            self.nested(self.constraint_item)

    def constraint_item(self):
        if self.skip(";"):
            return
        if self.skip("if"):
            self.bracketed()
            self.constraint_set()
            if self.skip("else"):
                self.constraint_set()
        elif self.skip("unique"):
            self.need("{")
            self.expression()
            while self.skip(","):
                self.expression()
            self.need("}")
            self.need(";")
        elif self.skip("foreach"):
            self.elements()
        else:
            self.expression()
            if self.kind() == "->":
                self.take()
                self.constraint_set()
            else:
                self.need(";")

    def elements(self):
        """What stands behind `foreach`."""
        self.need("(")
        self.need("name")
        while self.skip("."):
            self.need("name")
        self.need("[")
        self.need("name")
        self.need("]")
        self.need(")")
        self.constraint_set()

    def body(self):
        start = self.take().place
        self.need("body")
        steps = self.block(self.body_statement)
        part = self.made("body", start)
        part.steps = steps
        return part

    def body_statement(self):
        """A statement of a body: empty, block, if, repeat, local, assign or call."""
        kind, place = self.kind(), self.here()
        if self.skip(";"):
            return Step("empty", place)
        if kind == "{":
            return Step("block", place, steps=self.block(self.body_statement))
        if self.skip("if"):
            condition, first = self.bracketed(), self.nested(self.body_statement)
            other = self.nested(self.body_statement) if self.skip("else") else None
            return Step("if", place, condition=condition, first=first, other=other)
        if self.skip("repeat"):
            index, count = self.counted()
            return Step("repeat", place, index=index, count=count, inner=self.nested(self.body_statement))
        return self.local(place) if kind in ("int", "bit", "bool") else self.assignment(place)

    def local(self, place):
        kind, name = self.plain(), self.need("name").text
        step = Step("local", place, type=kind, name=name, source=self.source() if self.skip("=") else None)
        self.need(";")
        return step

    def assignment(self, place):
        name = self.need("name").text
        if self.kind() == "(":
            step = Step("call", place, source=("call", name, self.arguments()))
        else:
            self.need("=")
            step = Step("assign", place, name=name, source=self.source())
        self.need(";")
        return step

    def source(self):
        """What gives a value: an expression, or ("call", the function's name, its arguments)."""
        if self.kind() == "name" and self.kind(1) == "(":
            return ("call", self.take().text, self.arguments())
        return self.expression()

    def arguments(self):
        self.need("(")
        found = []
        while self.kind() != ")":
            found.append(self.expression())
            if self.kind() != ")":
                self.need(",")
                if self.kind() == ")":
                    raise Fault("syntax", self.here())
        self.take()
        return found
