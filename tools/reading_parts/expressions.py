"""Expressions of sources: how they are read, and the values of those that have one (docs/LANGUAGE.md, "Values of expressions").

An expression is a tuple: ("number", n), ("path", [(name, index or None)..]), ("item", [name..]), ("-" "!" or "~", part),
(operator, left, right), ("in", left, ranges), where a range is a pair of expressions."""
LEVELS = [
    ["||"], ["&&"], ["|"], ["^"], ["&"], ["==", "!="], ["<", "<=", ">", ">=", "in"], ["<<", ">>"], ["+", "-"], ["*", "/", "%"],
]
LEAST, GREATEST = -(2**63), 2**63 - 1


class NoValue(Exception):
    """An expression that has no value."""


class Expressions:
    """The part of the parser that reads expressions; `Cursor` of syntax.py has the calls that look at tokens."""

    def expression(self, level=0):
        if level == len(LEVELS):
            return self.unary()
        left = self.expression(level + 1)
        while self.kind() in LEVELS[level]:
            operator = self.take()
            if operator.kind == "in":
                left = ("in", left, self.bracketed_ranges())
            else:
                left = (operator.kind, left, self.expression(level + 1))
        return left

    def unary(self):
        if self.kind() in ("-", "!", "~"):
            return self.nested(lambda: (self.take().kind, self.unary()))
        return self.primary()

    def primary(self):
        if self.kind() == "number":
            return ("number", int(self.take().text, 0))
        if self.kind() in ("true", "false"):
            return ("number", int(self.take().kind == "true"))
        return self.nested(self.bracketed) if self.kind() == "(" else self.path()

    def bracketed(self):
        self.need("(")
        inner = self.expression()
        self.need(")")
        return inner

    def path(self):
        name = self.need("name").text
        if self.kind() == "::":
            names = [name]
            while self.skip("::"):
                names.append(self.need("name").text)
                if len(names) == 3:
                    break
            return ("item", names)
        steps = [(name, self.index())]
        while self.skip("."):
            steps.append((self.need("name").text, self.index()))
        return ("path", steps)

    def index(self):
        return self.nested(self.bracketed_index) if self.kind() == "[" else None

    def bracketed_index(self):
        self.need("[")
        inner = self.expression()
        self.need("]")
        return inner

    def ranges(self):
        found = [self.range()]
        while self.skip(","):
            found.append(self.range())
        return found

    def range(self):
        first = self.expression()
        return (first, self.expression() if self.skip("..") else first)

    def bracketed_ranges(self):
        self.need("[")
        found = self.ranges()
        self.need("]")
        return found


def checked(value):
    if not LEAST <= value <= GREATEST:
        raise NoValue
    return value


def divided(left, right):
    if right == 0:
        raise NoValue
    quotient = abs(left) // abs(right)
    return quotient if (left < 0) == (right < 0) else -quotient


def shifted(operator, left, count):
    if not 0 <= count <= 63:
        raise NoValue
    return left << count if operator == "<<" else left >> count


STRICT = {
    "+": lambda a, b: a + b,
    "-": lambda a, b: a - b,
    "*": lambda a, b: a * b,
    "/": divided,
    "%": lambda a, b: a - b * divided(a, b),
    "<<": lambda a, b: shifted("<<", a, b),
    ">>": lambda a, b: shifted(">>", a, b),
    "&": lambda a, b: a & b,
    "|": lambda a, b: a | b,
    "^": lambda a, b: a ^ b,
    "<": lambda a, b: int(a < b),
    "<=": lambda a, b: int(a <= b),
    ">": lambda a, b: int(a > b),
    ">=": lambda a, b: int(a >= b),
    "==": lambda a, b: int(a == b),
    "!=": lambda a, b: int(a != b),
}


def value_of(expression, look_up):
    """The value of an expression; `look_up` gives those of its paths and items. Raises NoValue where there is none."""
    kind = expression[0]
    if kind == "number":
        return expression[1]
    if kind in ("path", "item"):
        return look_up(expression)
    if len(expression) == 2:
        value = value_of(expression[1], look_up)
        return checked(-value if kind == "-" else int(not value) if kind == "!" else ~value)
    left = value_of(expression[1], look_up)
    if kind in ("&&", "||"):
        return int(left != 0) if bool(left) == (kind == "||") else int(value_of(expression[2], look_up) != 0)
    if kind == "in":
        return int(any(within(left, ends, look_up) for ends in expression[2]))
    return checked(STRICT[kind](left, value_of(expression[2], look_up)))


def within(value, ends, look_up):
    """Whether a value is in a range."""
    return value >= value_of(ends[0], look_up) and value <= value_of(ends[1], look_up)


def paths_in(expression):
    """The paths and items that an expression names."""
    if expression[0] in ("path", "item"):
        yield expression
        for _, index in expression[1] if expression[0] == "path" else []:
            if index is not None:
                yield from paths_in(index)
    elif expression[0] == "in":
        yield from paths_in(expression[1])
        for first, last in expression[2]:
            yield from paths_in(first)
            yield from paths_in(last)
    elif expression[0] != "number":
        for part in expression[1:]:
            yield from paths_in(part)
