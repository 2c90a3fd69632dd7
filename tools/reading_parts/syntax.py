"""Reads a source into its declarations, by the grammar of docs/LANGUAGE.md. What begins a declaration is a `Part`; the same
places are refused as the program refuses, but for the limits on operators."""
from .activities import Activities
from .expressions import Expressions
from .tokens import Fault, Place, tokens_of

DEEPEST = 64
OBJECTS = ("buffer", "stream", "state", "resource")


class Part:
    """A declaration: its kind, its name, its place (that of its name), where it begins and where it ends, and what it has."""

    def __init__(self, kind, name, place, start, **more):
        self.kind, self.name, self.place, self.start, self.stop = kind, name, place, start, place
        self.parts = []
        self.__dict__.update(more)

    def of_kind(self, *kinds):
        return [part for part in self.parts if part.kind in kinds]


class Cursor:
    """A place in a list of tokens."""

    def __init__(self, tokens):
        self.tokens, self.at, self.depth = tokens, 0, 0

    def kind(self, ahead=0):
        return self.tokens[min(self.at + ahead, len(self.tokens) - 1)].kind

    def here(self):
        return self.tokens[self.at].place

    def behind(self):
        """Where the last token that was taken ends."""
        return self.tokens[max(self.at - 1, 0)].stop

    def take(self):
        token = self.tokens[self.at]
        self.at += 1
        return token

    def skip(self, *kinds):
        """Takes a token of one of the kinds; whether there was one."""
        if self.kind() in kinds:
            self.at += 1
            return True
        return False

    def need(self, *kinds):
        if self.kind() not in kinds:
            raise Fault("syntax", self.here())
        return self.take()

    def nested(self, reader):
        self.depth += 1
        if self.depth > DEEPEST:
            raise Fault("syntax deep", self.here())
        found = reader()
        self.depth -= 1
        return found


class Declarations:
    """The part of the parser that reads declarations."""

    def unit(self):
        found = []
        while self.kind() != "end":
            if self.skip(";"):
                continue
            readers = {"component": self.component, "enum": self.enum, "import": self.function, **dict.fromkeys(OBJECTS, self.object)}
            reader = readers.get(self.kind())
            if reader is None:
                raise Fault("syntax", self.here())
            found.append(self.nested(reader) if self.kind() == "component" else reader())
        return found

    def braced(self, part, member):
        """Reads members in braces into a part."""
        self.need("{")
        while not self.skip("}"):
            if not self.skip(";"):
                part.parts += member()
        part.stop = self.behind()
        return part

    def headed(self, kind, start):
        name = self.need("name")
        return Part(kind, name.text, name.place, start)

    def component(self):
        start = self.take().place
        return self.braced(self.headed("component", start), self.component_member)

    def component_member(self):
        kind = self.kind()
        if kind in ("action", "abstract"):
            return [self.nested(self.action)]
        if kind in OBJECTS:
            return [self.object()]
        if kind in ("enum", "import"):
            return [self.enum() if kind == "enum" else self.function()]
        if kind == "pool":
            return [self.pool()]
        return [self.pool_bind()] if kind == "bind" else self.members("instance")

    def object(self):
        start = self.take()
        return self.braced(self.headed(start.kind, start.place), self.object_member)

    def object_member(self):
        return self.fields() if self.kind() == "rand" else [self.constraint()]

    def enum(self):
        part = self.headed("enum", self.take().place)
        self.need("{")
        while True:
            name = self.need("name")
            item = Part("item", name.text, name.place, name.place)
            item.value = self.expression() if self.skip("=") else None
            item.stop = self.behind()
            part.parts.append(item)
            if not self.skip(","):
                break
        self.need("}")
        part.stop = self.behind()
        return part

    def function(self):
        start = self.take().place
        self.skip("target")
        self.need("function")
        answer = None if self.skip("void") else self.plain()
        part = self.headed("function", start)
        part.answer = answer
        self.need("(")
        while self.kind() != ")":
            if part.parts:
                self.need(",")
            self.skip("input")
            kind, name = self.plain(), self.need("name")
            part.parts.append(Part("parameter", name.text, name.place, name.place, type=kind))
        self.take()
        self.need(";")
        part.stop = self.behind()
        return part

    def plain(self):
        kind = self.need("int", "bit", "bool").kind
        if kind == "bool" or not self.skip("["):
            return (kind, None)
        width = (self.expression(), self.expression() if self.skip(":") else None)
        self.need("]")
        return (kind, width)

    def type(self):
        base = self.plain() if self.kind() in ("int", "bit", "bool") else ("enum", self.type_name())
        return (*base, self.bracketed_ranges() if self.skip("in") else None)

    def type_name(self):
        names = [self.need("name").text]
        if self.skip("::"):
            names.append(self.need("name").text)
        return "::".join(names)

    def pool(self):
        start, size = self.take().place, None
        if self.skip("["):
            size = self.expression()
            self.need("]")
        kind = self.type_name()
        part = self.headed("pool", start)
        part.type, part.size = kind, size
        self.need(";")
        part.stop = self.behind()
        return part

    def pool_bind(self):
        start = self.take().place
        part = self.headed("bind", start)
        if self.skip("*"):
            part.targets = None
        elif self.skip("{"):
            part.targets = [self.target()]
            while self.skip(","):
                part.targets.append(self.target())
            self.need("}")
        else:
            part.targets = [self.target()]
        self.need(";")
        part.stop = self.behind()
        return part

    def target(self):
        names = [self.need("name").text]
        while self.kind() == "." or len(names) < 2:
            self.need(".")
            names.append(self.need("name").text)
        return names

    def members(self, kind):
        """Names behind a type: component instances, handles, references or claims."""
        start, made = self.here(), self.type_name()
        found = [self.headed(kind, start)]
        while self.skip(","):
            found.append(self.headed(kind, start))
        self.need(";")
        for part in found:
            part.type, part.stop = made, self.behind()
        return found

    def action(self):
        start, abstract = self.here(), self.skip("abstract")
        self.need("action")
        part = self.headed("action", start)
        part.abstract = abstract
        part.base = self.type_name() if self.skip(":") else None
        return self.braced(part, self.action_member)

    def action_member(self):
        kind = self.kind()
        if kind == "rand":
            return self.fields()
        if kind in ("input", "output", "lock", "share"):
            self.take()
            return self.members(kind)
        if kind == "constraint":
            return [self.constraint()]
        if kind == "activity":
            return [self.activity()]
        return [self.body()] if kind == "exec" else self.members("handle")

    def fields(self):
        start = self.take().place
        kind, found = self.type(), []
        while True:
            part = self.headed("field", start)
            part.type, part.size = kind, self.index()
            part.stop = self.behind()
            found.append(part)
            if not self.skip(","):
                break
        self.need(";")
        return found


class Parser(Cursor, Expressions, Activities, Declarations):
    """Reads the tokens of one file."""


def read_source(text, file):
    """The declarations of a source, in bytes. Raises Fault where it is none."""
    return Parser(tokens_of(text, file)).unit()


def read_sources(names):
    """The declarations of files, one list for all."""
    found = []
    for name in names:
        with open(name, "rb") as file:
            found += read_source(file.read(), name)
    return found


__all__ = ["Fault", "Parser", "Part", "Place", "read_source", "read_sources"]
