"""What the body of an action calls, as far as that is known before it runs.

A body is run with the values that the header gives, by docs/EXECUTION.md. The answers of its calls aren't known: where one is
needed, or the body would trap, it is refused."""
from reading_parts.expressions import NoValue, value_of

MOST_COUNTS = 1000
TRAPS = {1: "it needs a value that isn't there", 2: "a value is outside its range", 3: "its 1,001st statement or turn begins"}


class Refused(Exception):
    """A body of which no test can be written, with the place of the statement."""


class Answer:
    """The value of a local that is the answer of a function."""

    def __init__(self, function):
        self.function = function


class Function:
    """An imported function: its part, the component that declares it, and the spans of its parameters and of its answer."""

    def __init__(self, model, part):
        owner = model.owner(part)
        self.name, self.component = part.name, owner.name if owner else None
        self.parameters = [(it.name, it.type[0], model.plain_span(it.type, owner)) for it in part.parts]
        self.answer = (part.answer[0], model.plain_span(part.answer, owner)) if part.answer else None


class Functions:
    """The imported functions that are called."""

    def __init__(self, model):
        self.model, self.known = model, {}

    def named(self, name, component):
        """The function that a name stands for in a component."""
        part = self.model.find(component, name, ("function",))
        if part is None:
            raise Refused(f"calls {name}, which the sources don't declare")
        if id(part) not in self.known:
            self.known[id(part)] = Function(self.model, part)
        return self.known[id(part)]


class Body:
    """A run of the body of an action; `calls` has the functions that it calls with the values of their arguments."""

    def __init__(self, model, trace, functions, action):
        self.model, self.trace, self.functions, self.action = model, trace, functions, action
        self.component = model.components[action.type.split("::")[0]]
        self.scopes, self.count, self.calls = [{}], 0, []

    def run(self):
        part = self.model.content(self.action.type, "body")
        if part:
            self.steps(part.steps)
        return self.calls

    def trap(self, kind):
        raise Refused(f"traps by kind {kind}: {TRAPS[kind]}")

    def tick(self):
        """A statement or a turn begins."""
        if self.count == MOST_COUNTS:
            self.trap(3)
        self.count += 1

    def steps(self, steps, scope=None):
        """Runs statements in a scope of their own."""
        self.scopes.append(dict(scope or {}))
        for step in steps:
            try:
                self.step(step)
            except Refused as refused:
                raise refused if hasattr(refused, "place") else placed(refused, step.place)
        self.scopes.pop()

    def step(self, step):
        if step.kind == "empty":
            return
        if step.kind == "block":
            self.steps(step.steps)
            return
        self.tick()
        if step.kind == "if":
            chosen = step.first if self.value(step.condition) else step.other
            self.steps([chosen] if chosen else [])
        elif step.kind == "repeat":
            self.turns(step)
        elif step.kind == "call":
            self.call(step.source)
        else:
            self.store(step)

    def turns(self, step):
        count = self.value(step.count)
        if count < 0:
            self.trap(1)
        for turn in range(count):
            self.tick()
            self.scopes.append({step.index: [turn, None]} if step.index else {})
            self.steps([step.inner])
            self.scopes.pop()

    def store(self, step):
        """A declaration or an assignment."""
        if step.kind == "local":
            local = [0, self.model.plain_span(step.type, self.component)]
            value = self.source(step.source, local[1]) if step.source else 0
            self.scopes[-1][step.name] = local
        else:
            local = self.local(step.name)
            value = self.source(step.source, local[1])
        local[0] = value

    def local(self, name):
        found = next((scope[name] for scope in reversed(self.scopes) if name in scope), None)
        if found is None:
            raise Refused(f"assigns to {name}, which is no local")
        return found

    def source(self, source, span):
        """The value that a local of a span gets."""
        if source[0] != "call":
            value = self.value(source)
            return value if span[0] <= value <= span[1] else self.trap(2)
        function = self.call(source)
        least, greatest = function.answer[1] if function.answer else (0, 0)
        if least < span[0] or greatest > span[1]:
            raise Refused(f"needs the answer of {function.name}: not each fits the local")
        return Answer(function)

    def call(self, source):
        function, values = self.functions.named(source[1], self.component), []
        if len(source[2]) != len(function.parameters):
            raise Refused(f"calls {function.name} with another number of arguments")
        for argument, (_, _, span) in zip(source[2], function.parameters):
            values.append(self.value(argument))
            if not span[0] <= values[-1] <= span[1]:
                self.trap(2)
        self.calls.append((function, values))
        return function

    # ---- values

    def value(self, expression):
        try:
            return value_of(expression, self.look_up)
        except NoValue:
            return self.trap(1)

    def look_up(self, named):
        if named[0] == "item":
            return self.model.item(named[1], self.component)
        (name, index), *more = named[1]
        if more:
            return self.behind(name, *more)
        for scope in reversed(self.scopes):
            if name in scope:
                return self.known(name, scope[name][0])
        if self.model.member(self.action.type, name, "field"):
            return self.field(self.action.fields, name, index)
        return self.model.item([name], self.component)

    def known(self, name, value):
        if isinstance(value, Answer):
            raise Refused(f"needs the answer of {value.function.name}: it is in {name}")
        return value

    def field(self, fields, name, index):
        key = name if index is None else f"{name}[{value_of(index, self.look_up)}]"
        if key not in fields:
            raise NoValue
        return fields[key]

    def behind(self, name, field, *more):
        """What a name behind a reference or claim stands for."""
        if more:
            raise NoValue
        action, word = self.action, field[0]
        if name in action.claims:
            number, fields = action.claims[name]
            return number if word == "instance_id" else self.field(fields, *field)
        part = self.model.member(action.type, name, "input", "output")
        if part is None:
            raise NoValue
        if word == "initial":
            return int(part.kind == "input" and action.links.get(name, ()) is None)
        return self.field(self.object(name, part), *field)

    def object(self, name, part):
        """The fields of the object of a reference."""
        action = self.action
        if part.kind == "output":
            return action.objects.get(name, {})
        link = action.links.get(name)
        if link:
            return self.trace.actions[link[0]].objects.get(link[1], {})
        pool = self.model.pool_of(action.instance, action.type, name)
        return next((it.fields for it in self.trace.initials if pool and it.pool == pool.path), {})


def placed(refused, place):
    refused.place = place
    return refused
