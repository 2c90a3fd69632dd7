"""What sources mean, as far as the tools show it: instances, pools, which pool serves what, enums and the values of fields."""
from .expressions import NoValue, value_of
from .syntax import OBJECTS, read_sources

WIDEST = 2**63


class Pool:
    """A pool of a component instance. Its key is its path."""

    def __init__(self, instance, part, kind, size):
        self.instance, self.part, self.kind, self.size = instance, part, kind, size
        self.path = f"{instance}.{part.name}"


class Model:
    """The declarations of sources by name, with look-ups as docs/LANGUAGE.md has them."""

    def __init__(self, parts):
        self.parts = parts
        self.components = {part.name: part for part in parts if part.kind == "component"}
        self.actions = {f"{name}::{it.name}": it for name, whole in self.components.items() for it in whole.of_kind("action")}
        self.known_items, self.known_lists, self.known_pools = {}, {}, {}
        self.instances, self.pools = {}, {}
        if "pss_top" in self.components:
            self.place("pss_top", self.components["pss_top"], ())
        self.served = self.serving()

    def place(self, path, component, above):
        """Notes an instance with its pools, and those below it."""
        if component.name in above or len(self.instances) > 256:
            return
        self.instances[path] = component.name
        for part in component.of_kind("pool"):
            found = self.find(component, part.type, OBJECTS)
            size = self.number(part.size, component, 1) if part.size else 1
            self.pools[f"{path}.{part.name}"] = Pool(path, part, found, size)
        for part in component.of_kind("instance"):
            below = self.components.get(part.type)
            if below:
                self.place(f"{path}.{part.name}", below, (*above, component.name))

    def find(self, component, name, kinds):
        """What a type name stands for in a component."""
        outer, _, inner = name.rpartition("::")
        scopes = [self.components.get(outer)] if outer else [component]
        lists = [scope.parts for scope in scopes if scope] + ([] if outer else [self.parts])
        return next((part for it in lists for part in it if part.name == inner and part.kind in kinds), None)

    def chain(self, component, action):
        """An action with its bases, the farthest first."""
        found = []
        while action and action not in found:
            found.insert(0, action)
            base = action.base and action.base.rpartition("::")[2]
            action = next((it for it in self.components[component].of_kind("action") if it.name == base), None) if base else None
        return found

    def members(self, type_name, *kinds):
        """The members of an action type, its bases' first."""
        if (type_name, kinds) not in self.known_lists:
            component, action = type_name.split("::")[0], self.actions.get(type_name)
            chain = self.chain(component, action) if action else []
            self.known_lists[type_name, kinds] = [part for it in chain for part in it.of_kind(*kinds)]
        return self.known_lists[type_name, kinds]

    def content(self, type_name, kind):
        """The activity or the body of an action type, its own or its nearest base's."""
        component, action = type_name.split("::")[0], self.actions.get(type_name)
        for it in reversed(self.chain(component, action) if action else []):
            found = it.of_kind("activity", "body")
            if found:
                return found[0] if found[0].kind == kind else None
        return None

    def activity(self, type_name):
        return self.content(type_name, "activity")

    def member(self, type_name, name, *kinds):
        return next((part for part in self.members(type_name, *kinds) if part.name == name), None)

    def serving(self):
        """Which pools serve: explicit binds by instance, action and reference, defaults by instance, each with its depth."""
        exact, default = {}, {}
        for path, component in self.instances.items():
            for part in self.components[component].of_kind("bind"):
                pool = self.pools.get(f"{path}.{part.name}")
                if pool is None:
                    continue
                if part.targets is None:
                    default.setdefault(path, []).append(pool)
                for *inner, action, reference in part.targets or []:
                    exact.setdefault((".".join([path, *inner]), action, reference), []).append((path.count("."), pool))
        return exact, default

    def pool_of(self, instance, type_name, reference):
        """The pool that serves a reference or claim of an action in an instance, or nothing where none or several do."""
        key = (instance, type_name, reference)
        if key not in self.known_pools:
            self.known_pools[key] = self.find_pool(*key)
        return self.known_pools[key]

    def find_pool(self, instance, type_name, reference):
        exact, default = self.served
        part = self.member(type_name, reference, "input", "output", "lock", "share")
        found = exact.get((instance, type_name.split("::")[1], reference))
        if found:
            nearest = max(depth for depth, _ in found)
            pools = [pool for depth, pool in found if depth == nearest]
            return pools[0] if len({pool.path for pool in pools}) == 1 else None
        kind = part and self.find(self.components[type_name.split("::")[0]], part.type, OBJECTS)
        while kind and instance:
            pools = {pool.path: pool for pool in default.get(instance, []) if pool.kind is kind}
            if pools:
                return next(iter(pools.values())) if len(pools) == 1 else None
            instance = instance.rpartition(".")[0]
        return None

    def items(self, enum):
        """The values of an enum's items by name."""
        if id(enum) not in self.known_items:
            self.known_items[id(enum)] = values = {}
            last = -1
            for item in enum.parts:
                last = last + 1 if item.value is None else self.number(item.value, self.owner(enum), None)
                values[item.name] = last
                if last is None:
                    break
        return self.known_items[id(enum)]

    def owner(self, part):
        """The component in which a part is declared, or nothing at file level."""
        return next((whole for whole in self.components.values() if part in whole.parts), None)

    def item(self, names, component):
        """The value of an enum item that names stand for."""
        if len(names) > 1:
            enum = self.find(component, "::".join(names[:-1]), ("enum",))
            lists = [[enum]] if enum else []
        else:
            lists = [[part for part in it if part.kind == "enum"] for it in ([component.parts] if component else []) + [self.parts]]
        for enums in lists:
            for enum in enums:
                if names[-1] in (values := self.items(enum)) and values[names[-1]] is not None:
                    return values[names[-1]]
        raise NoValue

    def number(self, expression, component, other):
        """The value of a constant, or `other` where it has none."""

        def look_up(named):
            return self.item(named[1] if named[0] == "item" else [name for name, _ in named[1]], component)

        try:
            return value_of(expression, look_up)
        except NoValue:
            return other

    def enum_of(self, field, component):
        """The enum of a field's type, or nothing."""
        return self.find(component, field.type[1], ("enum",)) if field.type[0] == "enum" else None

    def plain_span(self, plain, component):
        """The least and the greatest value of a type without ranges that is no enum."""
        kind, width = plain
        bits = {"bit": 1, "int": 32, "bool": 1}[kind]
        if width:
            bits = self.number(width[0], component, bits) + (1 if width[1] else 0)
        return (-(2 ** (bits - 1)), 2 ** (bits - 1) - 1) if kind == "int" else (0, 2**bits - 1)

    def domain(self, field, component):
        """The values of a field's type: spans in ascending order."""
        kind, width, ranges = field.type
        if kind == "enum":
            enum = self.enum_of(field, component)
            values = sorted(value for value in (self.items(enum) if enum else {}).values() if value is not None)
            spans = [(value, value) for value in values]
        else:
            spans = [self.plain_span((kind, width), component)]
        if ranges is None:
            return joined(spans)
        allowed = joined([(self.number(first, component, 0), self.number(last, component, -1)) for first, last in ranges])
        return joined([(max(a, c), min(b, d)) for a, b in spans for c, d in allowed if max(a, c) <= min(b, d)])

    def item_name(self, field, component, value):
        """The name of the item of a field's enum that has a value, or nothing."""
        enum = self.enum_of(field, component)
        return next((name for name, it in self.items(enum).items() if it == value), None) if enum else None

    def object_fields(self, pool):
        """The fields of a pool's objects, and the component in which their type is declared."""
        return (pool.kind.of_kind("field"), self.owner(pool.kind)) if pool and pool.kind else ([], None)


def joined(spans):
    """The fewest spans with the values of some, in ascending order."""
    found = []
    for first, last in sorted(span for span in spans if span[0] <= span[1]):
        if found and first <= found[-1][1] + 1:
            found[-1] = (found[-1][0], max(last, found[-1][1]))
        else:
            found.append((first, last))
    return found


def read_model(names):
    """The model of files."""
    return Model(read_sources(names))
