"""Bins of a field: the parts of its domain that are counted."""
from bisect import bisect_right

MOST = 16


class Bins:
    """The bins of a field, with how often a value fell into each. `place` is that of the field's declaration."""

    def __init__(self, name, place, parts):
        self.name, self.place = name, place
        self.labels = [label for label, _, _ in parts]
        self.firsts = [first for _, first, _ in parts]
        self.lasts = [last for _, _, last in parts]
        self.counts = [0] * len(parts)

    def at(self, value):
        """The number of the bin of a value, or nothing."""
        found = bisect_right(self.firsts, value) - 1
        return found if found >= 0 and value <= self.lasts[found] else None

    def add(self, value):
        found = self.at(value)
        if found is not None:
            self.counts[found] += 1

    def covered(self):
        return sum(1 for count in self.counts if count)

    def missing(self):
        return [label for label, count in zip(self.labels, self.counts) if not count]


def label_of(first, last):
    return str(first) if first == last else f"{first}..{last}"


def parts_of(spans, names):
    """The bins of a domain: one for each enum item; one for each value where there are at most 16; one for each range where there
    are several; else 16 parts of as equal a size as can be."""
    if names:
        return sorted(((name, value, value) for value, name in names.items() if any(a <= value <= b for a, b in spans)), key=lambda it: it[1])
    total = sum(last - first + 1 for first, last in spans)
    if total <= MOST:
        return [(str(value), value, value) for first, last in spans for value in range(first, last + 1)]
    if 1 < len(spans) <= MOST:
        return [(label_of(first, last), first, last) for first, last in spans]
    if len(spans) > MOST:
        groups = [spans[len(spans) * at // MOST : len(spans) * (at + 1) // MOST] for at in range(MOST)]
        return [(label_of(group[0][0], group[-1][1]), group[0][0], group[-1][1]) for group in groups]
    first = spans[0][0]
    edges = [first + total * at // MOST for at in range(MOST + 1)]
    return [(label_of(edges[at], edges[at + 1] - 1), edges[at], edges[at + 1] - 1) for at in range(MOST)]


def bins_of(model, name, field, component):
    """The bins of a field of a component's action or object."""
    enum = model.enum_of(field, component)
    names = {value: item for item, value in model.items(enum).items()} if enum else None
    return Bins(name, field.place, parts_of(model.domain(field, component), names))


class Pair:
    """Two fields of one action, whose bins are counted together."""

    def __init__(self, first, second):
        self.first, self.second, self.counts = first, second, {}
        self.name = f"{first.name} with {second.name}"

    def add(self, one, other):
        key = (self.first.at(one), self.second.at(other))
        if None not in key:
            self.counts[key] = self.counts.get(key, 0) + 1

    def size(self):
        return len(self.first.labels) * len(self.second.labels)

    def missing(self):
        keys = ((a, b) for a in range(len(self.first.labels)) for b in range(len(self.second.labels)))
        return [f"{self.first.labels[a]} with {self.second.labels[b]}" for a, b in keys if (a, b) not in self.counts]
