"""The table of what is covered."""


def share(hit, size):
    return f"{100 * hit // size} %" if size else "-"


def few(labels, most=8):
    """Some labels, and how many more there are."""
    return ", ".join(labels[:most]) + (f", and {len(labels) - most} more" if len(labels) > most else "")


def table(title, heads, rows):
    """A title, and rows in columns that are as wide as they must be."""
    if not rows:
        return []
    rows = [heads, *[[str(cell) for cell in row] for row in rows]]
    widths = [max(len(row[at]) for row in rows) for at in range(len(heads))]
    lines = ["  " + "  ".join(cell.ljust(width) for cell, width in zip(row, widths)).rstrip() for row in rows]
    return ["", title, *lines]


def action_rows(gathered):
    for kind in gathered.kinds.values():
        note = "never seen" if not kind.actions else ""
        yield [kind.name, "compound" if kind.compound else "atomic", kind.actions, kind.inferred, kind.scenarios, note]


def field_rows(gathered):
    for bins in gathered.fields.values():
        yield [bins.name, f"{bins.covered()} of {len(bins.labels)}", share(bins.covered(), len(bins.labels)), few(bins.missing())]


def resource_rows(gathered):
    for pool, counts in gathered.resources.items():
        hit = sum(1 for count in counts if count)
        missing = [str(at) for at, count in enumerate(counts) if not count]
        yield [pool, f"{hit} of {len(counts)}", share(hit, len(counts)), few(missing)]


def pair_rows(gathered):
    for pair in gathered.pairs:
        yield [pair.name, f"{len(pair.counts)} of {pair.size()}", share(len(pair.counts), pair.size()), few(pair.missing(), 4)]


def statement_rows(gathered):
    for place, count in sorted(gathered.statements.values(), key=lambda it: (it[0].file, it[0].line, it[0].column)):
        if not count:
            yield [str(place), "never taken"]


def transition_lines(gathered):
    """A square for each field of a state pool that has at most 16 bins: from the row to the column."""
    lines = []
    for pool, fields in gathered.transitions.items():
        for field, seen in fields.items():
            bins = gathered.fields[gathered.model.pools[pool].kind.name, field]
            rows = [[label, *[seen.get((at, to), ".") for to in range(len(bins.labels))]] for at, label in enumerate(bins.labels)]
            lines += table(f"transitions of {pool}, {field} (from the row to the column; . is none)", ["", *bins.labels], rows)
    return lines


def lines_of(gathered):
    hit, size = gathered.total()
    outcomes = ", ".join(f"{count} {text}" for text, count in sorted(gathered.outcomes.items()))
    lines = [f"{gathered.scenarios} scenarios ({outcomes}): {hit} of {size} bins, {share(hit, size)}"]
    if gathered.unfilled:
        lines.append(f"{gathered.unfilled} of them aren't scenarios of these sources; their statements aren't counted")
    lines += table("action types", ["type", "", "actions", "inferred", "scenarios", ""], list(action_rows(gathered)))
    lines += table("fields", ["field", "bins", "", "never"], list(field_rows(gathered)))
    lines += table("resource instances", ["pool", "instances", "", "never"], list(resource_rows(gathered)))
    lines += table("pairs", ["fields", "bins", "", "never"], list(pair_rows(gathered)))
    lines += transition_lines(gathered)
    return lines + table("statements of activities", ["place", ""], list(statement_rows(gathered)))


def write(gathered, out):
    out.write("\n".join(lines_of(gathered)) + "\n")
