"""The same as a page."""
from html import escape

from .texts import few, share, statement_rows

STYLE = """
body { font: 14px/1.45 system-ui, "DejaVu Sans", sans-serif; color: #1c2733; margin: 24px auto; max-width: 1100px; padding: 0 16px; }
h1 { font-size: 20px; } h2 { font-size: 16px; margin: 26px 0 6px; }
table { border-collapse: collapse; } th, td { text-align: left; padding: 3px 10px 3px 0; vertical-align: top; border-bottom: 1px solid #e4e9ee; }
th { color: #57606a; font-weight: 600; } td.number { text-align: right; }
.meter { display: inline-block; width: 120px; height: 11px; background: #e4e9ee; border-radius: 3px; overflow: hidden; }
.meter i { display: block; height: 100%; background: #0072b2; }
td:nth-child(2) { white-space: nowrap; }
.bins { display: flex; flex-wrap: wrap; gap: 2px; max-width: 560px; }
.bins span { padding: 0 5px; border-radius: 3px; background: #cfe6f5; font-size: 12px; }
.bins span.none, td.none { background: #f7e3b5; }
.square td { text-align: right; border: 1px solid #e4e9ee; padding: 2px 8px; }
td.some { background: #cfe6f5; }
"""


def meter(hit, size):
    wide = 100 * hit // size if size else 0
    return f'<span class="meter"><i style="width:{wide}%"></i></span> {share(hit, size)} ({hit} of {size})'


def table(title, heads, rows, note=""):
    """A table whose cells are HTML already."""
    if not rows:
        return ""
    head = "".join(f"<th>{escape(it)}</th>" for it in heads)
    body = "\n".join("<tr>" + "".join(f"<td>{cell}</td>" for cell in row) + "</tr>" for row in rows)
    return f"<h2>{escape(title)}</h2>{note}<table><tr>{head}</tr>\n{body}</table>\n"


def boxes(labels, counts):
    """A box for each bin; one that was never hit is of another colour."""
    shown = zip(labels[:64], counts)
    found = "".join(f'<span{"" if count else " class=none"} title="{count} times">{escape(label)}</span>' for label, count in shown)
    return f'<div class="bins">{found}</div>' + (f"and {len(labels) - 64} more" if len(labels) > 64 else "")


def squares(gathered):
    found = ""
    for pool, fields in gathered.transitions.items():
        for field, seen in fields.items():
            labels = gathered.fields[gathered.model.pools[pool].kind.name, field].labels
            head = "".join(f"<th>{escape(it)}</th>" for it in labels)
            rows = ""
            for at, label in enumerate(labels):
                cells = [seen.get((at, to), 0) for to in range(len(labels))]
                rows += f"<tr><th>{escape(label)}</th>" + "".join(f'<td class="{"some" if it else ""}">{it or ""}</td>' for it in cells) + "</tr>\n"
            found += f"<h2>Transitions of {escape(pool)}, {escape(field)}</h2><p>From the row to the column.</p>"
            found += f'<table class="square"><tr><th></th>{head}</tr>\n{rows}</table>\n'
    return found


def draw(gathered, title):
    hit, size = gathered.total()
    outcomes = ", ".join(f"{count} {text}" for text, count in sorted(gathered.outcomes.items()))
    kinds = [
        [escape(it.name), "compound" if it.compound else "atomic", it.actions, it.inferred, it.scenarios, "" if it.actions else "<b>never seen</b>"]
        for it in gathered.kinds.values()
    ]
    fields = [[escape(it.name), meter(it.covered(), len(it.labels)), boxes(it.labels, it.counts)] for it in gathered.fields.values()]
    resources = [
        [escape(pool), meter(sum(1 for it in counts if it), len(counts)), boxes([str(at) for at in range(len(counts))], counts)]
        for pool, counts in gathered.resources.items()
    ]
    pairs = [[escape(it.name), meter(len(it.counts), it.size()), escape(few(it.missing(), 12))] for it in gathered.pairs]
    parts = [
        table("Action types", ["type", "", "actions", "inferred", "scenarios", ""], kinds),
        table("Fields", ["field", "bins", "each"], fields, "<p>Yellow: no scenario has a value of this bin.</p>"),
        table("Resource instances", ["pool", "instances", "each"], resources),
        table("Pairs of fields", ["fields", "bins", "never"], pairs),
        squares(gathered),
        table("Statements never taken", ["place", ""], [[escape(cell) for cell in row] for row in statement_rows(gathered)]),
    ]
    head = f'<!DOCTYPE html>\n<html lang="en"><head><meta charset="utf-8"><title>coverage: {escape(title)}</title><style>{STYLE}</style></head>'
    top = f"<h1>Coverage: {escape(title)}</h1><p>{gathered.scenarios} scenarios ({escape(outcomes)})</p><p>{meter(hit, size)}</p>"
    return f"{head}\n<body>{top}\n{''.join(parts)}</body></html>\n"
