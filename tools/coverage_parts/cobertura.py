"""The same as Cobertura XML, which CI pages show beside the sources: a line for each declaration of an action type or field and for
each statement that asks for an action; the bins of a field are the branches of its line."""
import os
import time
from xml.sax.saxutils import quoteattr


class Line:
    """A line of a source: how often it was hit, and its bins."""

    def __init__(self):
        self.hits, self.bins, self.covered = 0, 0, 0


def lines_of(gathered):
    """The lines by file."""
    files = {}

    def at(place):
        return files.setdefault(place.file, {}).setdefault(place.line, Line())

    for kind in gathered.kinds.values():
        at(kind.part.place).hits += kind.actions
    for place, count in gathered.statements.values():
        at(place).hits += count
    for bins in gathered.fields.values():
        line = at(bins.place)
        line.hits += sum(bins.counts)
        line.bins += len(bins.labels)
        line.covered += bins.covered()
    return files


class Rates:
    """What some lines come to."""

    def __init__(self, lines):
        self.valid, self.covered = len(lines), sum(1 for line in lines if line.hits)
        self.branches, self.taken = sum(line.bins for line in lines), sum(line.covered for line in lines)

    def attributes(self):
        lines = self.covered / self.valid if self.valid else 1
        branches = self.taken / self.branches if self.branches else 1
        return f'line-rate="{lines:.4f}" branch-rate="{branches:.4f}" complexity="0"'


def line_text(number, line):
    if not line.bins:
        return f'          <line number="{number}" hits="{line.hits}" branch="false"/>\n'
    share = f"{100 * line.covered // line.bins}%"
    condition = f'<conditions><condition number="0" type="jump" coverage="{share}"/></conditions>'
    said = f'condition-coverage="{share} ({line.covered}/{line.bins})"'
    return f'          <line number="{number}" hits="{line.hits}" branch="true" {said}>{condition}</line>\n'


def write(gathered, out):
    files = lines_of(gathered)
    total = Rates([line for lines in files.values() for line in lines.values()])
    counts = f'lines-covered="{total.covered}" lines-valid="{total.valid}" branches-covered="{total.taken}" branches-valid="{total.branches}"'
    stamp = int(os.environ.get("SOURCE_DATE_EPOCH", time.time()))
    out.write('<?xml version="1.0" encoding="UTF-8"?>\n<!DOCTYPE coverage SYSTEM "http://cobertura.sourceforge.net/xml/coverage-04.dtd">\n')
    out.write(f'<coverage {total.attributes()} {counts} version="1" timestamp="{stamp}">\n')
    out.write(f'  <sources><source>.</source></sources>\n  <packages>\n    <package name="intent" {total.attributes()}>\n      <classes>\n')
    for file, lines in sorted(files.items()):
        name = quoteattr(os.path.splitext(os.path.basename(file))[0])
        out.write(f'        <class name={name} filename={quoteattr(os.path.relpath(file))} {Rates(lines.values()).attributes()}>\n')
        out.write("          <methods/>\n          <lines>\n")
        out.write("".join("  " + line_text(number, line) for number, line in sorted(lines.items())))
        out.write("          </lines>\n        </class>\n")
    out.write("      </classes>\n    </package>\n  </packages>\n</coverage>\n")
