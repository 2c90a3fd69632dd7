"""Tables of sweeps: how one is read, and how several become that of one sweep over all their seeds."""
import re

NUMBER = "(0|[1-9][0-9]*)"
ROW = re.compile(rf"seed {NUMBER} (?:found {NUMBER} {NUMBER}|noscenario|budget {NUMBER})")
USE = re.compile(rf"use (\S+) {NUMBER}")


class BadTable(Exception):
    """A text that isn't the table of a sweep, or tables that don't fit one another."""


class Table:
    """The rows of a sweep, as they are printed, and how often each action type is used."""

    def __init__(self):
        self.rows, self.uses = [], {}

    def found(self):
        """How many rows have a scenario."""
        return sum(ROW.fullmatch(row)[2] is not None for row in self.rows)

    def actions(self):
        """How many actions all scenarios have."""
        return sum(int(ROW.fullmatch(row)[2] or 0) for row in self.rows)

    def text(self):
        uses = [f"use {name} {total}" for name, total in self.uses.items()]
        return "\n".join([f"sweep {len(self.rows)}", *self.rows, *uses, f"found {self.found()}"]) + "\n"


def read(text, first, count):
    """The table of these seeds. What it says twice must agree: the numbers of rows and actions, and the seeds."""
    table = Table()
    for number, line in enumerate(text.decode("ascii", "replace").split("\n")[1:-2]):
        row, use = ROW.fullmatch(line), USE.fullmatch(line)
        if row and not table.uses and int(row[1]) == first + number:
            table.rows.append(line)
        elif use and int(use[2]):
            table.uses[use[1]] = int(use[2])
        else:
            raise BadTable(f"'{line}' isn't the line of its table that is due")
    if len(table.rows) != count or table.text().encode() != text or sum(table.uses.values()) != table.actions():
        raise BadTable("it isn't a whole table of these seeds")
    return table


def merged(tables, types):
    """The table of all seeds, those of each table behind those of the one before. The types that are used come in the order of all
    types of the sources."""
    whole, totals = Table(), {}
    for table in tables:
        whole.rows += table.rows
        for name, uses in table.uses.items():
            totals[name] = totals.get(name, 0) + uses
    unknown = [name for name in totals if name not in types]
    if unknown:
        raise BadTable(f"it uses {unknown[0]}, which the sources don't have")
    whole.uses = {name: totals[name] for name in types if name in totals}
    return whole
