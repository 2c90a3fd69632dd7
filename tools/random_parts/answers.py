"""The texts of docs/PROGRAM.md: what an answer may look like, with its status, and what is read of it."""
import re

NAME = r"[A-Za-z_]\w*"
NUMBER = r"(?:0|[1-9]\d*)"
VALUE = rf"(?:-?[1-9]\d*|0)"
PATH = rf"pss_top(?:\.{NAME})*"
TYPE = rf"{NAME}::{NAME}"
INDEX = rf"(?:\[{NUMBER}\])?"
FIELD = rf" {NAME}{INDEX}={VALUE}"
CHOICE = rf" (?:{NAME}(?:\.{NAME})?{INDEX}={VALUE}|{NAME}<(?:{NUMBER}\.{NAME}|initial)|{NAME}\[{NUMBER}\])"

REFUSALS = [
    (re.compile(rf"lexical (?:bad|wide) (?P<place>.*)"), 1),
    (re.compile(rf"syntax (?:deep )?(?P<place>.*)"), 1),
    (re.compile(rf"rule (?P<rule>{NUMBER}) (?P<place>.*)"), 1),
    (re.compile(rf"usage {NUMBER}"), 2),
    (re.compile(rf"noscenario [0-8]"), 3),
    (re.compile(rf"budget [0-8]"), 4),
    (re.compile(rf"large (?:bytes 1048577|tokens 262145|instances 257)"), 9),
]
OWN = {
    "run": [(re.compile(rf"narrow {NUMBER} {NUMBER}"), 2)],
    "static": [(re.compile(rf"narrow {NUMBER} {NUMBER}"), 2)],
    "place": [(re.compile(rf"noroom {NUMBER}"), 3)],
    "check": [(re.compile(rf"check (?:whole|prefix)"), 0), (re.compile(rf"badtrace {NUMBER}"), 1), (re.compile(rf"illegal {NUMBER} (?:[1-9]|10|11)"), 3)],
}
INITIAL = re.compile(rf"initial {PATH}(?:{FIELD})*")
COMPOUND = re.compile(rf"compound {PATH} {TYPE}(?:{FIELD})*")
JOIN = re.compile(rf"join {NUMBER}(?: {NUMBER})*")
ACTION = re.compile(rf"action ({NUMBER}) {PATH} {TYPE} (leaf|inferred)((?:{CHOICE})*)")
LINKS = re.compile(rf"<({NUMBER})\.")
LAST = {"run": "done|fault|trap", "solve": "solved", "place": "placed", "static": "static"}


class Scenario:
    """What is read of a header: its lines, how many actions it has, how many of them are inferred, and their values."""

    def __init__(self, lines, count, inferred, values):
        self.lines, self.count, self.inferred, self.values = lines, count, inferred, values


def read_header(lines):
    """The scenario that a text begins with, or why it is none."""
    shape = re.fullmatch(rf"scenario ({NUMBER}) ({NUMBER})", lines[1]) if len(lines) > 1 else None
    if lines[0] != "pst 2" or not shape:
        return f"no header: {lines[:2]}"
    at, count, inferred = 2, int(shape[1]), 0
    for form in (INITIAL, COMPOUND, JOIN):
        while at < len(lines) and form.fullmatch(lines[at]):
            at += 1
    values = []
    for number in range(count):
        found = ACTION.fullmatch(lines[at]) if at < len(lines) else None
        if not found or int(found[1]) != number:
            return f"line {at + 1} isn't that of action {number}"
        if any(int(it) >= count for it in LINKS.findall(found[3])):
            return f"a link of action {number} leads to no action"
        inferred += found[2] == "inferred"
        values.append(dict(it.split("=") for it in found[3].split() if "=" in it))
        at += 1
    if inferred != int(shape[2]):
        return f"{inferred} inferred actions, where the header says {shape[2]}"
    return Scenario(lines[:at], count, inferred, values)


def is_place(text, files):
    """Whether a text is a place of the files, each with its bytes."""
    if text == "root:1:1":
        return True
    shape = re.fullmatch(r"([^:]+):([1-9]\d*):([1-9]\d*)", text)
    if not shape or shape[1] not in files:
        return False
    lines = files[shape[1]].split(b"\n")
    return int(shape[2]) <= len(lines) and int(shape[3]) <= len(lines[int(shape[2]) - 1]) + 1


def refusal_of(text, status, command, files):
    """Whether an answer of one line is one of the program's, with its status."""
    for form, owed in [*REFUSALS, *OWN.get(command, [])]:
        found = form.fullmatch(text)
        if found:
            told = found.groupdict()
            at_root = told.get("place") == "root:1:1"
            return status == owed and ("place" not in told or is_place(told["place"], files)) and (not at_root or told.get("rule") == "24")
    return False


def rows_of(lines, first, count):
    """What is wrong in the rows of a sweep."""
    if lines[0] != f"sweep {count}" or len(lines) < count + 2:
        return f"no sweep: {lines[:1]}"
    found = 0
    for at in range(count):
        row = re.fullmatch(rf"seed {first + at} (?:found {NUMBER} [0-8]|noscenario|budget [0-8])", lines[at + 1])
        if not row:
            return f"line {at + 2} is no row: {lines[at + 1]}"
        found += "found" in lines[at + 1]
    if any(not re.fullmatch(rf"use {TYPE} [1-9]\d*", line) for line in lines[count + 1 : -1]) or lines[-1] != f"found {found}":
        return f"wrong below the rows: {lines[-1]}"
    return None


def blocks_of(lines, count, last):
    """What is wrong in the starts, ends and the last line of a trace; each action starts and ends at most once, in turn."""
    running, ended = {}, set()
    for line in lines:
        words = line.split(" ")
        if re.fullmatch(rf"start(?: {NUMBER}:{NUMBER})+", line):
            pairs = [tuple(int(part) for part in word.split(":")) for word in words[1:]]
            for number, lane in pairs:
                if number in running or number in ended or number >= count or lane in running.values() or lane > 15:
                    return f"wrong start: {line}"
                running[number] = lane
        elif re.fullmatch(rf"end {NUMBER}", line) and int(words[1]) in running:
            ended.add(int(words[1]))
            del running[int(words[1])]
        else:
            return f"neither start nor end: {line}"
    words = last.split(" ")
    if words[0] == "done":
        return None if len(ended) == count and words == ["done", str(count)] else f"wrong end: {last}"
    fits = re.fullmatch(rf"fault {NUMBER} {NUMBER} {NUMBER}|trap {NUMBER} {NUMBER} [123]", last)
    return None if fits and running.get(int(words[2])) == int(words[1]) else f"wrong end: {last}"
