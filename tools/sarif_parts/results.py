"""Results of SARIF from the program's texts."""
from urllib.parse import quote

from reading_parts.messages import OTHER, RULES, message_of
from reading_parts.model import read_model
from reading_parts.story import Story
from reading_parts.syntax import Fault
from reading_parts.trace import BadLine, read

SCHEMA = "https://json.schemastore.org/sarif-2.1.0.json"
JUDGED = {
    1: "this line of the header isn't that of the scenario, is missing or is too many",
    2: "these starts aren't those of one whole group, ascending",
    3: "an action of this block has started before",
    4: "a lane is busy, or is named twice",
    5: "an action of an earlier statement hasn't ended",
    6: "the producer of a buffer hasn't ended",
    7: "the last writer of a state pool isn't the one that this action reads or replaces",
    8: "this action conflicts with one that runs, or with another of the block",
    9: "the action that ends doesn't run",
    10: "the last line doesn't fit the events",
    11: "an action that reads the replaced object hasn't ended",
}
ENDS = {
    "noscenario": "no legal scenario infers so few actions",
    "budget": "the budget was spent before a legal scenario was found",
    "badtrace": "this line is none of a trace",
    "fault": "a call of the body failed on its lane",
    "trap": "the body trapped",
}
KINDS = {1: "an expression has no value", 2: "a value is outside its range", 3: "more than 1,000 statements"}
FAILED = ("usage", "nofile", "narrow", "readfault", "large")


def rule_table():
    """Every rule that a result may name, with its sentence."""
    found = {f"rule-{number}": text for number, text in RULES.items()}
    found.update(OTHER)
    found.update({f"trace-{number}": text for number, text in JUDGED.items()})
    return {**found, **ENDS}


def location(file, line, column=None):
    region = {"startLine": line, **({"startColumn": column} if column else {})}
    return {"physicalLocation": {"artifactLocation": {"uri": quote(file)}, "region": region}}


def result(rule, level, text, place=None):
    found = {"ruleId": rule, "ruleIndex": list(rule_table()).index(rule), "level": level, "message": {"text": text}}
    return {**found, **({"locations": [place]} if place else {})}


def broken_off(text, sources):
    """The result of a trace that ends with a fault or a trap; nothing of another trace. Raises BadLine where it is none."""
    trace = read(text)
    word, numbers = trace.last
    if word not in ("fault", "trap"):
        return []
    lane, number, what = numbers
    action = trace.actions[number]
    said = f"call {what} failed" if word == "fault" else f"trapped: {KINDS[what]}"
    place = None
    if sources:
        place = Story(trace, read_model(sources)).place(number)
    where = location(place.file, place.line, place.column) if place else None
    return [result(word, "error", f"action {number} ({action.type}) on lane {lane}: {said}", where)]


def results_of(text, trace_name, sources):
    """The results of one output, and a sentence where the call failed."""
    line = text.decode("ascii", "replace").split("\n")[0]
    word, *rest = line.split(" ") if line else [""]
    message = message_of(line)
    if message:
        place = None if message.file == "root" else location(message.file, message.line, message.column)
        return [result(message.rule, "error", message.sentence(), place)], None
    if word in ("noscenario", "budget"):
        return [result(word, "warning", f"{ENDS[word]} ({line})")], None
    if word == "badtrace":
        return [result(word, "error", f"line {rest[0]} is none of a trace", location(trace_name, int(rest[0])) if trace_name else None)], None
    if word == "illegal":
        where = location(trace_name, int(rest[0])) if trace_name else None
        return [result(f"trace-{rest[1]}", "error", f"line {rest[0]} of the trace: {JUDGED[int(rest[1])]}", where)], None
    if word in FAILED or not line:
        return [], line or "the program printed nothing"
    if word == "check" or word != "pst":
        return [], None if word == "check" else f"'{line[:80]}' is no text of the program"
    try:
        return broken_off(text, sources), None
    except BadLine as bad:
        return [], f"line {bad.number} of the text {bad.why}"
    except Fault as fault:
        return [], str(fault)


def log_of(texts, trace_name, sources):
    """The whole log."""
    results, failed = [], []
    for text in texts:
        found, failure = results_of(text, trace_name, sources)
        results += found
        failed += [failure] if failure else []
    notes = [{"level": "error", "message": {"text": it}} for it in failed]
    rules = [{"id": name, "shortDescription": {"text": text}} for name, text in rule_table().items()]
    run = {
        "tool": {"driver": {"name": "pstim", "rules": rules}},
        "invocations": [{"executionSuccessful": not failed, "toolExecutionNotifications": notes}],
        "results": results,
        "columnKind": "utf16CodeUnits",
    }
    return {"$schema": SCHEMA, "version": "2.1.0", "runs": [run]}
